"""Questions of the kind ceiling: a list."""

from questions.lists import questions_of


def questions(random):
    return questions_of(b"ceiling", random)
