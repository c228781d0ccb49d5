"""Questions of the kind plain: a list."""

from questions.lists import questions_of


def questions(random):
    return questions_of(b"plain", random)
