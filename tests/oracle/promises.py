"""What the papers promise beside the rules, tested on every answer.

The papers give some answers twice: by a rule, and by what the rule is to achieve. Where the two
differ, the line is answered by the broken promise, which is the answer of no other program, so
that tests/compare shows it.
"""


class Broken(Exception):
    """Two sentences of the papers differ on this question."""


def promise(holds, what):
    if not holds:
        raise Broken(what)
