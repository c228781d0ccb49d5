"""The oracle as a process: which lines are answered, copied or unclear, and when."""

import subprocess
import sys
import unittest
from pathlib import Path

ORACLE = [sys.executable, "-S", str(Path(__file__).resolve().parent.parent / "oracle")]

ONE = b"apart 3ff0000000000000"
ONE_APART = b"apart 0 4503599627370496 1022"

UNCLEAR = [
    b"apart", b"apart ", b" ", b" " + ONE, ONE + b" ", b"apart  3ff0000000000000", ONE + b" 3ff0000000000000",
    ONE + b"\r", b"\r", b"\x00", ONE + b"\x00", b"\xff", b"apart\t3ff0000000000000", b" # comment",
    b"Apart 3ff0000000000000", b"apart 3ff000000000000", b"apart 03ff0000000000000", b"apart 3ff000000000000g",
    b"a" * 100_000, b" " * 100_000,
    b"run", b"run ", b"run 01", b"run 4294967296", b"ceiling ", b"plain 0", b"side", b"zone", b"zone 3ff0000000000000",
    b"why", b"why 0", b"why 0 3ff0000000000000", b"why" + 8 * b" 3ff0000000000000", b"why 101" + 8 * b" 3ff0000000000000",
    b"plan", b"plan 0", b"plan 0 3ff0000000000000", b"plan" + 8 * b" 3ff0000000000000",
    b"plan 2 3" + 8 * b" 3ff0000000000000", b"plan 21" + 21 * b" 0" + 2 * b" 3ff0000000000000",
    b"plan 0" + 2215 * b" 3ff0000000000000",
    b"plane", b"plane" + 11 * b" 3ff0000000000000", b"meet", b"meet" + 7 * b" 3ff0000000000000",
    b"write", b"write 10301", b"read", b"read 0 ", b"read 1101", b"read 0 0", b"read 0 00 00",
]

COPIED = [b"", b"#", b"# " + ONE, b"#\r", b"#\x00\x80\xff", b"#" + b"\xff" * 100_000]

ANSWERED = [
    (ONE, ONE_APART),
    (b"apart 3FF0000000000000", ONE_APART),
    (b"apart 7ff0000000000000", b"refused 2 0"),
    (b"apart fFf8000000000000", b"refused 2 0"),
    (b"run 0", b"run 0 0"),
    (b"run 1 3FF0000000000000 BFF0000000000000", b"run 0 1 0000000000000000 0000000000000000"),
    (b"run 0 3ff0000000000000 bff0000000000000", b"run undecided 0 3ff0000000000000 bff0000000000000"),
    (b"run 0 fff8000000000000", b"refused 2 0"),
    (b"ceiling", b"ceiling 0"),
    (b"plain", b"plain 0"),
    (b"plain bff0000000000000", b"plain -1"),
    (b"side" + 6 * b" 3ff0000000000000", b"side 0 1 0"),
    (b"zone" + 8 * b" 3ff0000000000000", b"zone border 0"),
    (b"zone 3ff0000000000000 3ff0000000000000", b"refused 4 0"),
    (b"why 0" + 8 * b" 3ff0000000000000", b"why border 0 corner"),
    (b"why 100" + 2 * b" 4000000000000000" + 6 * b" 3ff0000000000000", b"why outside 0"),
    (b"why 0 3ff0000000000000 3ff0000000000000", b"refused 4 0"),
    (b"plan 0 3ff0000000000000 3ff0000000000000", b"plan none"),
    (b"plan 1 3" + 8 * b" 3ff0000000000000", b"plan border 0"),
    (b"plan 2 3 2" + 12 * b" 3ff0000000000000", b"refused 4 0 1"),
    (b"plan 2 3 3" + 13 * b" 3ff0000000000000" + b" 7ff0000000000000", b"refused 3 7 1"),
    (b"plan 20" + 20 * b" 0" + 2 * b" 3ff0000000000000", b"refused 1 0 0"),
    (b"plan 0" + 2214 * b" 3ff0000000000000", b"refused 5 0 0"),
    (b"plane" + 12 * b" 3ff0000000000000", b"plane 0 12"),
    (b"plane" + 11 * b" 3ff0000000000000" + b" 7ff0000000000000", b"refused 3 11"),
    (b"meet" + 8 * b" 3ff0000000000000", b"meet touching"),
    (b"meet" + 7 * b" 3ff0000000000000" + b" 7ff0000000000000", b"refused 3 7"),
    (b"write 10300", b"write 1 00"),
    (b"read 1100 00", b"read 0"),
    (b"read 0", b"refused 6 0"),
]


def ask(text):
    return subprocess.run(ORACLE, input=text, stdout=subprocess.PIPE, check=True).stdout


class Frame(unittest.TestCase):
    def test_each_line_has_its_answer(self):
        expected = ANSWERED + [(line, line) for line in COPIED] + [(line, b"unclear") for line in UNCLEAR]
        answers = ask(b"".join(line + b"\n" for line, _ in expected)).split(b"\n")
        self.assertEqual(answers.pop(), b"")
        self.assertEqual(len(answers), len(expected))
        for (line, answer), got in zip(expected, answers):
            with self.subTest(line[:40]):
                self.assertEqual(got, answer)

    def test_last_line_without_line_end(self):
        self.assertEqual(ask(ONE), ONE_APART + b"\n")
        self.assertEqual(ask(b"\n#"), b"\n#\n")

    def test_no_line_no_answer(self):
        self.assertEqual(ask(b""), b"")

    def test_answers_before_it_waits(self):
        with subprocess.Popen(ORACLE, stdin=subprocess.PIPE, stdout=subprocess.PIPE) as oracle:
            for _ in range(3):
                oracle.stdin.write(ONE + b"\n")
                oracle.stdin.flush()
                self.assertEqual(oracle.stdout.readline(), ONE_APART + b"\n")
            oracle.stdin.close()
