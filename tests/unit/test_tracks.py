"""Track files, against bytes written down by hand."""

import random
import unittest

from floats import pattern_of, patterns_of, words_of
from tracks import answer_read, answer_write, file_of, number_at, number_bytes, patterns_of as read_patterns
from words import Refused, Unclear

ONE = "80" * 7 + "f07f"  # 1.0 as a first coordinate
MINUS_ZERO = "ff" * 9 + "01"

# coordinates and their file
BY_HAND = [
    ([], "00"),
    ([0.0, 0.0], "010000"),
    ([1.0, 0.0], "01" + ONE + "00"),
    ([-0.0, 1.0], "01" + MINUS_ZERO + ONE),
    ([1.0, 1.0, 1.0, 1.0], "02" + ONE + ONE + "0000"),
    ([1.0, 1.0, 1 + 2.0**-52, 1 - 2.0**-53], "02" + ONE + ONE + "0201"),  # up and down by one last place
    ([0.0] * 256, "8001" + "00" * 256),
    ([0.0] * 1024, "8004" + "00" * 1024),
    # from -0 to +0 the difference is 2^63 again, which is read as -2^63
    ([-0.0, 0.0, 0.0, 0.0], "02" + MINUS_ZERO + "00" + MINUS_ZERO + "00"),
]

# the file, the room, and the refusal
REFUSED_FILES = [
    ("", 0, 6, 0),
    ("80", 0, 6, 0),
    ("8000", 0, 7, 0),
    ("ff" * 9, 0, 6, 0),
    ("ff" * 9 + "00", 0, 7, 0),
    ("ff" * 9 + "01", 0, 1, 0),
    ("ff" * 9 + "02", 0, 7, 0),
    ("ff" * 9 + "80", 0, 7, 0),
    ("ff" * 9 + "81", 0, 7, 0),
    ("ff" * 10 + "00", 0, 7, 0),
    ("8104", 0, 1, 0),  # 513 points
    ("8104", 1100, 1, 0),
    ("8004", 1023, 9, 0),  # 512 points
    ("8004", 1024, 6, 2),
    ("01", 1, 9, 0),
    ("01", 2, 6, 1),
    ("0100", 2, 6, 2),
    ("010080", 2, 6, 2),
    ("01008000", 2, 7, 2),
    ("010280", 2, 3, 1),  # the least subnormal, judged before the next number
    ("0100028000", 2, 3, 2),
    ("01000000", 2, 8, 3),
    ("0000", 0, 8, 1),
    ("00ff", 1100, 8, 1),
]


def refusal_of(test, answer, words):
    with test.assertRaises(Refused) as refusal:
        answer(words)
    return refusal.exception.number, refusal.exception.place


class Numbers(unittest.TestCase):
    def test_lengths_and_back(self):
        for bits in range(65):
            for number in (2**bits - 1, 2**bits, 2**bits + 1):
                if number < 2**64:
                    form = number_bytes(number)
                    self.assertEqual(len(form), max(1, -(-number.bit_length() // 7)))
                    self.assertEqual(number_at(b"\x80" + form + b"\x80", 1), (number, 1 + len(form)))


class Files(unittest.TestCase):
    def test_files_by_hand(self):
        for numbers, file in BY_HAND:
            with self.subTest(file[:60]):
                words, digits, length = words_of(numbers), file.encode(), len(file) // 2
                points = len(numbers) // 2
                written = b"write %d %s" % (length, digits)
                self.assertEqual(answer_write([b"10300"] + words), written)
                self.assertEqual(answer_write([b"%d" % length] + words), written)
                self.assertEqual(refusal_of(self, answer_write, [b"%d" % (length - 1)] + words), (9, 0))
                self.assertEqual(answer_read([b"1100", digits]), b" ".join([b"read %d" % points] + words))
                self.assertEqual(answer_read([b"%d" % (2 * points), digits.upper()]).split()[2:], words)

    def test_longest_file(self):
        numbers = [2.0, 2.0, -2.0, -2.0] * 256
        file = file_of(patterns_of(numbers))
        self.assertEqual(len(file), 10_242)
        self.assertEqual(read_patterns(file, 1024), patterns_of(numbers))
        for more in (1, 2, 5000):
            words = [b"1024", (file + bytes(more)).hex().encode()]
            self.assertEqual(refusal_of(self, answer_read, words), (8, 10_242))

    def test_refused_lists(self):
        infinite, nan = float("inf"), float("nan")
        for numbers, room, number, place in (
            ([1.0], 0, 5, 0),
            ([infinite] * 1025, 0, 5, 0),
            ([infinite] * 1026, 0, 1, 0),
            ([1.0] * 1026, 10_300, 1, 0),
            ([0.0, nan, infinite, 1.0], 0, 3, 1),
            ([0.0] * 1023 + [5e-324], 10_300, 3, 1023),
            ([0.0] * 1024, 1025, 9, 0),
            ([], 0, 9, 0),
        ):
            self.assertEqual(refusal_of(self, answer_write, [b"%d" % room] + words_of(numbers)), (number, place))

    def test_refused_files(self):
        for file, room, number, place in REFUSED_FILES:
            with self.subTest(file):
                words = [b"%d" % room] + [digits.encode() for digits in (file,) if digits]
                self.assertEqual(refusal_of(self, answer_read, words), (number, place))

    def test_every_accepted_file_is_what_the_writer_writes(self):
        seeded = random.Random(754)
        good = file_of(patterns_of([0.25, -3.5, 0.75, -3.0]))
        for _ in range(20_000):
            file = bytearray(good)
            file[seeded.randrange(len(file))] = seeded.choice((0, 1, 2, 127, 128, 255, seeded.randrange(256)))
            try:
                patterns = read_patterns(bytes(file), 1100)
            except Refused:
                continue
            self.assertEqual(file_of(patterns), bytes(file))

    def test_lines(self):
        one = b"%016x" % pattern_of(1.0)
        self.assertEqual(answer_write([b"1"]), b"write 1 00")
        self.assertEqual(answer_read([b"0", b"00"]), b"read 0")
        for words in ([], [b""], [b"10301"], [b"x"], [b"00"], [b"9", b"1"], [b"9"] + [one] * 1100 + [b"x"]):
            with self.assertRaises(Unclear):
                answer_write(words)
        for words in ([], [b""], [b"1101", b"00"], [b"0", b"0"], [b"0", b""], [b"0", b"00", b"00"], [b"0", b"0g"]):
            with self.assertRaises(Unclear):
                answer_read(words)
