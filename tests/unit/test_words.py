"""Which words are doubles, counts, rooms and bytes, and which are unclear; and the numbers of a refusal."""

import unittest

from words import Refused, Unclear, read_bytes, read_count, read_double, read_room


class Words(unittest.TestCase):
    def check(self, read, accepted, unclear):
        for word, value in accepted.items():
            with self.subTest(word):
                self.assertEqual(read(word), value)
        for word in unclear:
            with self.subTest(word), self.assertRaises(Unclear):
                read(word)

    def test_doubles(self):
        self.check(
            read_double,
            {b"0000000000000000": 0, b"3ff0000000000000": 1023 << 52, b"aBcDeF0123456789": 0xABCDEF0123456789},
            [b"", b"0", b"000000000000000", b"00000000000000000", b"000000000000000g", b"0x00000000000000"]
            + [b"+000000000000000", b"0000_0000_0000_0", b"000000000000000 ", b"000000000000000\n"]
            + [b"0000000000000000\n", b"000000000000000\xb2"],
        )

    def test_counts(self):
        self.check(
            read_count,
            {b"0": 0, b"7": 7, b"10": 10, b"4294967295": 2**32 - 1},
            [b"", b"00", b"01", b"-0", b"+1", b"1_0", b" 1", b"1\n", b"1.0", b"a", b"\xb2"]
            + [b"4294967296", b"10000000000", b"1" * 5000],
        )

    def test_rooms(self):
        self.check(
            lambda word: read_room(word, 100),
            {b"0": 0, b"64": 64, b"100": 100},
            [b"", b"00", b"064", b"-1", b"101", b"1000", b"4294967295", b"4294967296"],
        )

    def test_bytes(self):
        self.check(
            read_bytes,
            {b"00": b"\x00", b"8000": b"\x80\x00", b"fFFf01": b"\xff\xff\x01"},
            [b"", b"0", b"000", b"0g", b"0x", b"00 00", b"00\n", b"\xb2\xb2"],
        )

    def test_refusals(self):
        for numbers in ((3, 7), (3, 7, 0), (1, 0, 15)):
            refusal = Refused(*numbers)
            self.assertEqual((refusal.number, refusal.place, refusal.args), (*numbers[:2], numbers))
