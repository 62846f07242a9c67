"""Tests of lab/packets.py: the bytes that RFC 5905 has.

    python3 -m unittest lab.test_packets
"""

import unittest

from lab import packets


class Packets(unittest.TestCase):
    def test_a_request(self):
        self.assertEqual(packets.QUERY.hex(), "230006ec" + "00" * 36 + "1122334455667788")
        other = packets.request(1, version=1, poll=-3)
        self.assertEqual(other.hex(), "0b00fdec" + "00" * 36 + "00" * 7 + "01")

    def test_an_answer(self):
        found = packets.reply(packets.QUERY, 2**63, 2**63 + 1, b"GPS")
        due = "240106ec 00000000 00000040 47505300 8000000000000000 1122334455667788 8000000000000000 8000000000000001"
        self.assertEqual(found.hex(), due.replace(" ", ""))
        self.assertEqual(packets.number_of(found), 0x1122334455667788)
        kiss = packets.reply(packets.QUERY, 0, 0, b"RATE", 0, 5)
        self.assertEqual((kiss[1], kiss[12:16], packets.number_of(kiss)), (0, b"RATE", 5))

    def test_a_timestamp(self):
        """1970 began 2208988800 s after 1900; a timestamp has 32 bits of seconds."""
        self.assertEqual(packets.stamp(0.5), 2208988800 << 32 | 1 << 31)
        self.assertEqual(packets.stamp(2**32 - 2208988800), 0)
