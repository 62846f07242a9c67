"""From which addresses a link is asked, and eras of NTP."""

import ipaddress
import unittest

from keeper.ntp import EPOCH, own_addresses, unix_of


class Addresses(unittest.TestCase):
    def test_none_asks_twice_within_the_gap(self) -> None:
        """A link is asked every two seconds."""
        for gap in (0.0, 0.5, 2.0, 7.0, 20.0):
            found = own_addresses([], gap)
            self.assertEqual(len(set(found)), len(found))
            self.assertGreater(2.0 * len(found), gap)
            self.assertTrue(all(ipaddress.ip_address(one).is_loopback for one in found))

    def test_none_is_denied(self) -> None:
        for net in ("127.45.67.1/32", "127.45.67.3/32", "127.45.67.0/24", "127.45.0.0/20"):
            found = own_addresses([net], 20.0)
            denied = ipaddress.ip_network(net)
            self.assertFalse([one for one in found if ipaddress.ip_address(one) in denied], net)


class Eras(unittest.TestCase):
    def test_a_stamp_is_of_the_era_that_is_nearest(self) -> None:
        """The first era ends on 2036-02-07 at 06:28:16 UTC (RFC 5905, section 6)."""
        ends = 2085978496.0
        for now, seconds, due in (
                (1_700_000_000.0, 1_700_000_000.0 + EPOCH, 1_700_000_000.0),
                (ends + 5, 3.0, ends + 3), (ends - 5, 3.0, ends + 3),
                (ends + 5, 2.0**32 - 3, ends - 3), (1_700_000_000.0, 0.0, 0.0)):
            self.assertEqual(unix_of(seconds, now), due)


if __name__ == "__main__":
    unittest.main()
