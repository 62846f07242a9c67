"""Tests of chrony.py: what is read of chronyd's log of measurements.

    python3 -m unittest bench.test_chrony
"""

import pathlib
import tempfile
import unittest

from bench.chrony import chrony_readings

# The example of chrony.conf(5), "log measurements", and a line of it whose leap status says that the server has no time.
LOG = """\
====================================================================================================================
   Date (UTC) Time     IP Address   L St 123 567 ABCD  LP RP Score    Offset  Peer del. Peer disp.  Root del. Root disp. Refid     MTxRx
====================================================================================================================
2016-11-09 05:40:50 203.0.113.15    N  2 111 111 1111   6  6 1.00 -4.966e-03  2.296e-01  1.577e-05  1.615e-01  7.446e-03 CB00717B 4B D K
2016-11-09 05:40:51 203.0.113.15    ?  2 111 111 1111   6  6 1.00 -4.966e-03  2.296e-01  1.577e-05  1.615e-01  7.446e-03 CB00717B 4B D K
"""


class Readings(unittest.TestCase):
    def test_the_manuals_example(self):
        with tempfile.TemporaryDirectory() as folder:
            log = pathlib.Path(folder, "measurements.log")
            self.assertEqual(chrony_readings(log), [])
            log.write_text(LOG)
            (found,) = chrony_readings(log)
        self.assertEqual((found.unix, found.offset, found.took), (1478670050, -0.004966, 0.2296))
        self.assertAlmostEqual(found.distance, 0.1615 / 2 + 0.007446 + 0.2296 / 2 + 0.00001577)
