"""Runs the tests of the oracle itself: python3 tests/unit

They hold it to values computed by hand from 01 and IEEE 754, and to what Python says of floats.
"""

import sys
import unittest
from pathlib import Path

HERE = Path(__file__).resolve().parent
sys.path.insert(0, str(HERE.parent / "oracle"))

result = unittest.TextTestRunner().run(unittest.defaultTestLoader.discover(str(HERE)))
sys.exit(0 if result.wasSuccessful() and result.testsRun else 1)
