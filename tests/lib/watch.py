"""A test that hangs ends the whole run, and is named."""
import faulthandler
import unittest
from typing import Any

LONGEST = 600                                      # seconds of a test, on a busy machine


def watch_tests() -> None:
    """From now on each test has so long, and so has what sets up a class. One that takes longer
    ends the process, which tells by names and lines where each thread stands."""
    run: Any = unittest.TestCase.run

    def watched(test: unittest.TestCase, result: Any = None) -> Any:
        faulthandler.dump_traceback_later(LONGEST, exit=True)
        return run(test, result)
    faulthandler.dump_traceback_later(LONGEST, exit=True)
    setattr(unittest.TestCase, 'run', watched)
