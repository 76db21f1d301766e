#!/usr/bin/env python3
"""functions SECONDS [--seed N] [--program PATH]
 Makes operators from random Python functions, and compares their values with Python's on the same
words: on the plain machine of reference, and with --program also in that program
(crates/spmat/out/spmat, or reference/__main__.py for the reference implementation). Function k of a
seed is always the same. It stops at the first difference, and prints the function, its assembly and
the operands.
"""
import argparse
import faulthandler
import os
import random
import sys

# modules are named from the top
sys.path[0] = os.path.dirname(os.path.dirname(os.path.dirname(os.path.realpath(__file__))))

from tests.lib.paths import CLIENT, CLIENT_TESTS, PLAIN_SERVER, TOP
from tools import numpy_python

sys.path[:1] = [CLIENT, CLIENT_TESTS, TOP]


def main(words):
    parser = argparse.ArgumentParser(description=__doc__,
                                     formatter_class=argparse.RawDescriptionHelpFormatter)
    parser.add_argument('seconds', type=float)
    parser.add_argument('--seed', type=int, default=random.randrange(1 << 32))
    parser.add_argument('--program')
    given = parser.parse_args(words)
    numpy_python.use()
    os.environ.setdefault('SPMAT', given.program or PLAIN_SERVER)
    import random_comparison
    import spmat
    faulthandler.cancel_dump_traceback_later()      # the tests' watch over hanging ones
    print('functions: seed %d' % given.seed, flush=True)
    session = spmat.Session(program=given.program) if given.program else None
    found = random_comparison.compared(given.seed, 1 << 60, session, given.seconds)
    if session is not None:
        session.close()
    print('functions: %d functions, %.1f instructions each, %d calls on the plain machine, %d '
          'through the program; refused: %s' % (
              found.functions, found.instructions / max(1, found.functions), found.calls,
              found.through, found.refused or 'none'))
    if found.fault:
        print(found.fault)
    return 1 if found.fault or not found.functions else 0


if __name__ == '__main__':
    sys.exit(main(sys.argv[1:]))
