"""`python3 -m spmat_gateway` is the command `spmat-gateway`."""
import sys

from .cli import main

if __name__ == '__main__':
    sys.exit(main())
