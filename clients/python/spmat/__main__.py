"""`python3 -m spmat`: see `spmat.cli`."""
import sys

try:
    from .cli import run
except ModuleNotFoundError as missing:
    if missing.name != 'click':
        raise
    sys.exit('spmat-graph: the command line needs click (8.1 or newer): pip install click, or on '
             'Debian apt install python3-click')

if __name__ == '__main__':
    run('python3 -m spmat')
