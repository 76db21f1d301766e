"""How a command of the repository starts and ends: `--help` prints the head of its file, which says
what it does and which arguments it takes."""
import sys
from typing import Callable, List

HELP = ('-h', '--help')


def run_command(main: Callable[[List[str]], int]) -> None:
    """Ends the process by what a command answers to its words, or prints its help where they ask
    for it."""
    words = sys.argv[1:]
    if any(word in HELP for word in words):
        print((sys.modules['__main__'].__doc__ or '').strip())
        sys.exit(0)
    sys.exit(main(words))
