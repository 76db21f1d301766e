#!/usr/bin/env python3
"""run --steps N --workers W

Serves one session on standard input and output, as `spmat run` does. Ends with status 0 after
`quit` or the end of the input, 2 where these words are refused, and 3 where a refusal ended the
session. It says nothing of streams that fail."""
import os
import re
import sys

sys.path.insert(0, os.path.dirname(os.path.dirname(os.path.realpath(__file__))))

from reference.session import Session       # noqa: E402 (the folder has to be known first)

MOST = {'--steps': 1 << 62, '--workers': 64}
LEAST = {'--steps': 0, '--workers': 1}


def settings(words):
    """The numbers of the command line by their names, or None where its words are refused."""
    numbers = {}
    parts = [part for word in words[1:] for part in (word.split('=', 1) if word.startswith('--')
                                                     else [word])]
    if words[:1] != ['run'] or len(parts) != 4:
        return None
    for name, word in zip(parts[::2], parts[1::2]):
        if name not in MOST or not re.fullmatch('[+]?[0-9]+',
                                                word) or not LEAST[name] <= int(word) <= MOST[name]:
            return None
        numbers[name] = int(word)
    return numbers if len(numbers) == 2 else None


def main(words):
    numbers = settings(words)
    if numbers is None:
        sys.stderr.write(__doc__ + '\n')
        return 2
    return Session(numbers['--steps']).serve(sys.stdin.buffer, sys.stdout.buffer)


if __name__ == '__main__':
    sys.exit(main(sys.argv[1:]))
