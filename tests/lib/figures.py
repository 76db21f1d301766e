"""The measured figures of this version, in figures.txt, and bounds above them. `bench/measure`
rewrites that file."""
import os
from typing import Dict, List, Tuple

from tests.lib.runs import Wrong

PATH = os.path.join(os.path.dirname(os.path.abspath(__file__)), 'figures.txt')
# bounds are about a tenth above what was measured
ABOVE = 1.1

# of sessions of held.py the most bytes held for a unit, and the requests for memory of a batch; of
# those of instruction_sessions.py the x86 instructions
BYTES, REQUESTS, INSTRUCTIONS = 'bytes', 'requests', 'instructions'


def kept_figures(kind: str) -> Dict[str, float]:
    """The figures of a kind, by what was measured."""
    with open(PATH) as file:
        lines = [line.rstrip('\n').split(' | ') for line in file if not line.startswith('#')]
    return {what: float(figure) for name, what, figure in lines if name == kind}


def look_at(kind: str, measured: List[Tuple[str, float]], above: float = ABOVE) -> None:
    """Each figure is at most so many times what is kept of it, and all that is kept is measured."""
    kept = kept_figures(kind)
    if sorted(kept) != sorted(what for what, _ in measured):
        raise Wrong('figures.txt has other %s than are measured: %r'
                    % (kind, sorted(set(kept) ^ {what for what, _ in measured})))
    over = ['%s: %.1f, above %.1f' % (what, figure, above * kept[what]) for what, figure in measured
            if figure > above * kept[what]]
    if over:
        raise Wrong('; '.join(over))
