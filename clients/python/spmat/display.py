"""What notebooks show: tables and programs in HTML without scripts, of which each class makes what
it shows of itself."""
from __future__ import annotations

from html import escape
from typing import List, Mapping, Sequence, Tuple

CELL = 'text-align:right;padding:1px 6px;white-space:nowrap;border:1px solid #ddd'
HEAD = 'text-align:right;padding:1px 6px;color:#5a6672;font-weight:normal;border:1px solid #ddd'
CORNER = 8                                         # rows and columns of a matrix that are shown
FEW = 50_000               # entries that come to the client; of more it asks for the corner


def text_of(thing: object) -> str:
    """Anything as text in HTML."""
    return escape(str(thing))


def table(heads: Sequence[object], rows: Sequence[Sequence[object]]) -> str:
    """A table; the first cell of each row is its name."""
    top = ''.join('<th style="%s">%s</th>' % (HEAD, text_of(head)) for head in heads)
    body = ''.join('<tr><th style="%s">%s</th>%s</tr>' % (HEAD, text_of(row[0]), ''.join(
        '<td style="%s">%s</td>' % (CELL, text_of(cell)) for cell in row[1:])) for row in rows)
    style = 'border-collapse:collapse;font-size:90%;font-family:monospace'
    return '<table style="%s"><tr>%s</tr>%s</table>' % (style, top, body)


def headed(kind: str, about: Sequence[str], rest: str) -> str:
    """A line about a matrix, and what stands below it."""
    return '<div><div style="margin-bottom:4px"><b>%s</b> %s</div>%s</div>' % (
        kind, ', '.join(about), rest)


def beside(*parts: str) -> str:
    """Parts side by side."""
    return '<div style="display:flex;gap:16px;align-items:flex-start">%s</div>' % ''.join(parts)


def code(text: str) -> str:
    """Lines of a program."""
    return ('<pre style="margin:4px '
            '0;text-align:left;white-space:pre-wrap;overflow-wrap:anywhere">%s</pre>'
            % text_of(text.strip('\n')))


def corner(rows: Sequence[object], columns: Sequence[object],
           cells: Mapping[Tuple[int, int], object]) -> str:
    """The first rows and columns of a matrix, by their names, with the values of its entries."""
    width, more = len(columns[:CORNER]), ['..'] if len(columns) > CORNER else []
    body: List[Sequence[object]] = [
        [name, *(cells.get((i, j), '') for j in range(width)), *more]
        for i, name in enumerate(rows[:CORNER])]
    if len(rows) > CORNER:
        body.append(['..'] * (1 + width) + more)
    return table(['', *columns[:CORNER], *more], body)
