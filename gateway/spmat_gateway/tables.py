"""Tables of text: what `spmat-gateway` prints, and what a browser sees at the page's port."""
from __future__ import annotations

import datetime
import time
from typing import Any, Dict, Optional, Sequence

UNITS = ((10 ** 18, 'E'), (10 ** 15, 'P'), (10 ** 12, 'T'), (10 ** 9, 'G'), (10 ** 6, 'M'),
         (10 ** 3, 'k'))
USER_COLUMNS = ('name', 'group', 'enabled', 'token_ends', 'running', 'sessions', 'spent_today',
                'left_today', 'left_in_all')
SESSION_COLUMNS = ('id', 'user', 'gateway', 'address', 'seconds', 'spent', 'reserved', 'queued',
                   'runs', 'jobs', 'bytes_in', 'bytes_out', 'process')
LEDGER_COLUMNS = ('id', 'account', 'began', 'state', 'cause', 'basis', 'reserved', 'spent',
                  'charged', 'jobs')
PLAIN = ('process', 'running', 'sessions')         # numbers whose digits all count
TIMES = ('began', 'token_ends')                    # in seconds since 1970


def render(rows: Sequence[Dict[str, Any]], columns: Sequence[str]) -> str:
    """A table of some columns of rows, with their names above."""
    cells = [[column.replace('_', '-') for column in columns],
             *([_shown(column, row[column]) for column in columns] for row in rows)]
    widths = [max(map(len, column)) for column in zip(*cells)]
    return ''.join('  '.join(cell.ljust(width) for cell, width in zip(line, widths)).rstrip() + '\n'
                   for line in cells)


def short(number: Optional[int]) -> str:
    """A number in few digits, such as 1.25 G."""
    if number is None:
        return 'no limit'
    for size, unit in UNITS:
        if number >= 0.9995 * size:                # which three digits show as 1 already
            return '%.3g %s' % (max(1.0, number / size), unit)
    return str(number)


def moment(seconds: float) -> str:
    """A time since 1970, in UTC."""
    return time.strftime('%Y-%m-%dT%H:%M:%SZ', time.gmtime(seconds))


def _shown(column: str, value: Any) -> str:
    if column == 'id':
        return str(value)[:12]
    if column == 'seconds':
        return str(datetime.timedelta(seconds=int(value)))
    if isinstance(value, bool) or value is None:
        return {True: 'yes', False: 'no', None: '-'}[value]
    if column in TIMES:
        return moment(value)
    return str(value) if column in PLAIN or not isinstance(value, int) else short(value)
