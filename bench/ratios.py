#!/usr/bin/env python3
"""ratios.py            writes the tables of figures into docs/performance.md and other pages
ratios.py --check    sees that the pages have them as the raw figures are

bench/peers.txt has the milliseconds of `bench/run peers`, bench/algorithms.txt the seconds of
`bench/run algorithms`, bench/algorithms_few.txt those on graphs of 1,024 vertices,
bench/algorithms_large.txt those on graphs of a million edges, bench/networkx.txt those of
bench/networkx.py, bench/speed.txt the steps of a second, and bench/machine.txt what all of it
stands on. The pages show ratios, which say more than seconds of some machine: each table stands
between the comments `<!-- bench/ratios NAME -->` and `<!-- end -->`.
"""
import os
import re
import sys
from typing import Callable, Dict, List, NamedTuple, Optional, Tuple

BENCH = os.path.dirname(os.path.abspath(__file__))
TOP = os.path.dirname(BENCH)
PAGE = os.path.join(TOP, 'docs', 'performance.md')
MEASUREMENTS = os.path.join(BENCH, 'README.md')
LIMITS, FAQ, SERVICE, COMPARISON = (os.path.join(TOP, 'docs', name) for name in (
    'limits.md', 'faq.md', 'service.md', 'comparison.md'))
FEW = 'algorithms_few.txt'
FAR = 10.0                                         # times as long as the best library
# how many times as long as the best library a call was to take at most, by graphs
TARGETS: Dict[str, Dict[str, float]] = {
    'bfs_levels': {'kron': 2, 'urand': 2, 'road': 1},
    'sssp': {'kron': 1, 'urand': 0.7, 'road': 1},
    'triangle_count': {'kron': 1, 'urand': 1},
    'pagerank': {'kron': 1, 'urand': 0.5, 'road': 1},
    'connected_components': {'kron': 1, 'urand': 1.2, 'road': 2},
    'minimum_spanning_forest': {'kron': 1.5, 'urand': 1.5, 'road': 2},
    'core_numbers': {'kron': 0.8, 'urand': 0.5, 'road': 1},
    'strongly_connected_components': {'directed': 3},
}
# what the comparison shows: algorithms, and libraries by their names in the figures
THREE = {'bfs_levels': 'levels of a search', 'pagerank': 'PageRank', 'triangle_count': 'triangles'}
COMPARED = {'graphblas': 'SuiteSparse:GraphBLAS', 'igraph': 'igraph', 'scipy': 'scipy',
            'networkx': 'networkx'}
# whole algorithms; what is measured on a dag alone stands with directed
GRAPHS = ('kron', 'urand', 'road', 'directed')
# the size that the page shows of networkx' functions
EDGES = '100,000 edges'
BANDS = ((100, '100 and more'), (30, '30 to 100'), (10, '10 to 30'), (3, '3 to 10'), (1, '1 to 3'),
         (0, 'below 1'))
HEAD_OF_PEERS = (
    '| job | 4 workers, times as fast as 1 | user\'s operators, 1 thread | 4 threads | '
    'built-in, 1 thread | 4 threads |')


class Times(NamedTuple):
    """Seconds of a function: networkx', the backend's with the conversion, and on a graph that is
    at the server. None where none was taken."""
    networkx: Optional[float]
    first: Optional[float]
    again: Optional[float]
    is_bound: bool                                 # networkx was ended: it takes longer than that


def text_of(name: str) -> str:
    """A file of raw figures."""
    with open(os.path.join(BENCH, name), encoding='utf-8') as file:
        return file.read()


def rows_of(table: str) -> List[List[str]]:
    """The cells of a table in Markdown, its head first."""
    lines = [line for line in table.split('\n') if line.startswith('|')]
    return [[cell.strip() for cell in line.strip('|').split('|')] for line in lines[:1] + lines[2:]]


def peers(raw: str) -> str:
    """Our time divided by the library's, of each job, from the table of milliseconds."""
    _, *rows = rows_of(raw)
    return '\n'.join([HEAD_OF_PEERS, '|---|---|---|---|---|---|',
                      *('| %s |' % ' | '.join([row[0], row[3]] + row[8:12]) for row in rows)])


class Measured(NamedTuple):
    """An algorithm on a graph: both names, the number of vertices, how many times as long as the
    best peer it took, that peer ('' where there is none), and the server's share of a call in per
    cent."""
    task: str
    graph: str
    vertices: int
    ratio: str
    best: str
    share: float


def measured(row: List[str]) -> Measured:
    """What a row of the figures of algorithms says."""
    graph, _, size = row[0].partition(': ')
    return Measured(row[1], graph, int(size.split()[0]), row[6], row[5].split()[0] if row[5] != '-'
                    else '', 100 * float(row[4]) / float(row[3]))


def algorithms(raw: str) -> str:
    """How many times as long as the best peer each algorithm took, by graphs and sizes, with that
    peer at the larger one."""
    found = [measured(row) for row in rows_of(raw)[1:]]
    lines = []
    for task in dict.fromkeys(one.task for one in found):
        own = [one for one in found if one.task == task]
        graphs = {one.graph for one in own}
        cells = [ratios_of([one for one in own if one.graph == graph
                            or (graph == 'directed' and graphs == {'dag'})]) for graph in GRAPHS]
        sizes = ', '.join(format(size, ',') for size in sorted({one.vertices for one in own}))
        name, rest = re.match(r'(\w+)(.*)', task).groups()  # type: ignore[union-attr]
        share = max(own, key=size_of).share
        lines.append('| `%s`%s | %s | %s | %.0f%% |'
                     % (name, rest, sizes, ' | '.join(cells), share))
    return '\n'.join(['| algorithm | vertices | %s | server |' % ' | '.join(GRAPHS),
                      '|---' * (len(GRAPHS) + 3) + '|', *lines])


def size_of(one: Measured) -> int:
    """How many vertices."""
    return one.vertices


def ratios_of(some: List[Measured]) -> str:
    """The ratios of one algorithm on one kind of graph."""
    if not some:
        return ''
    if not any(one.best for one in some):
        return 'no peer'
    return ', '.join('-' if one.ratio == '-' else shown(float(one.ratio))
                     for one in sorted(some, key=size_of)) + ' ' + max(some, key=size_of).best


def times(cell: str) -> Optional[Times]:
    """What a cell of networkx' figures says: networkx / first / again / igraph."""
    parts = [part.strip() for part in cell.split('/')]
    if len(parts) != 4:
        return None
    seconds = [None if part == '-' else float(part.lstrip('>')) for part in parts]
    return Times(seconds[0], seconds[1], seconds[2], parts[0].startswith('>'))


def networkx(raw: str) -> str:
    """How many times faster than networkx the functions are, in bands: again, and in brackets with
    the conversion."""
    head, *rows = rows_of(raw)
    bands: Dict[str, List[str]] = {name: [] for _, name in BANDS}
    column = head.index(EDGES)
    found = {row[0]: times(row[column]) for row in rows}
    for name, taken in sorted(found.items(), key=lambda item: (-again(item[1]), item[0])):
        if taken and taken.networkx and taken.first and taken.again:
            faster = taken.networkx / taken.again
            more = '>' if taken.is_bound else ''
            band = next(told for least, told in BANDS if faster >= least)
            bands[band].append('%s %s%s (%s%s)' % (name, more, shown(faster), more,
                                                   shown(taken.networkx / taken.first)))
    return '\n'.join(['| Times as fast as networkx | Functions |', '|---|---|',
                      *('| %s | %s |' % (band, '; '.join(names)) for band, names in bands.items()
                        if names)])


def again(taken: Optional[Times]) -> float:
    """What functions are ordered by."""
    return taken.networkx / taken.again if taken and taken.networkx and taken.again else 0.0


def shown(ratio: float) -> str:
    """A ratio in two digits."""
    return ('%.0f' % ratio if ratio >= 9.5 else '%.1f' % ratio if ratio >= 1 else '%.2f' % ratio
            if ratio >= 0.01 else '%.3f' % ratio)


def by_graph(raw: str, smallest: bool = False) -> str:
    """The time of a call, how many times as long as the best peer it took, and that peer, of each
    algorithm on each graph; of several sizes the least where that is asked."""
    rows = rows_of(raw)[1:]
    sizes: Dict[str, int] = {}
    for one in map(measured, rows):
        sizes[one.task] = min(one.vertices, sizes.get(one.task, one.vertices))
    cells: Dict[str, Dict[str, str]] = {}
    for row in rows:
        one = measured(row)
        if smallest and one.vertices > 2 * sizes[one.task]:
            continue
        peer = ', %s %s' % (shown(float(one.ratio)), one.best) if one.best else ''
        graph = 'directed' if one.graph == 'dag' else one.graph
        cells.setdefault(one.task, {}).setdefault(graph, duration(float(row[3])) + peer)
    lines = ['| `%s`%s | %s |' % (*named(name), ' | '.join(found.get(graph, '')
                                                           for graph in GRAPHS))
             for name, found in cells.items()]
    return '\n'.join(['| algorithm | %s |' % ' | '.join(GRAPHS), '|---' * (len(GRAPHS) + 1) + '|',
                      *lines])


def named(task: str) -> Tuple[str, str]:
    """The name of a task's algorithm, and what is said behind it."""
    name = re.match(r'\w*', task)
    return (name.group(0), task[name.end():]) if name else (task, '')


def few() -> str:
    """The times of each algorithm by spmat and by two libraries, on the first graph that it was
    measured on, and how many times as long as by these it took."""
    rows: Dict[str, List[str]] = {}
    for row in rows_of(text_of(FEW))[1:]:
        rows.setdefault(row[1], row)
    lines = []
    for row in rows.values():
        cells = ['%s, %s' % (duration(float(taken)), shown(float(row[3]) / max(float(taken), 1e-6)))
                 if taken else '' for taken in map(seconds_of(row).get, ('igraph', 'networkx'))]
        lines.append('| `%s`%s | %s | %s | %s |'
                     % (*named(row[1]), measured(row).graph, duration(float(row[3])),
                        ' | '.join(cells)))
    return '\n'.join(['| algorithm | graph | spmat | igraph | networkx |', '|---' * 5 + '|', *lines])


def seconds_of(row: List[str]) -> Dict[str, str]:
    """The seconds of each library, of a row of the figures of algorithms."""
    return {} if row[5] == '-' else dict(peer.rsplit(' ', 1) for peer in row[5].split(', '))


def slow(*raws: str) -> str:
    """The algorithms that took at least FAR times as long as the best peer on some graph, with the
    greatest ratio."""
    worst: Dict[str, Measured] = {}
    for one in (measured(row) for raw in raws for row in rows_of(raw)[1:]):
        if one.best and (one.task not in worst or float(one.ratio) > float(worst[one.task].ratio)):
            worst[one.task] = one
    far = sorted((one for one in worst.values() if float(one.ratio) >= FAR),
                 key=lambda one: -float(one.ratio))
    lines = ['| `%s`%s | %s | %s, %s vertices | %s |'
             % (*named(one.task), shown(float(one.ratio)), one.graph, format(one.vertices, ','),
                one.best) for one in far]
    return '\n'.join(['| algorithm | times as long | on | as |', '|---|---|---|---|', *lines])


def three(raw: str) -> str:
    """The times of three algorithms by spmat and by each library, on the largest skewed graph on
    which all were measured."""
    rows = [row for row in rows_of(raw)[1:] if row[1] in THREE and measured(row).graph == 'kron'
            and 'networkx' in row[5]]
    largest = max(measured(row).vertices for row in rows)
    rows = [row for row in rows if measured(row).vertices == largest]
    lines = []
    for row in rows:
        found = seconds_of(row)
        cells = [duration(float(found[name])) if name in found else '' for name in COMPARED]
        lines.append('| %s | %s |' % (THREE[row[1]], ' | '.join([duration(float(row[3])), *cells])))
    entries = rows[0][0].split(', ')[1].split()[0]
    return '\n'.join(['| `kron`, %s vertices, %s edges | spmat | %s |'
                      % (format(largest, ','), format(int(entries) // 2, ','),
                         ' | '.join(COMPARED.values())),
                      '|---' * (len(COMPARED) + 2) + '|', *lines, '', noted()])


def noted() -> str:
    """On which machine and when the figures were taken, in a sentence."""
    told = dict(line.split(': ', 1) for line in text_of('machine.txt').splitlines())
    return 'Measured on %s: %s.' % (told['date'], told['processor'])


# -- the machine, and the steps of a second

def machine() -> str:
    """What the figures stand on, as a table."""
    rows = [line.split(': ', 1) for line in text_of('machine.txt').splitlines()]
    return '\n'.join(['| What | These figures |', '|---|---|',
                      *('| %s | %s |' % (name, told) for name, told in rows)])


def step_range() -> Tuple[int, int]:
    """The least and the most million steps that a worker makes in a second, in two digits."""
    found = [float(row[2]) for row in rows_of(text_of('speed.txt'))[1:]]
    low, high = (float('%.2g' % number) for number in (min(found), max(found)))
    return int(low), int(high)


def steps_a_second() -> str:
    return 'A worker makes %d to %d million steps per second.' % step_range()


def whole_queue() -> str:
    """How long a full queue of the longest jobs takes."""
    low, high = step_range()
    queue = 64 * 2 ** 32 / 1e6
    return ('At %d to %d million steps per second, one worker needs %.0f to %.0f minutes for such '
            'a queue.' % (low, high, queue / high / 60, queue / low / 60))


def a_million() -> str:
    """How long a million steps take."""
    low, high = step_range()
    return 'A million steps take a worker %.2g to %.2g milliseconds.' % (1e3 / high, 1e3 / low)


def a_day() -> str:
    """How long the steps of the largest account take."""
    low, high = step_range()
    return '10^12 steps are %.0f to %.0f minutes of one processor.' % (1e6 / high / 60,
                                                                       1e6 / low / 60)


def targets(raw: str) -> str:
    """Each target with what was measured, those that were missed marked."""
    found = {(one.task, one.graph): one for one in map(measured, rows_of(raw)[1:]) if one.best}
    lines = []
    for task, wanted in TARGETS.items():
        cells = []
        for graph in GRAPHS:
            one = found.get((task, graph))
            cells.append('' if graph not in wanted or one is None else '%g: %s%s' % (
                wanted[graph], shown(float(one.ratio)),
                '' if float(one.ratio) <= wanted[graph] else ', missed'))
        lines.append('| `%s` | %s |' % (task, ' | '.join(cells)))
    return '\n'.join(['| algorithm, target: measured | %s |' % ' | '.join(GRAPHS),
                      '|---' * (len(GRAPHS) + 1) + '|', *lines])


def summary(raw: str) -> str:
    """How many times as long as the best peers the algorithms take, in a sentence."""
    found = sorted(float(one.ratio) for one in map(measured, rows_of(raw)[1:]) if one.best)
    return ('On the graphs of a million edges below, half of the calls took at most %s times as long '
            'as the fastest library.\nThree of four took at most %s times as long.'
            % (shown(found[(len(found) - 1) // 2]), shown(found[3 * (len(found) - 1) // 4])))


def duration(seconds: float) -> str:
    """A time in two digits, with its unit."""
    return ('%.2g s' % seconds if seconds >= 0.995 else '%.2g ms' % (1000 * seconds)
            if seconds < 0.0995 else '%.0f ms' % (1000 * seconds))


PAGES: Dict[str, Dict[str, Callable[[], str]]] = {
    PAGE: {'machine': machine, 'summary': lambda: summary(text_of('algorithms_large.txt')),
           'large': lambda: by_graph(text_of('algorithms_large.txt')),
           'small': lambda: by_graph(text_of('algorithms.txt'), smallest=True),
           'few': few,
           'slow': lambda: slow(text_of('algorithms.txt'), text_of('algorithms_large.txt')),
           'steps': steps_a_second, 'speed': lambda: text_of('speed.txt').strip()},
    COMPARISON: {'three': lambda: three(text_of('algorithms.txt'))},
    LIMITS: {'queue': whole_queue}, FAQ: {'million': a_million}, SERVICE: {'day': a_day},
    MEASUREMENTS: {'peers': lambda: peers(text_of('peers.txt')),
                   'networkx': lambda: networkx(text_of('networkx.txt')),
                   'algorithms': lambda: algorithms(text_of('algorithms.txt')),
                   'targets': lambda: targets(text_of('algorithms_large.txt'))}}


def with_tables(path: str) -> str:
    """A page with each of its tables as the raw figures give it. ValueError where it has no place
    for one."""
    with open(path, encoding='utf-8') as file:
        page = file.read()
    for name, make in PAGES[path].items():
        place = re.compile(r'(<!-- bench/ratios %s -->\n).*?(<!-- end -->)' % name, re.S)
        found = place.search(page)
        if found is None:
            raise ValueError('%s has no place <!-- bench/ratios %s -->' % (path, name))
        page = (page[:found.start()] + found.group(1) + make() + '\n' + found.group(2)
                + page[found.end():])
    return page


def write() -> None:
    """Puts the tables into the pages."""
    for path in PAGES:
        made = with_tables(path)
        with open(path, 'w', encoding='utf-8') as file:
            file.write(made)


def main(words: List[str]) -> int:
    if words not in ([], ['--check']):
        print(__doc__)
        return 2
    if not words:
        write()
        return 0
    status = 0
    for path in PAGES:
        with open(path, encoding='utf-8') as file:
            if with_tables(path) != file.read():
                print('%s: a table of ratios differs from the raw figures; bench/ratios.py writes '
                      'it anew' % os.path.relpath(path, TOP))
                status = 1
    return status


if __name__ == '__main__':
    sys.exit(main(sys.argv[1:]))
