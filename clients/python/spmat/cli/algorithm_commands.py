"""Commands that read a graph: one for each algorithm that `spmat.algorithms` lists, and `spy` and
`draw`, which draw it. The decorator above an algorithm, its signature and its docstring have the
words of its command.

Vertices have the names of the file: in options, in results, and where a value is a vertex. Those of
a Matrix Market file count from 1.
"""
from __future__ import annotations

import functools
import inspect
import re
import sys
from decimal import Decimal
from types import SimpleNamespace
from typing import Any, Callable, Dict, Iterable, List, Optional, Tuple

import click

from .. import algorithms, draw as pictures, scale as scales
from ..algorithms.registry import ALGORITHMS, Algorithm
from ..errors import parameters_of
from ..matrix import Matrix
from ..matrix_base import with_unit
from ..metadata import abbreviate_names, suggest_names
from . import output
from .options import (Command, Option, check_graph, choose_values, graph_options,
                      open_session, read_graph, reading_options, session_options, whole)
from .output import Ended, Status

OTHERS = ('GraphBLAS:', 'LAGraph:', 'networkx:', 'igraph:')     # whose names for it are listed
NUMBER = re.compile('-?[0-9]+')
IN_DEGREES = 'in-degrees'                          # no algorithm of its own
# what a function gives of each vertex, where a command prints lines
COLUMN = re.compile(r', as a column(?: of labels| in units of 1/scale)?')
# parameters of callers in Python alone, and one of whose pairs `firsts` has both
NO_OPTIONS = ('GT', 'WT', 'check', 'pairs', 'progress', 'scale', 'seconds')
VERTEX, VERTICES = 'Vertex', 'Vertices'
NUMBERS = {'int': whole(), 'Seed': whole(), 'float': float}
EXAMPLES = {'source': '--source 1', 'target': '--target 7', 'k': '--k 4', 'sources': '--source 1',
            'firsts': '--pair 1 2'}
SPY = """Up to 256 rows and columns, each entry is a square. Above that, the picture shows how many
entries each cell of a raster has. Rows and columns have their names; those of a Matrix Market file
count from 1."""
DRAW = """Up to 1,000 vertices and 5,000 edges. Up to 60 vertices have their names, and with
--weights up to 40 edges their values."""
PICTURES = {
    'spy': ('A picture of where a matrix has its entries.', SPY, 'graph.mtx --plot spy.png'),
    'draw': ('A picture of a graph.', DRAW, 'people.csv --plot people.png')}


def list_commands() -> Dict[str, Algorithm]:
    """List the commands by their names: one for each algorithm, and one for the edges that lead to
    a vertex."""
    found = {name.replace('_', '-'): one for name, one in ALGORITHMS.items() if one.command}
    found[IN_DEGREES] = found['degrees']._replace(
        gives='edges that lead to each vertex', plot='values',
        says='How many edges lead to each vertex; nothing of a vertex to which none does.')
    return dict(sorted(found.items()))


COMMANDS = list_commands()


# -- the words of a command

def make_command(name: str) -> Optional[click.Command]:
    """Make the command of a name; None where there is none."""
    if name in PICTURES:
        return picture_command(name)
    algorithm = COMMANDS.get(name)
    if algorithm is None:
        return None
    params = [*graph_options(), *options_of(algorithm), *form_options(algorithm),
              *reading_options(), *session_options()]
    return Command(name, params=params, help=describe(algorithm), short_help=algorithm.gives,
                   epilog=describe_output(name, algorithm),
                   callback=lambda **given: run(name, SimpleNamespace(**given)))


def options_of(algorithm: Algorithm) -> List[click.Parameter]:
    """The options that are parameters of an algorithm."""
    found: List[click.Parameter] = [
        make_option(algorithm, called, parameter)
        for called, parameter in list(algorithm.signature.items())[1:]
        if called not in NO_OPTIONS and not str(parameter.annotation).endswith('Weights]')]
    return found + [Option('--' + part, is_flag=True, help='%s in place of %s.' % (
        part.capitalize(), algorithm.parts[0])) for part in algorithm.parts[1:]]


def make_option(algorithm: Algorithm, called: str, parameter: inspect.Parameter) -> Option:
    """The option of a parameter: its annotation says what it takes, its default whether it has to
    be given, the docstring what it means."""
    annotation = str(parameter.annotation).replace('Optional[', '').rstrip(']')
    is_wanted = parameter.default is parameter.empty
    words = ['--' + called.replace('_', '-'), *algorithm.flags.get(called, ()), called]
    told = algorithm.describe(called)
    if called == 'firsts':
        return Option('--pair', called, nargs=2, multiple=True, required=True, metavar='V W',
                      help='Two vertices; may stand several times.')
    if annotation in (VERTEX, VERTICES):
        is_many = annotation == VERTICES
        told += '; may stand several times' if is_many else ''
        told += ' (default: the first vertex)' if called == 'source' else ''
        return Option('--' + called.replace('sources', 'source'), called, multiple=is_many,
                      metavar='V', required=is_wanted and called == 'target', help=told + '.')
    if annotation == 'bool' and parameter.default:
        return Option('%s/--no-%s' % (words[0], words[0][2:]), default=True, help=told + '.')
    if annotation == 'bool':
        return Option(*words, is_flag=True, help=told + '.')
    told += '' if parameter.default in (None, parameter.empty) else ' (default: %s)' % (
        parameter.default)
    return Option(*words, type=NUMBERS[annotation], required=is_wanted,
                  default=None if is_wanted else parameter.default,
                  metavar='N' if annotation != 'float' else 'X', help=told + '.')


def form_options(algorithm: Optional[Algorithm] = None) -> List[click.Parameter]:
    """The forms of a result, of which one is chosen, and where it goes. Pictures have two."""
    found: List[click.Parameter] = [
        Option('--csv', is_flag=True, choice='form', help='The result as CSV, with a header.'),
        Option('--json', is_flag=True, choice='form',
               help='The result as JSON: a list with an object a row.')]
    if algorithm is None:
        return found
    found += [Option('--mtx', is_flag=True, choice='form',
                     help='The result as Matrix Market text.'),
              Option('--output', metavar='FILE',
                     help='Where the result goes (default: standard output).')]
    if algorithm.ranked:
        found.append(Option('--top', type=int, metavar='N',
                            help='The N greatest alone, the greatest first.'))
    if algorithm.plot:
        found.append(Option('--plot', metavar='FILE.png',
                            help='A picture of the result; needs matplotlib.'))
    return found


def describe(algorithm: Algorithm) -> str:
    """Say what a command prints, what it costs, and what others call it, as the function's
    docstring has it."""
    text, _, notes = (inspect.getdoc(algorithm.function) or '').partition('\nNotes\n-----\n')
    says = [algorithm.says or COLUMN.sub('', text.partition('\n\n')[0])]
    says += [words for words in notes.split('\n\n') if words.startswith(('Cost', *OTHERS))]
    return '\n\n'.join(says)


def describe_output(name: str, algorithm: Algorithm) -> str:
    """Say what is printed, with an example."""
    words = ' '.join(EXAMPLES[called] for called, parameter in algorithm.signature.items()
                     if called in EXAMPLES
                     and (called != 'target' or parameter.default is not None))
    printed = ('Printed are fractions; --mtx has whole numbers, in units of 1/%d.'
               % algorithm.scale if algorithm.scale > 1 else 'Values are vertices.'
               if algorithm.are_vertices else 'Vertices have their names.')
    return '%s %s\n\nExample: %s %s graph.mtx %s' % (
        printed, 'GRAPH is a file, or - for standard input. Vertices of a Matrix Market file count '
        'from 1. A tab parts what is printed where a name has blanks.', output.PROGRAM, name, words)


# -- what an algorithm is called with

def find_vertex(graph: Matrix, word: str) -> Any:
    """The vertex of a name. Ended if it is none."""
    names = graph.notes.rows
    assert names is not None
    for name in (word, int(word) if NUMBER.fullmatch(word) else word):
        if name in names.places:
            return name
    raise Ended(Status.WORDS,
                'no vertex %s: %s' %
                (word, suggest_names(word, names)
                 or 'they are ' + abbreviate_names(names) if names
                 else 'the graph has none'))


def find_vertices(algorithm: Algorithm, graph: Matrix, given: Dict[str, Any]) -> None:
    """Put vertices in the place of the words that name them. A search begins with the first one if
    none is named; without any of many sources all are meant."""
    find = functools.partial(find_vertex, graph)
    for called, parameter in algorithm.signature.items():
        value = None if called in NO_OPTIONS else given.get(called)
        if called == 'firsts':
            given['firsts'], given['seconds'] = (list(map(find, words))
                                                 for words in zip(*(value or ())))
        elif called == 'source' and not value:
            if not graph.notes.rows:
                raise Ended(Status.FILE, 'the graph has no vertex')
            given['source'] = graph.notes.rows[0]
        elif VERTICES in str(parameter.annotation) and value is not None:
            given[called] = list(map(find, value)) or None
        elif VERTEX in str(parameter.annotation) and value is not None:
            given[called] = find(value)


def call_algorithm(name: str, graph: Matrix, options: SimpleNamespace,
                   progress: object) -> Tuple[Any, Dict[str, Any]]:
    """Call an algorithm with the options that are named as its parameters are. Gives its result,
    and what it was called with, by name. UsageError where it takes no such argument."""
    algorithm = COMMANDS[name]
    transpose = graph if options.undirected else None
    given = {**vars(options), 'GT': transpose, 'WT': transpose, 'scale': algorithm.scale,
             'progress': progress, 'check': True, 'pairs': None}
    find_vertices(algorithm, graph, given)
    first, *rest = algorithm.parameters
    given = {called: given[called] for called in rest if called in given}
    given[first] = graph.T if name == IN_DEGREES else graph
    # by its public name, which also names the algorithm in errors
    function = getattr(algorithms, algorithm.function.__name__)
    try:
        return function(**given), given
    except (TypeError, ValueError) as fault:
        flags = [output.flag_of(called) for called in parameters_of(fault)
                 if called in rest and called not in NO_OPTIONS]
        if not flags:
            raise
        raise click.UsageError('%s: %s' % (', '.join(flags), fault)) from None


# -- what a result is printed as

def shape(algorithm: Algorithm, found: Any, given: Dict[str, Any],
          options: SimpleNamespace) -> Any:
    """What a command prints of a result: a number, rows, or a matrix."""
    if algorithm.tells is not None and not options.quiet:
        print(algorithm.tells(found), file=sys.stderr)
    if algorithm.parts:
        asked = [part for part in algorithm.parts if getattr(options, part, False)]
        found = found[algorithm.parts.index(asked[0]) if asked else 0]
    if algorithm.rows is not None:
        found = algorithm.rows(found, given)
    if isinstance(found, list) and algorithm.lengths:
        # those of a graph whose values have a unit by the digits that they have
        found = [[Decimal(repr(cell)) if isinstance(cell, float) else cell for cell in row]
                 for row in found]
    return found


def format_result(name: str, algorithm: Algorithm, result: Any,
                  options: SimpleNamespace) -> Iterable[str]:
    """A number, a column or a matrix as lines."""
    called = name.replace('-', '_')
    if isinstance(result, int):
        return output.format_lines(options, output.Result((called,), [(result,)], single=True))
    if isinstance(result, list):
        return output.format_lines(options, output.Result(algorithm.fields, result))
    if options.mtx:
        shown = (with_unit(result, 1).apply('plus', right=1) if algorithm.are_vertices
                 else result)
        return [shown.to_text().decode()]
    return output.format_lines(options, output.list_entries(options, result, called,
                                                            choose_format(algorithm, result)))


def choose_format(algorithm: Algorithm, result: Matrix) -> Callable[[int], Any]:
    """Choose what makes a vertex, a fraction or a number of a value."""
    names, scale, unit = result.notes.rows, algorithm.scale, result.unit
    if algorithm.are_vertices:
        assert names is not None
        return names.__getitem__
    if scale == 1:
        return lambda value: scales.to_exact(value, unit)
    return lambda value: value / scale


# -- algorithms

def run(name: str, options: SimpleNamespace) -> None:
    """Read the graph, compute, write the result and draw it."""
    algorithm = COMMANDS[name]
    options = SimpleNamespace(**{'top': None, 'plot': None, 'weighted': False, **vars(options)})
    if options.plot:
        pictures.check(options.plot)
    if algorithm.parameters[1:2] == ['sources'] and not options.sources and (
            algorithm.signature['sources'].default is inspect.Parameter.empty):
        raise click.UsageError('--source is missing; ' + algorithm.hints.get('sources', ''))
    check_graph(options)
    output.check_output(options)
    check_values(name, algorithm, options)
    values = algorithm.uses_values(options.weighted)
    with output.open_progress(options) as progress, open_session(options, progress) as session:
        graph = read_graph(session, options, values, algorithm.wanted)
        result, given = call_algorithm(name, graph, options, progress)
        result = shape(algorithm, result, given, options)
        if isinstance(result, Matrix):
            columns = None if output.is_column(result) else graph.notes.columns
            result.notes = result.notes._replace(rows=result.notes.rows or graph.notes.rows,
                                                 columns=columns)
        if options.plot:
            with output.writing(options.plot):
                draw_result(algorithm, graph, result, options.plot)
        lines = format_result(name, algorithm, result, options)
    output.write(options, lines)


def check_values(name: str, algorithm: Algorithm, options: SimpleNamespace) -> None:
    """UsageError if values count and the words leave them out. Say on standard error if values are
    asked for and don't count."""
    asked = choose_values(options)
    if options.pattern and (asked or options.weighted):
        raise click.UsageError('%s wants values of edges, and --pattern reads none' %
                               (asked or '--weighted'))
    if algorithm.uses_values(options.weighted):
        if options.undirected and not options.pattern:
            raise click.UsageError(
                '%s counts values of edges, which --undirected drops: --both-ways keeps them, and '
                '--pattern takes each edge as 1' % ('--weighted' if options.weighted else name))
    elif asked and not options.quiet:
        print('%s: values of edges are read, and %s does not use them%s' %
              (asked, name, ': --weighted does' if 'weighted' in algorithm.parameters else ''),
              file=sys.stderr)


def draw_result(algorithm: Algorithm, graph: Matrix, result: Any, path: str) -> None:
    """Draw the result into a file."""
    if algorithm.plot == 'degree_histogram':
        pictures.degree_histogram(graph, path)
    elif algorithm.plot == 'route':
        pictures.route(graph, [vertex for vertex, _ in result], path)
    elif algorithm.plot == 'spy':
        pictures.spy(result, path, first=1)
    else:
        getattr(pictures, algorithm.plot or 'values')(graph, result, path)


# -- pictures

def picture_command(name: str) -> click.Command:
    """The command that draws a graph, or the places of its entries."""
    summary, told, example = PICTURES[name]
    weights = Option('--weights', is_flag=True, help='Read the values of the edges, and show them.')
    return Command(
        name, help='%s\n\n%s' % (summary, told), short_help=summary,
        epilog='Example: %s %s %s' % (output.PROGRAM, name, example),
        params=[*graph_options(),
                Option('--plot', metavar='FILE.png', required=True,
                       help='Where the picture goes; needs matplotlib.'),
                *([weights] if name == 'draw' else []), *form_options(), *reading_options(),
                *session_options()],
        callback=lambda **given: run_picture(name, SimpleNamespace(**given)))


def run_picture(name: str, options: SimpleNamespace) -> None:
    """Draw the matrix of a file, and print its size."""
    pictures.check(options.plot)
    check_graph(options)
    options.output, is_spy = None, name == 'spy'
    with output.open_progress(options) as progress, open_session(options, progress) as session:
        matrix = read_graph(session, options, not is_spy and options.weights, rectangular=is_spy)
        with output.writing(options.plot):
            if is_spy:
                pictures.spy(matrix, options.plot, first=1)
            else:
                pictures.graph(matrix, options.plot)
        size = matrix.nrows, matrix.ncols, matrix.nvals
    lines: Iterable[str] = ['%d rows, %d columns, %d entries\n' % size]
    if options.csv or options.json:
        lines = output.format_lines(options, output.Result(('rows', 'columns', 'entries'), [size],
                                                           single=True))
    output.write(options, lines)
