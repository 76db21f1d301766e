"""The options that say which graph a command reads, and where its work is done. A process of its
own does it, or a server, over TLS where something in front of the server speaks that."""
from __future__ import annotations

import contextlib
import functools
import sys
from types import SimpleNamespace
from typing import TYPE_CHECKING, Any, Callable, Dict, Iterator, List, Optional, Sequence

import click

from .. import integers
from ..algorithms import undirected
from ..algorithms.cached_properties import LOOPS, ONE_WAY, has_loops, is_both_ways
from ..algorithms.registry import Wanted
from ..errors import ReadError, about, parameters_of
from ..io import matrix_market
from ..io.files import Loaded, load
from ..io.formats import FORMATS, format_of
from ..io.values import UNITS
from ..limits import MOST_STEPS, MOST_WORKERS
from ..matrix import Matrix
from ..metadata import Nodes
from ..session import Session
from ..submatrices import bipartite
from ..wire.connection import Progress
from ..wire.transport import Address
from .output import Ended, Status, describe_os_error, reading

if TYPE_CHECKING:
    import ssl

NAME_TYPES = {'int': int, 'float': float, 'str': str}
UNDIRECTED = ': --undirected takes the graph without directions, weights and loops'
BOTH_WAYS = ', --both-ways each edge both ways with its value'
TLS = ('tls', 'cacert', 'cert', 'key')
# options that are parameters of `Session.read_graph`, too
READING = ('format', 'sep', 'header', 'scale', 'bipartite', 'unit', 'date_format', 'dup_op')
FILE, SESSION, SERVER = ('How the file is read', 'Session',
                         'A server in place of a process of its own')


# -- kinds of options

class Option(click.Option):
    """An option that stands under a heading of the help page. Of those of one `choice` one alone
    may be given."""

    def __init__(self, *words: str, heading: str = 'Options', choice: str = '',
                 **settings: Any) -> None:
        super().__init__(words, **settings)
        self.heading, self.choice = heading, choice or self.name


def whole(least: int = -1 << 63, most: int = (1 << 63) - 1) -> Callable[[Any], int]:
    """What reads a whole number from the least to the most, also written as 1e9."""
    def number(word: object) -> int:
        with contextlib.suppress(ValueError, OverflowError):
            text = str(word)
            found = (int(text) if text.strip().lstrip('+-').isdigit()
                     else integers.whole(float(text), 'number'))
            if least <= found <= most:
                return found
        raise click.BadParameter('%r is no whole number from %d to %d' % (word, least, most))
    return number


def address(word: str) -> Address:
    """A server's address: HOST:PORT, or the path of a socket file."""
    if '/' in word:
        return Address(word, 0)
    host, colon, port = word.rpartition(':')
    if not colon or not port.isdigit() or not 1 <= int(port) <= 65535:
        raise click.BadParameter('an address is HOST:PORT, as 127.0.0.1:7171, or the path of a '
                                 'socket file; not %r' % word)
    return Address(host.strip('[]') or '127.0.0.1', int(port))


class Command(click.Command):
    """A command whose help page has its options under headings. An option of one value that is
    given twice is refused, as the second would hide the first."""

    def parse_args(self, ctx: click.Context, args: List[str]) -> List[str]:
        if not ctx.resilient_parsing:
            self._check_once(ctx, self.make_parser(ctx).parse_args(list(args))[2])
        ctx.allow_extra_args = True                # which are told in other words than click's
        super().parse_args(ctx, args)
        if ctx.args and not ctx.resilient_parsing:
            self._refuse_bare(ctx)
        return ctx.args

    @staticmethod
    def _check_once(ctx: click.Context, given: Sequence[click.Parameter]) -> None:
        """UsageError where an option hides another one."""
        seen: Dict[Any, Option] = {}
        for one in given:
            if isinstance(one, Option):
                other = seen.setdefault(one.choice, one)
                if other is not one:
                    ctx.fail('%s: not with %s' % (one.opts[0], other.opts[0]))
                if one in given[given.index(one) + 1:] and not one.multiple and (
                        not one.is_flag or one.secondary_opts):
                    ctx.fail('%s: given twice' % '/'.join([*one.opts, *one.secondary_opts]))

    def _refuse_bare(self, ctx: click.Context) -> None:
        """UsageError of words that no option stands before."""
        names = ' '.join(ctx.args)
        meant = next((one.opts[0] for one in self.params
                      if one.name in ('source', 'sources', 'firsts')), None)
        ctx.fail('unexpected argument: %s%s' % (
            names, '; a vertex is named by %s %s' % (meant, ctx.args[0]) if meant else ''))

    def format_options(self, ctx: click.Context, formatter: click.HelpFormatter) -> None:
        headings: Dict[str, List[Any]] = {}
        for one in self.get_params(ctx):
            record = one.get_help_record(ctx)
            if record is not None:
                headings.setdefault(getattr(one, 'heading', 'Options'), []).append(record)
        for heading, records in headings.items():
            with formatter.section(heading):
                formatter.write_dl(records)


# -- the graph

def graph_options() -> List[click.Parameter]:
    """What is read, and how its values are joined."""
    return [
        click.Argument(['graph'], metavar='GRAPH'),
        Option('--undirected', is_flag=True,
               help='Take the graph without directions, weights and loops.'),
        Option('--both-ways', is_flag=True,
               help='Each edge leads both ways, with its value. Of two the lesser counts, or what '
               '--dup-op makes of them.'),
        Option('--bipartite/--one-kind', default=None,
               help='Sources and targets (rows and columns) are two kinds of vertices, or one kind '
               '(the default).')]


def reading_options() -> List[click.Parameter]:
    """How the file is read."""
    option = functools.partial(Option, heading=FILE)
    return [
        option('--format', type=click.Choice(FORMATS),
               help='What it is (default: by what stands in it).'),
        option('--sep', metavar='C', help='What separates the fields of a list (default: a comma '
               'in a .csv, a tab in a .tsv, blanks elsewhere).'),
        option('--header/--no-header', default=None, help='The first line of a list names its '
               'columns, or is an edge (default: by what stands there).'),
        option('--columns', metavar='FROM,TO[,VALUE]',
               help='Which columns of a list are read: by name, or from 0.'),
        option('--nodetype', type=click.Choice([*NAME_TYPES]), help='What the names of vertices '
               'are (default: whole numbers where all are).'),
        option('--comments', multiple=True, metavar='TEXT', choice='comments',
               help='What begins a comment in any line of a list; may stand several times '
               '(default: lines above the first row that begin with # or %).'),
        option('--no-comments', is_flag=True, choice='comments', help='No line is a comment.'),
        option('--missing', type=click.Choice(['raise', 'skip', 'keep']), default='raise',
               help='Lines with a missing name or value are refused (the default) or left out; '
               'keep: nan is a name as any other.'),
        option('--unit', type=click.Choice([*UNITS]),
               help='Values are times: so many days, seconds, .. since 1970-01-01.'),
        option('--date-format', metavar='FORMAT', help='How these times are written, as %d.%m.%Y '
               '(default: as ISO 8601 has it).'),
        option('--pattern', is_flag=True, help='Read no values: each edge has 1.'),
        option('--scale', type=float, metavar='N',
               help='Multiply values by N and round them to whole numbers.'),
        option('--dup-op', metavar='OP', help='What joins the values of an edge that repeats: '
               'plus, max, first, ..')]


def choose_values(options: SimpleNamespace) -> str:
    """The option that asks for the values of edges; nothing where none does."""
    if options.scale is not None:
        return '--scale'
    return '--columns' if options.columns is not None and options.columns.count(',') > 1 else ''


def check_graph(options: SimpleNamespace) -> None:
    """UsageError where the words on the graph don't go together."""
    if options.both_ways and (options.bipartite or options.undirected):
        raise click.UsageError(
            '--both-ways is for a graph of one kind of vertices, whose weights count: not with '
            '--bipartite or --undirected')


def read_graph(session: Session, options: SimpleNamespace, values: bool,
               kind: Wanted = Wanted.ANY, rectangular: bool = False) -> Matrix:
    """The graph of the file that the options name, with names for its vertices: those of the file,
    or numbers from 1 where it is a Matrix Market file. Ended where it isn't of the wanted kind.
    `values` says whether they count, and `rectangular` whether rows and columns may be of two
    kinds."""
    file = 'standard input' if options.graph == '-' else options.graph
    with reading(file):
        text = load(sys.stdin.buffer if options.graph == '-' else options.graph)
    if not text.strip():
        raise ReadError(file, None, 'it is empty')
    graph = session.read_graph(Loaded(file, text), **list_arguments(options, text, values))
    if graph.notes.source and not options.quiet:
        # which columns were taken, so that a wrong guess is seen
        print(graph.notes.source, file=sys.stderr)
    name_vertices(graph, 1 if format_of(text) == 'mtx' else 0)
    if options.bipartite and not rectangular:
        graph = bipartite(graph)
    if graph.nrows != graph.ncols:
        if rectangular:
            return graph
        raise Ended(Status.FILE,
                    'a graph is a square matrix, and %s has %d rows and %d columns: --bipartite '
                    'takes them as two kinds of vertices' % (file, graph.nrows, graph.ncols))
    if options.undirected:
        return undirected(graph)
    if options.both_ways and options.dup_op is None:       # else reading made it so
        graph = graph.ewise_add(graph.T, 'min')
        graph.notes = graph.notes._replace(directed=False)
    check_kind(graph, kind)
    return graph


def list_arguments(options: SimpleNamespace, text: bytes, values: bool) -> Dict[str, Any]:
    """What the options ask of `Session.read_graph`. Values that don't count are read only where the
    server reads them by itself."""
    given = {name: getattr(options, name) for name in READING}
    is_plain = format_of(text) == 'mtx' and matrix_market.is_plain(text)
    given['values'] = (not options.pattern
                       and (is_plain or (values and not options.undirected)
                            or options.scale is not None or options.unit is not None))
    given['missing'] = None if options.missing == 'keep' else options.missing
    if options.columns is not None:
        given['columns'] = [int(word) if word.isdigit() else word
                            for word in options.columns.split(',')]
    if options.nodetype is not None:
        given['nodetype'] = NAME_TYPES[options.nodetype]
    if options.comments or options.no_comments:
        given['comments'] = list(options.comments)
    if options.both_ways and options.dup_op is not None:
        given['directed'] = False
    return given


def name_vertices(graph: Matrix, first: int) -> None:
    """Gives rows and columns without names numbers as their names."""
    rows = (graph.notes.rows if graph.notes.rows is not None
            else Nodes(range(first, first + graph.nrows)))
    alike = graph.nrows == graph.ncols and graph.notes.columns in (None, graph.notes.rows)
    columns = (rows if alike else graph.notes.columns if graph.notes.columns is not None
               else Nodes(range(first, first + graph.ncols)))
    graph.notes = graph.notes._replace(rows=rows, columns=columns)


def check_kind(graph: Matrix, wanted: Wanted) -> None:
    """Ended if a graph isn't of the wanted kind. What is found out here is kept with the graph, so
    that its algorithm asks no more."""
    if wanted is not Wanted.ANY and not is_both_ways(graph):
        raise Ended(Status.FILE, ONE_WAY + UNDIRECTED + BOTH_WAYS)
    if wanted is Wanted.WITHOUT_LOOPS and has_loops(graph):
        raise Ended(Status.FILE, LOOPS + UNDIRECTED)


# -- the session

def session_options() -> List[click.Parameter]:
    """Where the work is done, and within which budget."""
    own, server = (functools.partial(Option, heading=heading) for heading in (SESSION, SERVER))
    return [
        own('--workers', metavar='N', type=whole(1, MOST_WORKERS),
            help='Threads, 1 to %d (default: 1).' % MOST_WORKERS),
        own('--steps', metavar='N', type=whole(0, MOST_STEPS),
            help='The budget, 0 to 2^62, also 1e9 (default: 2^62).'),
        own('--program', metavar='PATH',
            help='The program (default: the variable SPMAT, then `spmat` on the PATH).'),
        own('--quiet', is_flag=True,
            help='No progress, also on a terminal, and no word on which columns were read.'),
        server('--connect', type=address, metavar='HOST:PORT',
               help='Where it listens; a word with a slash is a socket file; '
               'spmat://USER@HOST:PORT is a gateway, whose token is in the variable SPMAT_TOKEN.'),
        server('--tls', is_flag=True,
               help='Speak TLS; the name in the certificate has to be HOST.'),
        server('--cacert', metavar='FILE',
               help="Who signs the server's certificate (default: those the system trusts)."),
        server('--cert', metavar='FILE',
               help='The certificate of this client, where the server asks for one.'),
        server('--key', metavar='FILE', help='Its key, where that is in a file of its own.')]


def check_session(options: SimpleNamespace) -> None:
    """UsageError where the words on the server don't go together. (Whoever names a certificate
    means TLS.)"""
    named = ['--' + name for name in TLS if getattr(options, name)]
    if named and options.connect is None:
        raise click.UsageError('%s is for --connect' % named[0])
    if named and options.connect.is_file():
        raise click.UsageError('%s is for a host and a port, and --connect names a socket file'
                               % named[0])
    own = ['--' + name for name in ('workers', 'steps', 'program')
           if getattr(options, name) is not None]
    if own and options.connect is not None:
        raise click.UsageError('%s is for a process of its own, and --connect names a server, '
                               'which has its own' % own[0])
    if options.key and not options.cert:
        raise click.UsageError('--key wants its certificate: --cert FILE')


@contextlib.contextmanager
def reading_certificates(what: str, *files: Optional[str]) -> Iterator[None]:
    """What is done here reads files of TLS. Ended names them, which errors of ssl don't."""
    try:
        for path in filter(None, files):
            with open(path, 'rb'):
                pass
        yield
    except OSError as fault:
        raise Ended(Status.FILE, describe_os_error(fault) if fault.filename else
                    '%s: no %s in PEM format: %s' % (' and '.join(filter(None, files)), what,
                                                     fault.strerror or fault)) from None


def make_tls(options: SimpleNamespace) -> Optional[ssl.SSLContext]:
    """Make what speaks TLS as the options say, None if they don't."""
    if not any(getattr(options, name) for name in TLS):
        return None
    import ssl
    with reading_certificates('certificates', options.cacert):
        made = ssl.create_default_context(cafile=options.cacert)
    if options.cert:
        with reading_certificates('certificate with its key', options.cert, options.key):
            made.load_cert_chain(options.cert, options.key)
    return made


def open_session(options: SimpleNamespace, progress: Optional[Progress] = None) -> Session:
    """The session that the options ask for. Ended where there is no program, or nobody listens."""
    check_session(options)
    try:
        if options.connect is None:
            return Session(MOST_STEPS if options.steps is None else options.steps,
                           options.workers or 1, options.program, progress)
        where = options.connect
        return Session.connect(where.host, where.port, progress=progress, tls=make_tls(options))
    except OSError as fault:
        raise about(Ended(Status.UNREACHED, describe_os_error(fault)),
                    *parameters_of(fault)) from None
    except ValueError as fault:                    # of a gateway's address or its token
        if options.connect is None:
            raise
        raise about(Ended(Status.UNREACHED, str(fault)), *parameters_of(fault)) from None
