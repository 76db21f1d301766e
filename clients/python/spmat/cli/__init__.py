"""The command line `spmat-graph COMMAND ..`, which is `python3 -m spmat COMMAND ..`, too.

A command for each algorithm of `spmat.algorithms`, and `spy` and `draw` (`algorithm_commands`).
Results go to standard output, progress to standard error where that is a terminal, and a fault is
one line there. `output` has the exit statuses.
"""
from __future__ import annotations

import difflib
import os
import re
import signal
import sys
import warnings
from typing import Any, List, NoReturn, Optional, Tuple

import click
from click.shell_completion import shell_complete

from .. import __version__
from ..io.formats import READABLE
from ..io.files import ENDINGS
from ..unsupported_syntax import ALGORITHMS as FOREIGN_NAMES
from .algorithm_commands import COMMANDS, PICTURES, make_command
from .output import PROGRAM, Status, finish, show_warning

HELP = """Graph algorithms and pictures by spmat, the job server for sparse integer matrices.

A graph is a file in Matrix Market format, %s (also %s), which is seen from what stands in it. An
entry at row i and column j, or a line `i j`, is an edge from i to j. Vertices have their names in
the file; those of a Matrix Market file count from 1. `COMMAND --help` tells more of each command.
The server itself is another program: see `spmat --help`.

\b
Examples:
  spmat-graph triangle-count graph.mtx --undirected
  spmat-graph bfs-levels people.csv --source Anna
  spmat-graph bfs-levels graph.mtx --source 1 --plot levels.png
  spmat-graph pagerank graph.mtx --mtx > ranks.mtx
  spmat-graph spy graph.mtx --plot spy.png
""" % (READABLE, ', '.join(ENDINGS))
SERVERS = ('run', 'serve')                         # words of the program spmat
COMPLETION = '_SPMAT_GRAPH_COMPLETE'               # click's variable: how a shell asks
WIDTH = 100                                        # of help pages, where a terminal is so wide


class Commands(click.Group):
    """The commands, each of which is made when it is asked for."""

    def list_commands(self, ctx: click.Context) -> List[str]:
        return sorted((*COMMANDS, *PICTURES))

    def get_command(self, ctx: click.Context, cmd_name: str) -> Optional[click.Command]:
        return make_command(cmd_name)

    def resolve_command(self, ctx: click.Context, args: List[str]) -> Tuple[Any, Any, List[str]]:
        if make_command(args[0]) is None and not args[0].startswith('-'):
            ctx.fail(describe_no_command(args[0]))
        return super().resolve_command(ctx, args)


def describe_no_command(word: str) -> str:
    """Say of a word that is no command which was meant."""
    if word in SERVERS:
        return '`%s` is a command of the server: spmat %s' % (word, word)
    known = {**{name: name for name in (*COMMANDS, *PICTURES)},
             **{name: found.group(1) for name, call in FOREIGN_NAMES.items()
                if (found := re.search(r'algorithms\.(\w+)', call)) is not None}}
    places = {plain(name): place.replace('_', '-') for name, place in known.items()}
    near = ([plain(word)] if plain(word) in places
            else difflib.get_close_matches(plain(word), places, 2))
    meant = dict.fromkeys(places[name] for name in near)
    return 'no command %s: %s' % (
        word, 'did you mean %s?' % ' or '.join(meant) if meant
        else '`%s --help` lists them' % PROGRAM)


def plain(name: str) -> str:
    """A name as Python has it."""
    return name.replace('-', '_')


@click.group(cls=Commands, help=HELP, no_args_is_help=False,
             epilog='\b\nExit status:\n' + '\n'.join('  %3d  %s' % (status, status.meaning)
                                                     for status in Status),
             context_settings={'help_option_names': ['-h', '--help'], 'max_content_width': WIDTH})
@click.version_option(__version__, message='spmat %(version)s, the client')
def commands() -> None:
    """Each command does its own work."""


# -- running

def main(words: Optional[List[str]] = None, program: str = PROGRAM) -> int:
    """Runs a command, and gives its exit status."""
    try:
        with commands.make_context(program, sys.argv[1:] if words is None else words) as context:
            commands.invoke(context)
        return Status.DONE
    except click.exceptions.Exit as ended:         # help pages, and the version
        return ended.exit_code
    except (Exception, KeyboardInterrupt) as fault:  # pylint: disable=broad-exception-caught
        # each has its status
        return finish(fault)


def end(*_: object) -> NoReturn:
    """Ends as the shell's status has it, with the program that was started: it may be amid a batch,
    which nothing cancels."""
    sys.exit(Status.TERMINATED)


def run(program: str = PROGRAM) -> NoReturn:
    """The command `spmat-graph`. A shell that completes its words asks by a variable."""
    if COMPLETION in os.environ:
        sys.exit(shell_complete(commands, {}, PROGRAM, COMPLETION, os.environ[COMPLETION]))
    signal.signal(signal.SIGTERM, end)
    warnings.showwarning = show_warning
    sys.exit(main(None, program))
