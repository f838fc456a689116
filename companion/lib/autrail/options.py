"""The words of the command line."""
from __future__ import annotations

import argparse
import re
from typing import Callable, NoReturn, Sequence

from .basics import MODES, Refused, VERSION, bad_words, shown
from .logs import DEFAULT_LOG
from .trees import MANY, MOST_OF_MANY, MOST_PATHS


class Parser(argparse.ArgumentParser):
    """A parser that says in one line what is wrong and what to do."""

    def error(self, message: str) -> NoReturn:
        bad_words(f'{shown(message)}; "{self.prog} --help" says more')


def parser() -> argparse.ArgumentParser:
    shared = Parser(add_help=False, argument_default=argparse.SUPPRESS)
    shared.add_argument('-if', '--input', dest='input', action='append', metavar='LOG',
                        help=f'a log, its folder, or - ; its rotated and packed files belong to it; may stand again ({DEFAULT_LOG})')
    shared.add_argument('--store', metavar='STORE', help='a store in place of logs; -if names logs beside it, whose lines may be shown')
    shared.add_argument('-m', '--mode', choices=MODES, help='what the program keeps of the flows (plain)')
    shared.add_argument('-q', '--quiet', action='store_true', help='no progress and no warnings')
    shared.add_argument('--order', dest='order', action='store_true',
                        help='in the order of effects, which needs audit_order ($AUDIT_ORDER, else audit_order); so too without this option if it is there, except stat')
    shared.add_argument('--no-order', dest='order', action='store_false', help='in the order of the log')
    shared.add_argument('--program', metavar='WORDS', help='the program ($AUDIT_CLI, else audit_cli)')
    top = Parser(prog='autrail', parents=[shared], allow_abbrev=False,
                 description='Where a file came from and what it reached, asked of audit logs in names.',
                 epilog='WHAT is a path, a base name, a pattern, IP:PORT, IP, :PORT, pid:N, exe:PATH, inode:MAJ:MIN:N, name:TEXT or #N. '
                        'TIME is now, recent, this-hour, boot, today, yesterday, this-week, week-ago, this-month, this-year, "yesterday 14:00", '
                        '"10 min ago", ISO 8601 or seconds since 1970.')
    top.add_argument('--version', action='version', version=f'autrail {VERSION}')
    commands = top.add_subparsers(dest='command', required=True, metavar='COMMAND', parser_class=Parser)
    add_reach(commands, shared, 'back', '--at', 'from what WHAT can have come')
    add_reach(commands, shared, 'fore', '--since', 'what WHAT can have reached')
    it = add_command(commands, shared, 'why', 'one path from A to B')
    it.add_argument('source', metavar='A')
    it.add_argument('target', metavar='B')
    it.add_argument('--at', dest='time', nargs='+', metavar='TIME', help='by flows up to this time')
    it.add_argument('--lines', action='store_true', help='with the lines of the log for each step')
    it.add_argument('-i', '--interpret', action='store_true', help='with these lines in words, by ausearch and this machine\'s users')
    add_common(it)
    for name, text in (('find', 'objects by name, pattern, process number, inode or address'),
                       ('show', 'an object\'s names and times, and a process\'s arguments and users')):
        it = add_command(commands, shared, name, text)
        it.add_argument('what', metavar='WHAT')
        add_common(it)
    it = add_command(commands, shared, 'stat', 'what the log holds, and what to mistrust')
    it.add_argument('--json', action='store_true', help='one line of JSON')
    add_command(commands, shared, 'ask', 'commands at a prompt')
    add_keep(commands, shared)
    add_command(commands, shared, 'rules', 'audit rules that the answers need')
    return top


def add_command(commands, shared: argparse.ArgumentParser, name: str, text: str) -> argparse.ArgumentParser:
    return commands.add_parser(name, help=text, description=text, parents=[shared], allow_abbrev=False)


def add_common(command: argparse.ArgumentParser) -> None:
    command.add_argument('--each', action='store_true', help='take every object that a name may mean')
    command.add_argument('--json', action='store_true', help='a line of JSON for each object or step')


def add_reach(commands, shared: argparse.ArgumentParser, name: str, time: str, text: str) -> None:
    command = add_command(commands, shared, name, text)
    command.add_argument('what', metavar='WHAT')
    command.add_argument(time, dest='time', nargs='+', metavar='TIME', help=f'by flows {"up to" if name == "back" else "from"} this time')
    command.add_argument('-a', '--all', action='store_true', help='hide nothing')
    command.add_argument('--hide', action='append', default=[], metavar='PATTERN', help='hide these too')
    command.add_argument('--each', action='store_true', help='answer for every object that WHAT may mean')
    command.add_argument('--paths', type=count, metavar='N',
                         help=f'the most paths that a tree or picture is made of ({MOST_PATHS}, or {MOST_OF_MANY} if the answer has more than {MANY:,} objects)')
    form = command.add_mutually_exclusive_group()
    form.add_argument('--tree', action='store_true', help='one path for each object, as a tree with times')
    form.add_argument('--json', action='store_true', help='a line of JSON for each object')
    form.add_argument('--dot', action='store_true', help='the tree as graphviz\'s text')
    form.add_argument('--svg', dest='picture', metavar='FILE', type=ending('.svg'), help='the tree as a picture')
    form.add_argument('--png', dest='picture', metavar='FILE', type=ending('.png'), help='the same as PNG')


def add_keep(commands, shared: argparse.ArgumentParser) -> None:
    command = add_command(commands, shared, 'keep', 'takes what is new of a log into a store')
    command.add_argument('store_kept', metavar='STORE')
    command.add_argument('--over-gap', action='store_true', help='take what is there, although files in between are missing')
    command.add_argument('--after', metavar='OLD', help='begin a new store where the store OLD ends')
    command.add_argument('--wait', action='store_true', help='wait while another run is at work on the store')
    command.add_argument('--json', action='store_true', help='one line of JSON')


def count(text: str) -> int:
    if not re.fullmatch(r'[1-9]\d{0,8}', text):
        raise argparse.ArgumentTypeError(f'"{text}" is no number from 1 on')
    return int(text)


def ending(suffix: str) -> Callable[[str], str]:
    def check(name: str) -> str:
        if not name.endswith(suffix):
            raise argparse.ArgumentTypeError(f'the file\'s name must end in {suffix}')
        return name
    return check


def options_of(words: Sequence[str]) -> argparse.Namespace:
    try:
        options = parser().parse_args(words)
    except Refused as fault:
        if 'arguments are required' in str(fault) and {'--at', '--since'} & set(words):
            bad_words(f'{fault}; a time is all words up to the next option, so it stands after what is asked about')
        raise
    if getattr(options, 'interpret', False):
        options.lines = True
    for name, value in (('input', []), ('store', None), ('mode', None), ('quiet', False), ('order', None), ('program', None)):
        setattr(options, name, getattr(options, name, value))
    return options
