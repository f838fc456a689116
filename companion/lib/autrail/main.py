"""A run of autrail, from its words to its status."""
from __future__ import annotations

import argparse
import os
import signal
import sys
from typing import Sequence

from .basics import INTERRUPTED, READ_FAULT, Refused, WRITE_FAULT, bad_words, say, shown
from .commands import answered
from .keep import keep
from .options import options_of
from .programs import GET_ORDER
from .prompt import ask
from .rules import rules
from .session import Session
from .stores import NO_LINES
from .times import moment, spelled
from .trust import order_of, warnings_of


def run(words: Sequence[str]) -> int:
    options = options_of(words)
    if options.command == 'rules':
        return rules()
    if options.command == 'keep':
        return keep(options)
    if options.command == 'ask' and '-' in options.input:
        bad_words('ask reads its commands from standard input, so the log can\'t come from there')
    bounds_are_times(options)
    if options.store is not None:
        must_go_with_a_store(options)
    with Session.over(options) as session:
        if not options.quiet and options.command != 'stat':
            for text in warnings_of(session):
                say(f'warning: {text}')
            if not session.has_lines and options.command != 'find':
                say(f'without arguments and users: {NO_LINES}')
        say_the_order(session, options)
        return ask(session) if options.command == 'ask' else answered(session, options)


def run_to_its_end(words: Sequence[str]) -> int:
    """The status of a run, also of one that ends after --help or --version."""
    try:
        return run(words)
    except SystemExit as end:
        return end.code


def say_the_order(session: Session, options: argparse.Namespace) -> None:
    """Says in which order the answer is meant. Unless --order is given `stat` is about the log as it is, and says so itself."""
    if session.ordered or session.store is None and options.command != 'stat':
        say(order_of(session) + (f', since audit_order isn\'t there: {GET_ORDER}' if options.order is None and not session.ordered else ''))


def must_go_with_a_store(options: argparse.Namespace) -> None:
    """Refuses options that a store leaves no choice of."""
    if options.mode:
        bad_words('a store has the mode in which it was begun, so -m doesn\'t stand beside --store')
    if options.order:
        bad_words('a store has the order in which its logs were taken, so --order doesn\'t stand beside --store')


def bounds_are_times(options: argparse.Namespace) -> None:
    """Refuses words that aren't a time before a long log is read."""
    if getattr(options, 'time', None):
        spelled(moment(' '.join(options.time)))


def open_standard_streams() -> None:
    """Opens the standard streams that autrail was started without: else a pipe or a log would get the number of one, and notes would go into the answer.

    An answer can't be written to a standard output that wasn't there, and notes to such a standard error are lost.
    """
    for number, way in enumerate((os.O_RDONLY, os.O_RDONLY, os.O_WRONLY)):
        try:
            os.fstat(number)
        except OSError:
            os.set_inheritable(os.open(os.devnull, way), True)
    sys.stdin = sys.stdin or open(0, encoding='utf-8')
    sys.stdout = sys.stdout or open(1, 'w', encoding='utf-8')
    sys.stderr = sys.stderr or open(2, 'w', encoding='utf-8')


def main() -> int:
    open_standard_streams()
    # argparse passes over a fault of its own writing, so what it writes waits for the flush.
    sys.stdout.reconfigure(errors='backslashreplace', write_through=False)
    sys.stderr.reconfigure(errors='backslashreplace')
    signal.signal(signal.SIGTERM, lambda number, _: sys.exit(128 + number))
    try:
        status = run_to_its_end(sys.argv[1:])
        sys.stdout.flush()
        return status
    except Refused as fault:
        sys.stdout.flush()
        say(str(fault))
        return fault.status
    except KeyboardInterrupt:
        return INTERRUPTED
    except BrokenPipeError:
        os.dup2(os.open(os.devnull, os.O_WRONLY), sys.stdout.fileno())
        return 128 + signal.SIGPIPE
    except OSError as fault:
        os.dup2(os.open(os.devnull, os.O_WRONLY), sys.stdout.fileno())
        say(f'{shown(str(fault.filename))}: {fault.strerror}' if fault.filename else f'the answer can\'t be written ({fault.strerror})')
        return READ_FAULT if fault.filename else WRITE_FAULT
    except Exception as fault:  # pylint: disable=broad-except
        # Python would end with status 1, which says that the log was asked.
        say(f'autrail can\'t go on; the program may have answered what it doesn\'t understand ({type(fault).__name__}: {shown(str(fault))})')
        return READ_FAULT
