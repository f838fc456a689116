"""Processes as the log's own lines tell them, in words."""
from __future__ import annotations

import re
from typing import Iterable, Iterator

from .basics import shown
from .lines import user_text
from .session import Session
from .things import Thing
from .times import clock


def reading_of(session: Session, thing: Thing) -> dict[str, str]:
    """What the log's own lines say of a process."""
    if thing.kind != 'process':
        return {}
    life, sure = session.life_of(thing)
    if life is None:
        return {}
    runs = [' '.join(map(shell_word, it)) for it in session.reading.arguments_of(life)]
    caller = life.caller
    found = {'arguments': ' ; then '.join(runs)} if runs else {}
    found |= {'uid': shown(user_text(caller.user, caller.user_name)), 'auid': shown(user_text(caller.audit_user, caller.audit_user_name)),
              'session': user_text(caller.session), 'terminal': shown(caller.terminal.decode('utf-8', 'replace')) or 'not recorded',
              'parent': caller.parent.decode(), 'first call': clock(life.first), 'last call': clock(life.last)}
    if sure:
        return found
    return found | {'note': 'lines of several lives of this number' if session.store is None else 'lines with this number, perhaps of another life'}


def shell_word(word: str) -> str:
    """An argument as one would type it, safe for a terminal."""
    return shown(word) if re.fullmatch(r'[\w@%+=:,./-]+', word) else "'" + shown(word).replace("'", "'\\''") + "'"


def process_lines(session: Session, things: Iterable[Thing]) -> Iterator[str]:
    """A line for each process with its arguments and users."""
    for thing in things:
        said = reading_of(session, thing)
        users = ' '.join(f'{key}={said[key]}' for key in ('uid', 'auid', 'session', 'terminal', 'note') if key in said)
        yield '  ' + '  '.join(it for it in (f'#{thing.number:<6}{thing.label}', said.get('arguments', ''), users) if it)


READ_FROM_LOG = 'arguments and users are read from the log\'s lines'


def tell_processes(session: Session, numbers: Iterable[int]) -> None:
    """The arguments and users of processes whose labels were shown before, if there are lines that tell them."""
    processes = [it for it in session.of(sorted(set(numbers))) if it.kind == 'process'] if session.has_lines else []
    if processes:
        print(f'processes ({READ_FROM_LOG}):')
        for line in process_lines(session, processes):
            print(line)
