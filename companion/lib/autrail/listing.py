"""The commands `find` and `show`: objects with their names and times."""
from __future__ import annotations

import argparse
from typing import Callable

from .basics import ANSWER, shown
from .json_lines import as_json
from .naming import matching, resolve
from .processes import reading_of
from .session import Session
from .things import Thing, as_shown
from .times import LAST_SECOND, clock, spelled


def find(session: Session, options: argparse.Namespace) -> int:
    for thing in matching(session, options.what).things:
        print(as_json(session, thing) if options.json else f'#{thing.number:<6} {thing.kind:8} {thing.label}   {shown(thing.key)}')
    return ANSWER


def show(session: Session, options: argparse.Namespace) -> int:
    for thing in resolve(session, options.what, options.each):
        times = flow_times(session, thing)
        if options.json:
            print(as_json(session, thing, **{key.replace(' ', '_'): at for key, at in times.items()}))
            continue
        print(f'{thing.label}  #{thing.number}  {shown(thing.key)}')
        for name in thing.names:
            print(f'  name           {shown(as_shown(name))}')
        for key, at in times.items():
            print(f'  {key:14} {clock(at) if at else f"never in this {session.holder}"}')
        if not times:
            print(f'  {"first and last":14} not kept in mode {session.mode}')
        said = reading_of(session, thing)
        if said:
            print('  read from the log\'s lines:')
            for key, text in said.items():
                print(f'    {key:12} {text}')
    return ANSWER


def flow_times(session: Session, thing: Thing) -> dict[str, str | None]:
    """When something first flowed into the object and last out of it, by the program's answers up to and from a time."""
    if session.mode not in ('plain', 'continuous'):
        return {}

    def is_alone(way: str, at: int | None = None) -> bool:
        return len(session.reach(way, thing.number, '' if at is None else ' ' + spelled(at))) == 1

    taken = None if is_alone('back') else spelled(least(lambda at: not is_alone('back', at)))
    given = None if is_alone('fore') else spelled(least(lambda at: is_alone('fore', at)) - 1)
    return {'first taken in': taken, 'last given out': given}


def least(holds: Callable[[int], bool]) -> int:
    """The least time at which a fact holds that holds from then on."""
    low, high = 0, LAST_SECOND * 1000
    while low < high:
        middle = (low + high) // 2
        low, high = (low, middle) if holds(middle) else (middle + 1, high)
    return low
