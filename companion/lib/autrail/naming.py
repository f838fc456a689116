"""Which objects a word of the command line means."""
from __future__ import annotations

import contextlib
import fnmatch
import ipaddress
import os
import re
from dataclasses import dataclass
from typing import Sequence

from .basics import NO_ANSWER, Refused, bad_words, many, say, shown
from .session import Session
from .things import HOST_AND_PORT, Thing, as_shown, place_of

MOST_LISTED = 8


@dataclass
class Match:
    """The objects that WHAT may mean, and whether they are those of one name, of which the last may be meant."""
    things: list[Thing]
    one_name: bool = False

    @property
    def ran_it(self) -> list[Thing]:
        """The processes that ran the program of this name, which are meant only if nothing else has the name."""
        files = [it for it in self.things if it.kind != 'process']
        return [it for it in self.things if it.kind == 'process'] if files and self.one_name else []

    @property
    def meant(self) -> list[Thing]:
        return [it for it in self.things if it not in self.ran_it]


def candidates(session: Session, what: str) -> Match:
    if not what:
        bad_words('what is asked about is empty; name a path, a pattern, an address or a process')
    if match := re.fullmatch(r'#(\d{1,10})', what):
        return Match([session.numbered(int(match[1]))])
    prefix, _, rest = what.partition(':')
    if prefix == 'name':
        return Match(session.named(as_the_program_has_it(rest)), one_name=True)
    if match := re.fullmatch(r'pid:(\d+)(?:\.(\d+))?', what):
        key = f'process {match[1]} ' + (match[2] or '')
        return Match([it for it in session.everything() if it.key == key or not match[2] and it.key.startswith(key)], one_name=True)
    if prefix == 'exe':
        return Match([it for it in session.named(rest) if it.kind == 'process'] or running(session, rest))
    if match := re.fullmatch(r'inode:(\w+:\w+):(\d+)', what):
        key = f'file {match[1]} {match[2]} '
        return Match([it for it in session.everything() if it.key.startswith(key)], one_name=True)
    if found := of_name(session, spelled_out(what)):
        return Match(found, one_name=any(it.kind != 'process' for it in found))
    found = alike(session, what)
    return Match(found, one_name=len({place_of(it.names[-1]) if it.kind == 'address' else it for it in found}) == 1)


def spelled_out(what: str) -> str:
    """An IPv6 address with its port, and a connection, as the program spells them, and everything else as it is."""
    if match := re.fullmatch(r'\[([0-9A-Fa-f:.]+)\]:(\d{1,5})', what):
        with contextlib.suppress(ValueError):
            return f'[{ipaddress.IPv6Address(match[1]).exploded}]:{match[2]}'
    return as_the_program_has_it(what)


def as_the_program_has_it(name: str) -> str:
    return 'unix:' + name if as_shown('unix:' + name) == name else name


def of_name(session: Session, name: str) -> list[Thing]:
    """The objects of a name. That of an address or a socket's path is also that of the connections to it, which audit_order makes objects of their own.

    For these all objects are looked at, which takes a while if they are many: for those to a path only if the log was put in order now.
    """
    names = {name, 'unix:' + name} if name.startswith(('/', '@')) else {name}
    found = {it for each in names for it in session.named(each)}
    if HOST_AND_PORT.fullmatch(name) or name.startswith('unix:') or session.ordered and len(names) > 1:
        found |= {it for it in session.everything() if it.kind == 'address' and any(place_of(each) in names for each in it.names)}
    return sorted(found, key=lambda it: it.number)


def running(session: Session, what: str) -> list[Thing]:
    """The processes that ran a program of this base name, or of a name of this pattern."""
    return [it for it in session.everything() if it.kind == 'process' and any(os.path.basename(name) == what or fnmatch.fnmatchcase(name, what) for name in it.names)]


def alike(session: Session, what: str) -> list[Thing]:
    """Objects by a pattern, an address without its port, a port, a base name, or the program of a process."""
    everything = session.everything()
    if re.search(r'[*?\[]', what):
        found = [it for it in everything if any(fnmatch.fnmatchcase(name, what) for name in it.known_as)]
        if found:
            return found
    ends = [it for it in everything if it.kind == 'address' and any(is_end(place_of(name), what) for name in it.names)]
    bases = [it for it in everything if it.kind != 'process' and any(is_base(name, what) for name in it.known_as)]
    return ends or bases or [it for it in everything if it.kind == 'process' and any(what in (name, os.path.basename(name)) for name in it.names)]


def is_end(address: str, what: str) -> bool:
    """Whether WHAT is the address's host alone, or its port alone as :PORT."""
    match = HOST_AND_PORT.fullmatch(address)
    if not match or re.fullmatch(r':\d+', what):
        return match is not None and what[1:] == match[2]
    try:
        return ipaddress.ip_address(match[1].strip('[]')) == ipaddress.ip_address(what.strip('[]'))
    except ValueError:
        return False


def is_base(name: str, what: str) -> bool:
    return os.path.basename(name) == what or name == 'unix:' + what


def describe(thing: Thing) -> str:
    return f'#{thing.number} {thing.label} ({shown(thing.key)})'


def listed(things: Sequence[Thing]) -> str:
    """Some of the objects, and always the last one, which may be taken."""
    texts = [describe(it) for it in things]
    return ', '.join(texts if len(texts) <= MOST_LISTED else texts[:MOST_LISTED - 1] + ['..', texts[-1]])


def matching(session: Session, what: str) -> Match:
    match = candidates(session, what)
    if not match.things:
        said = f'nothing in the {session.holder} is called {shown(what)}'
        base = os.path.basename(what)
        near = sorted({it for thing in session.everything() for it in thing.known_as if base and base.lower() in it.lower()})
        raise Refused(NO_ANSWER, said + ('; there is ' + ', '.join(map(shown, near[:5])) if near else ''))
    return match


def resolve(session: Session, what: str, each: bool) -> list[Thing]:
    """The objects that are asked about: one, or with `each` all that WHAT may mean."""
    match = matching(session, what)
    if match.ran_it:
        say(f'{many(len(match.ran_it), "process", "processes")} ran {shown(what)}: exe:{shown(what)} asks about them')
    things = match.meant
    if each or len(things) == 1:
        return things
    if not match.one_name:
        bad_words(f'{shown(what)} may mean {many(len(things), "object")}: {listed(things)}; name one, or ask for all by --each')
    say(f'{several_of(what, things)}; the last is taken, --each takes all')
    return things[-1:]


def several_of(what: str, things: Sequence[Thing]) -> str:
    return f'{shown(what)} is the name of {many(len(things), "object")}: {listed(things)}'
