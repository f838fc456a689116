"""Objects with their names, and the flows between them."""
from __future__ import annotations

import os
import re
from dataclasses import dataclass

from .basics import shown

# The name that audit_order gives a connection within the machine: where it goes to, and the time and serial number of the call that began it.
CONNECTION = re.compile(r'unix:(.+)#\d{1,18}:\d{1,10}', re.DOTALL)
# A host and a port, as the program spells them.
HOST_AND_PORT = re.compile(r'(\d+\.\d+\.\d+\.\d+|\[[0-9a-f:]+\]):(\d{1,5})')


def as_shown(name: str) -> str:
    """A name as it is shown. The program takes a connection to a port for a socket with a path, and writes `unix:` before it."""
    match = CONNECTION.fullmatch(name)
    return name.removeprefix('unix:') if match and HOST_AND_PORT.fullmatch(match[1]) else name


def place_of(name: str) -> str:
    """Where a connection goes to, if this is the name of one, and else the name itself."""
    return as_shown(name).rpartition('#')[0] if CONNECTION.fullmatch(name) else name


@dataclass(frozen=True)
class Thing:
    """An object of the program: its number, its key, and its names."""
    number: int
    key: str
    names: tuple[str, ...]

    @property
    def kind(self) -> str:
        return self.key.split(' ', 1)[0]

    @property
    def pid(self) -> int:
        return int(self.key.split()[1])

    @property
    def life(self) -> int:
        return int(self.key.split()[2])

    @property
    def known_as(self) -> tuple[str, ...]:
        """Its names, and of a connection also its name as it is shown, and where it goes to."""
        return tuple(dict.fromkeys(it for name in self.names for it in (name, as_shown(name), place_of(name))))

    @property
    def label(self) -> str:
        """A short name, safe for a terminal."""
        name = as_shown(self.names[-1]) if self.names else ''
        if self.kind == 'process':
            return f'{shown(os.path.basename(name)) or "?"}[{self.pid}{f".{self.life}" if self.life else ""}]'
        if name:
            return shown(name)
        words = self.key.split(' ')
        if self.kind == 'made':
            return f'pipe or socket @{words[1]}'
        if self.kind == 'lost':
            return f'descriptor {words[3]} of [{words[1]}]'
        return shown(self.key.split(' ', 1)[1])


@dataclass(frozen=True)
class Step:
    """A flow of a path. `through` counts the hidden objects between its two ends."""
    source: int
    target: int
    how: str
    at: str
    serial: int
    through: int = 0

    @property
    def order(self) -> int:
        return int(self.at.replace('.', ''))
