"""The commands that ask a session, each by its name."""
from __future__ import annotations

import argparse

from .counts import stat
from .listing import find, show
from .pager import paged
from .paths import why
from .reach import reach
from .session import Session

# Each gives a status and writes its answer.
COMMANDS = {'back': reach, 'fore': reach, 'why': why, 'find': find, 'show': show, 'stat': stat}
ASKED = tuple(COMMANDS)


def answered(session: Session, options: argparse.Namespace) -> int:
    """The status of a command, whose answer is written."""
    with paged():
        return COMMANDS[options.command](session, options)
