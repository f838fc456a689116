"""The command `rules`: audit rules that the answers need."""
from __future__ import annotations

import sys

from .basics import ANSWER, FOLDER, READ_FAULT, Refused


def rules() -> int:
    for place in (FOLDER / 'kitrevasu.rules', FOLDER.parent / 'share' / 'autrail' / 'kitrevasu.rules'):
        if place.is_file():
            sys.stdout.write(place.read_text(encoding='utf-8'))
            return ANSWER
    raise Refused(READ_FAULT, 'the file kitrevasu.rules isn\'t beside autrail, nor in ../share/autrail: install autrail again')
