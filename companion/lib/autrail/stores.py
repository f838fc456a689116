"""Stores as files: whether a file is one, and of which mode."""
from __future__ import annotations

import os
import re
from typing import NoReturn

from .basics import BAD_STORE, MAY_NOT, MODES, READ_FAULT, Refused, VERSION, shown

# A store begins with an open gate, the length of its first batch, four letters, a version, and the number of its mode.
STORE_HEAD = re.compile(rb'\xa5.{8}ADLR(.)(.)', re.DOTALL)
NO_LINES = 'a store has no lines of its own; name the log by -if beside --store'


def head_of(path: str, length: int) -> bytes:
    try:
        with open(path, 'rb') as file:
            return file.read(length)
    except OSError as fault:
        raise Refused(READ_FAULT, f'{shown(path)}: the file can\'t be read ({fault.strerror})') from None


def begins_as_a_store(path: str) -> bool:
    return STORE_HEAD.match(head_of(path, 15)) is not None


def bad_store(path: str, why: str) -> NoReturn:
    raise Refused(BAD_STORE, f'{shown(path)}: {why}')


def mode_of_store(path: str) -> str:
    """The mode of a store. Whatever isn't one is refused before the program is asked about it."""
    if not os.path.exists(path):
        raise Refused(READ_FAULT, f'{shown(path)}: no such store; "autrail keep STORE" makes one')
    if not os.path.isfile(path):
        bad_store(path, 'a store is a regular file')
    if not os.access(path, os.R_OK):
        raise Refused(READ_FAULT, f'{shown(path)}: {MAY_NOT}')
    head = head_of(path, 15)
    if head[:1] in (b'', b'\x5a'):
        bad_store(path, 'the store has no batch yet')
    match = STORE_HEAD.match(head) or bad_store(path, 'this isn\'t a store; a log is named by -if')
    if match[1] != b'\x01' or not 1 <= match[2][0] <= len(MODES):
        bad_store(path, f'a store of a form that autrail {VERSION} doesn\'t know')
    return MODES[match[2][0] - 1]
