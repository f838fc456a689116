"""What every part needs: how a run ends, and text as it may reach a terminal."""
from __future__ import annotations

import os
import sys
from pathlib import Path
from typing import NoReturn

VERSION = '0.3.0'
# The folder of the command, beside which its programs and the audit rules are looked for.
FOLDER = Path(sys.argv[0]).resolve().parent
MAY_NOT = "this may not be read; audit logs are root's, so run autrail by sudo"
MODES = ('plain', 'continuous', 'full', 'source')
# How a run ends. A program that ends with a status of its own hands that on.
ANSWER, NO_ANSWER, BAD_WORDS, READ_FAULT, WRITE_FAULT, BAD_STORE, INTERRUPTED = 0, 1, 2, 4, 5, 7, 130


class Refused(Exception):
    """A run that ends without an answer: its status, and one line that says what to do."""

    def __init__(self, status: int, text: str) -> None:
        super().__init__(text)
        self.status = status


def bad_words(text: str) -> NoReturn:
    raise Refused(BAD_WORDS, text)


def shown(text: str) -> str:
    """The text as it may reach a terminal: whatever isn't printable is written as an escape, and a backslash twice."""
    return ''.join(c if c.isprintable() and c != '\\' else escape(c) for c in text)


def escape(c: str) -> str:
    short = {'\\': '\\\\', '\n': '\\n', '\t': '\\t', '\r': '\\r'}
    code = ord(c)
    return short.get(c) or (f'\\x{code:02x}' if code < 256 else f'\\u{code:04x}' if code < 65536 else f'\\U{code:08x}')


def say(text: str) -> None:
    """A note on standard error. If it can't be written the answer is given all the same."""
    try:
        print(f'autrail: {text}', file=sys.stderr, flush=True)
    except OSError:
        os.dup2(os.open(os.devnull, os.O_WRONLY), sys.stderr.fileno())


def many(count: int, one: str, more: str | None = None) -> str:
    return f'{count:,} {one if count == 1 else more or one + "s"}'
