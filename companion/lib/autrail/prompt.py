"""The command `ask`: commands at a prompt."""
from __future__ import annotations

import shlex
import sys
from typing import Iterable

from .basics import ANSWER, Refused, bad_words, say
from .commands import ASKED, answered
from .options import options_of
from .session import Session

HELP = 'commands: ' + ', '.join(ASKED) + '; quit, or Ctrl-D, ends; "autrail back --help" and the like have their options'


def ask(session: Session) -> int:
    """Commands at a prompt, over a log that is read once."""
    import readline
    readline.set_completer_delims(' ')
    readline.set_completer(Completion(it for thing in session.everything() for it in thing.known_as))
    readline.parse_and_bind('tab: complete')
    if sys.stdin.isatty():
        print(HELP)
    while True:
        try:
            words = words_of(input('autrail> ' if sys.stdin.isatty() else ''))
            if words in (['quit'], ['exit']):
                break
            if words in (['help'], ['?']):
                print(HELP)
            elif words:
                run_asked(session, words)
        except EOFError:
            break
        except Refused as fault:
            say(str(fault))
    return ANSWER


def words_of(line: str) -> list[str]:
    try:
        return shlex.split(line)
    except ValueError as fault:
        bad_words(str(fault))


class Completion:
    """Gives the commands and names that begin as a word does, as the prompt takes them. A name that can't be shown as it is isn't offered."""

    def __init__(self, names: Iterable[str]) -> None:
        self.names = [(it, shlex.quote(it)) for it in sorted(set(names)) if it.isprintable()]
        self.found: list[str] = []

    def __call__(self, text: str, place: int) -> str | None:
        """The words one after the other, as readline asks for them."""
        if place == 0:
            self.found = self.words(text)
        return self.found[place] if place < len(self.found) else None

    def words(self, text: str) -> list[str]:
        return [it for it in ASKED if it.startswith(text)] + [quoted for name, quoted in self.names if name.startswith(text) or quoted.startswith(text)]


def run_asked(session: Session, words: list[str]) -> None:
    if {'-h', '--help', '--version'} & set(words):
        words = [it for it in words if it in ASKED][:1]
        bad_words('the words are those of "autrail ' + ' '.join(words + ['--help"']))
    asked = options_of(words)
    if asked.command not in ASKED:
        bad_words('at the prompt there are ' + ', '.join(ASKED))
    if asked.input or asked.program or asked.mode or asked.store is not None or asked.order is not None:
        bad_words('-if, --store, -m, --order and --program stand before ask, not at the prompt')
    answered(session, asked)
