"""Long answers at a terminal go through a pager."""
from __future__ import annotations

import contextlib
import io
import os
import shlex
import shutil
import signal
import subprocess
import sys
from typing import Iterator, Sequence


@contextlib.contextmanager
def paged() -> Iterator[None]:
    """What is printed meanwhile goes to standard output, and at a terminal by way of a pager if it is longer than the screen."""
    if not sys.stdout.isatty():
        yield
        return
    with io.StringIO() as answer:
        try:
            with contextlib.redirect_stdout(answer):
                yield
        finally:
            give(answer.getvalue())


def give(answer: str) -> None:
    words = pager_words() if is_longer_than_the_screen(answer) else []
    if not words or not went_through(words, answer):
        sys.stdout.write(answer)


def is_longer_than_the_screen(answer: str) -> bool:
    screen = shutil.get_terminal_size()
    return sum(1 + max(len(it) - 1, 0) // screen.columns for it in answer.split('\n')) > screen.lines


def pager_words() -> list[str]:
    """$PAGER, or less. An empty $PAGER, or cat, means none."""
    try:
        words = shlex.split(os.environ.get('PAGER', 'less -FRX'))
    except ValueError:
        return []
    return words if words and words != ['cat'] and shutil.which(words[0]) else []


def went_through(words: Sequence[str], answer: str) -> bool:
    """Whether the pager took the answer. It may be closed before it has read all, and an interrupt is for it alone."""
    sys.stdout.flush()
    try:
        pager = subprocess.Popen(words, stdin=subprocess.PIPE)
    except OSError:
        return False
    before = signal.signal(signal.SIGINT, signal.SIG_IGN)
    try:
        with contextlib.suppress(BrokenPipeError):
            pager.communicate(answer.encode(sys.stdout.encoding, 'backslashreplace'))
    finally:
        signal.signal(signal.SIGINT, before)
    return True
