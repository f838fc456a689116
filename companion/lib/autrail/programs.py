"""The programs that autrail starts: starting and ending them, feeding them a log, and asking question lines."""
from __future__ import annotations

import contextlib
import fcntl
import json
import os
import shlex
import shutil
import signal
import subprocess
import sys
import threading
from pathlib import Path
from typing import NoReturn, Sequence

from .basics import FOLDER, NO_ANSWER, READ_FAULT, Refused, VERSION, bad_words, say, shown
from .lines import Reading
from .logs import Logs, PIECE, pieces

# The command of fcntl that sets how many bytes a pipe holds; Python has a name for it from 3.10 on.
F_SETPIPE_SZ = 1031
TAKE = 1 << 22
# How many questions are asked at once.
AT_ONCE = 200


def program_words(option: str | None) -> list[str]:
    return words_given(option or os.environ.get('AUDIT_CLI'), 'correct --program or AUDIT_CLI') or words_found('audit_cli') or bad_words(
        'the program audit_cli isn\'t on the PATH; name it by --program or in AUDIT_CLI')


GET_ORDER = 'in Kitrevasu\'s repository "./audit_order </dev/null" builds it and "make install" installs it; or name it in AUDIT_ORDER'


def order_words(demanded: bool) -> list[str]:
    """The program that orders a log, or nothing if it isn't there and wasn't demanded."""
    found = words_given(os.environ.get('AUDIT_ORDER'), 'correct AUDIT_ORDER') or words_found('audit_order')
    return found or (bad_words(f'--order needs the program audit_order, which isn\'t there: {GET_ORDER}') if demanded else [])


def words_given(words: str | None, what_to_do: str) -> list[str]:
    try:
        return shlex.split(words or '')
    except ValueError as fault:
        bad_words(f'the program\'s words {shown(words)} can\'t be split into words ({fault}); {what_to_do}')


def words_found(name: str) -> list[str]:
    """The program of this name: on the PATH, beside autrail, or at the top of the repository."""
    if shutil.which(name):
        return [name]
    return next(([str(it)] for it in (FOLDER / name, FOLDER.parent / name) if it.is_file()), [])


def started(words: Sequence[str], what_to_do: str, **streams: object) -> subprocess.Popen[bytes]:
    """A program in a session of its own, so that whatever it starts to build itself can be ended with it."""
    try:
        return subprocess.Popen(words, stderr=subprocess.PIPE, start_new_session=True, **streams)
    except OSError as fault:
        bad_words(f'{shown(words[0])} doesn\'t start ({fault.strerror}); {what_to_do}')


def handing_on(process: subprocess.Popen[bytes], name: str) -> threading.Thread:
    """What a program says on standard error is handed on as it comes: it may build itself for an hour."""
    def hand_on() -> None:
        for line in process.stderr:
            say(f'{name} says: ' + shown(line.decode('utf-8', 'replace').rstrip('\n')))

    thread = threading.Thread(target=hand_on, daemon=True)
    thread.start()
    return thread


def ended_with(status: int) -> int:
    """The status of a program that failed as autrail's own. 0 and 1 would say that the log was asked."""
    return 128 - status if status < 0 else status if status > NO_ANSWER else READ_FAULT


def stop(process: subprocess.Popen[bytes]) -> None:
    """Ends a program, and what it may have started to build itself."""
    with contextlib.suppress(ProcessLookupError):
        os.killpg(process.pid, signal.SIGKILL)
    process.wait()


def wide_pipe() -> tuple[int, int]:
    """The two ends of a pipe. With room for a piece, whoever reads works while the next piece is unpacked."""
    ends = os.pipe()
    with contextlib.suppress(OSError):
        fcntl.fcntl(ends[1], F_SETPIPE_SZ, PIECE)
    return ends


class Progress:
    """How much of a log was read, on one line of a terminal."""

    def __init__(self, wanted: bool) -> None:
        self.wanted, self.told = wanted and sys.stderr.isatty(), False

    def tell(self, count: int) -> None:
        if self.wanted:
            print(f'\r{count >> 20} MB of the log read', end='', file=sys.stderr, flush=True)
            self.told = True

    def end(self) -> None:
        if self.told:
            print('\r\x1b[K', end='', file=sys.stderr, flush=True)


class Order:
    """The program audit_order: what is written into it comes out as a log in the order of effects."""

    def __init__(self, words: Sequence[str], out: int) -> None:
        theirs, self.into = wide_pipe()
        try:
            self.process = started(words, 'name audit_order in AUDIT_ORDER', stdin=theirs, stdout=out)
        except BaseException:
            os.close(self.into)
            raise
        finally:
            os.close(theirs)
        self.hand_on = handing_on(self.process, 'audit_order')

    def must_be_whole(self, read: bool) -> None:
        """Refuses an answer unless the log was read to its end and all of it was written."""
        if self.process.wait() or not read:
            raise self.fault()

    def fault(self) -> Refused:
        status = self.process.wait()
        self.hand_on.join(2)
        return Refused(ended_with(status), f'audit_order ended with status {status} before it had ordered the log, so nothing is answered; '
                                           '--no-order asks in the order of the log')


class Program:
    """The program, which answers question lines. What it answers from, and the logs whose lines may be shown, its two kinds say."""

    def __init__(self, words: list[str], about: str, logs: Logs, **streams: object) -> None:
        self.about, self.logs, self.reading = about, logs, Reading()
        self.fault: Refused | None = None
        self.order: Order | None = None
        self.process = started(words, 'name the program by --program or in AUDIT_CLI', stdin=subprocess.PIPE, stdout=subprocess.PIPE, **streams)
        self.hand_on = handing_on(self.process, 'the program')

    def ask(self, question: str) -> dict:
        return self.ask_all([question])[0]

    def ask_all(self, questions: Sequence[str]) -> list[dict]:
        """The replies to some questions. While the program answers some, those before are read; both together are few enough for a pipe."""
        replies: list[dict] = []
        asked: Sequence[str] = []
        for start in range(0, len(questions), AT_ONCE):
            some = questions[start:start + AT_ONCE]
            self.write(some)
            replies += self.replies(asked)
            asked = some
        return replies + self.replies(asked)

    def write(self, questions: Sequence[str]) -> None:
        try:
            self.process.stdin.write(b''.join(os.fsencode(it) + b'\n' for it in questions))
            self.process.stdin.flush()
        except BrokenPipeError:
            self.ended()

    def replies(self, questions: Sequence[str]) -> list[dict]:
        """A reply to each of these questions. All are read as one list, since that takes less time than line by line."""
        lines = [self.process.stdout.readline() for _ in questions]
        if not all(it.endswith(b'\n') for it in lines):
            self.ended()
        replies = json.loads((b'[' + b','.join(lines) + b']').decode())
        for question, reply in zip(questions, replies):
            if reply.get('error') == 'BadQuestion':
                bad_words(f'this program doesn\'t answer {question.split()[0]!r}; autrail {VERSION} needs a later one')
        return replies

    def ended(self) -> NoReturn:
        status = self.process.wait()
        self.hand_on.join(2)
        raise self.fault or Refused(ended_with(status), f'the program ended with status {status} over {shown(self.about)}, before it had answered')

    def stop(self) -> None:
        """Ends the programs."""
        stop(self.process)
        if self.order:
            stop(self.order.process)


class LogProgram(Program):
    """The program over logs. They come through a pipe, so that packed and rotated files need no copy."""

    def __init__(self, words: list[str], mode: str, logs: Logs, progress: bool, order: Sequence[str] = ()) -> None:
        self.fed, self.all_fed = 0, False
        theirs, ours = wide_pipe()
        super().__init__([*words, 'watch', mode, f'/dev/fd/{theirs}'], logs.files[-1].path, logs, pass_fds=[theirs])
        try:
            os.close(theirs)
            if order:
                self.order = Order(order, ours)
                os.close(ours)
                ours = self.order.into
                threading.Thread(target=self.watch_order, daemon=True).start()
            self.feeding = threading.Thread(target=self.feed, args=(ours,), daemon=True)
            self.feeding.start()
            self.take_all(progress)
        except BaseException:
            self.stop()
            raise

    def watch_order(self) -> None:
        """Ends the program if audit_order fails, since it may be about to build itself for an hour, and nothing will be answered."""
        if self.order.process.wait() == 0:
            return
        try:
            # If audit_order failed since the program had ended, the program's own status counts.
            self.process.wait(1)
        except subprocess.TimeoutExpired:
            self.fault = self.fault or self.order.fault()
            stop(self.process)

    def feed(self, into: int) -> None:
        try:
            with os.fdopen(into, 'wb') as sink:
                for file in self.logs.files:
                    ended = True
                    for piece in pieces(file):
                        self.reading.take(piece)
                        sink.write(piece)
                        self.fed += len(piece)
                        ended = piece.endswith(b'\n')
                    if not ended and file is not self.logs.files[-1]:
                        sink.write(b'\n')
                sink.flush()
                self.all_fed = True
        except BrokenPipeError:
            pass
        except Refused as fault:
            self.fault = fault
        except Exception as fault:  # pylint: disable=broad-except
            # The program would take the rest of the log for not there, so nothing may be answered.
            self.fault = Refused(READ_FAULT, f'the log could not be read to its end ({fault})')

    def take_all(self, progress: bool) -> None:
        shown_so_far = Progress(progress)
        taken = TAKE
        while taken == TAKE:
            taken = self.ask(f'take {TAKE}')['take']
            shown_so_far.tell(self.fed)
        shown_so_far.end()
        # A damaged file ends the pipe too, so its fault is waited for before anything is answered.
        self.feeding.join()
        if self.fault:
            raise self.fault
        if self.order:
            self.order.must_be_whole(self.all_fed)
        self.ask('settle')


class StoreProgram(Program):
    """The program over a store. Logs that are named beside it are read for their lines alone."""

    def __init__(self, words: list[str], store: str, logs: Logs, progress: bool = False) -> None:
        super().__init__([*words, 'query', '--', store], store, logs)
        try:
            shown_so_far = Progress(progress)
            for file in logs.files:
                for piece in pieces(file):
                    self.reading.take(piece)
                    shown_so_far.tell(self.reading.bytes)
            shown_so_far.end()
        except BaseException:
            self.stop()
            raise
