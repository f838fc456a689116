"""The command `keep`: takes what is new of a log into a store."""
from __future__ import annotations

import argparse
import contextlib
import json
import mmap
import os
import re
import subprocess
import sys
import time
from dataclasses import replace
from typing import BinaryIO, Sequence

from .basics import ANSWER, BAD_STORE, READ_FAULT, Refused, bad_words, many, shown
from .held import Held, START, held_files, record_text
from .kept import Kept, Taken, alone, gap_text, record_shown, written_beside
from .lines import NEEDED_CALLS
from .logs import DEFAULT_LOG, Logs, bad_log
from .portions import PORTION, Part, copied
from .programs import StoreProgram, ended_with, handing_on, program_words, started, stop
from .signs import Signs, signs_of
from .stores import head_of, mode_of_store
from .trust import counted_warnings, noted_warnings, unfit_for_answers
from .whole import WINDOW, whole_of

# auditd writes the records of an event one after the other. If it wrote nothing for this many seconds, no further record comes.
QUIET = 10
CALL_NUMBER = re.compile(rb': arch=c000003e syscall=(\d{1,10}) ')


class Keeper:
    """A store that is kept up to date with a log.

    What is new and whole is written to STORE.portion; then STORE.state says what the store has when it has taken that portion too; then the
    program takes it. Whatever is ended at whatever moment, the number of bytes that the store has tells how the next run goes on.
    """

    def __init__(self, options: argparse.Namespace, lock: int) -> None:
        self.store, self.lock = options.store_kept, lock
        self.words = program_words(options.program)
        self.over_gap = options.over_gap
        self.is_noted = os.path.exists(self.store + '.state')
        self.kept = self.read(options.mode, options.after)

    def read(self, mode: str | None, after: str | None) -> Kept:
        kept = Kept.read(self.store)
        if kept is None and self.bytes_there():
            bad_words(f'{shown(self.store)} has logs, and {shown(self.store)}.state, which says up to where, isn\'t there; keep another store')
        kept = kept or begun_after(after, mode)
        if mode and mode != kept.mode:
            bad_words(f'{shown(self.store)} is kept in mode {kept.mode}, and no other one')
        return kept

    def bytes_there(self) -> int:
        """How many bytes of logs the store has, by the program's answer."""
        if not os.path.exists(self.store) or os.path.isfile(self.store) and head_of(self.store, 1) in (b'', b'\x5a'):
            return 0
        mode_of_store(self.store)
        program = StoreProgram(self.words, self.store, Logs([]))
        try:
            return program.ask('stat')['bytes']
        finally:
            program.stop()

    def save(self, kept: Kept) -> None:
        kept.write(self.store)
        self.kept, self.is_noted = kept, True

    def take_all(self, files: Sequence[Held], progress: bool) -> int:
        """Takes what is new of the files, and gives how many bytes wait until they are whole."""
        before = self.kept.taken.bytes
        if self.kept.coming:
            self.take_portion(self.bytes_there(), self.kept.coming.bytes)
        while True:
            waiting, more = self.next_portion(files)
            if self.kept.coming:
                self.take_portion(self.bytes_unchanged(), self.kept.taken.bytes)
            if progress and more:
                print(f'\r{self.kept.taken.bytes - before >> 20} MB of the log taken', end='', file=sys.stderr, flush=True)
            elif progress:
                print('\r\x1b[K', end='', file=sys.stderr, flush=True)
            if not more:
                return waiting

    def next_portion(self, files: Sequence[Held]) -> tuple[int, bool]:
        """Writes a portion of what is new and whole, if there is something. Gives how many bytes wait, and whether the log goes on after the portion."""
        taken = self.kept.taken
        first, gaps = where_to_go_on(files, taken)
        if gaps and not self.over_gap:
            raise Refused(READ_FAULT, '\n'.join(map(gap_text, gaps)) + f'\n  nothing was taken; put the files back, or take what is there by --over-gap')
        offset = taken.place.offset if taken.place and files[first].starts_as(taken.place) else 0
        with written_beside(self.store + '.portion') as portion:
            parts = copied(files[first:], offset, portion)
            size, more = portion.tell(), portion.tell() >= PORTION
            quiet = not more and os.fstat(files[-1].raw.fileno()).st_mtime < time.time() - QUIET
            cut = whole_of(portion, size, quiet) or (size if more else 0)
            portion.truncate(cut)
            coming = self.after(portion, parts, cut, gaps)
        if cut:
            self.save(Kept(self.kept.mode, taken, coming))
            return size - cut, more
        os.unlink(self.store + '.portion')
        # A new store begins at its place, also if there is nothing new yet.
        if coming != taken or not self.is_noted:
            self.save(Kept(self.kept.mode, coming))
        return size, more

    def after(self, portion: BinaryIO, parts: Sequence[Part], cut: int, gaps: list[tuple[str, str]]) -> Taken:
        """What the store has taken when it has taken this portion too."""
        taken = self.kept.taken
        # A file whose first line isn't whole can't be told from others yet.
        told = [it for it in parts if it.begin <= cut and b'\n' in it.file.start]
        place = told[-1].file.place(told[-1].offset + min(cut - told[-1].begin, told[-1].length)) if told else taken.place
        portion.seek(0)
        first = record_text(portion.read(START), 0)
        portion.seek(max(0, cut - WINDOW))
        last = record_text(portion.read(WINDOW), -1)
        return Taken(taken.bytes + cut, taken.size, place, taken.first or first, last or taken.last, still_unseen(portion, cut, taken.unseen),
                     taken.gaps + tuple(gaps), taken.counts, taken.signs)

    def bytes_unchanged(self) -> int:
        """The same, without the program if the store is as long as it was: it takes a while until it has opened a large store."""
        taken = self.kept.taken
        return taken.bytes if taken.size and os.path.exists(self.store) and os.path.getsize(self.store) == taken.size else self.bytes_there()

    def take_portion(self, there: int, most: int) -> None:
        """Hands the portion to the program. If the store has a part of it, at most `most` bytes of all logs, the program goes on after that."""
        taken, coming = self.kept.taken, self.kept.coming
        if not taken.bytes <= there <= most:
            raise Refused(BAD_STORE, f'{shown(self.store)} has {many(there, "byte")} of logs, and by {shown(self.store)}.state it had {taken.bytes:,}: '
                                     'something else changed it, so nothing is taken')
        portion = self.store + '.portion'
        if not os.path.exists(portion) or os.path.getsize(portion) != coming.bytes - taken.bytes:
            bad_log(portion, f'this isn\'t the portion of {many(coming.bytes - taken.bytes, "byte")} that the store was to take')
        counts, signs = self.reduce(portion, ['--resume'] if there > taken.bytes else [])
        self.save(Kept(self.kept.mode, replace(coming, size=os.path.getsize(self.store), counts=counts, signs=signs)))
        os.unlink(portion)

    def reduce(self, portion: str, resume: list[str]) -> tuple[dict, Signs]:
        """The counts of the store when the program has taken the portion, and the signs in all that was taken."""
        words = [*self.words, 'reduce', self.kept.mode, *resume, '--', portion, self.store]
        process = started(words, 'name the program by --program or in AUDIT_CLI', stdin=subprocess.DEVNULL, stdout=subprocess.PIPE, pass_fds=[self.lock])
        try:
            hand_on = handing_on(process, 'the program')
            # The lines are read while the program is at work. If this run is killed, the next one has the portion too.
            signs = signs_of(portion, self.kept.taken.signs)
            answer = process.stdout.read()
            status = process.wait()
            hand_on.join(2)
        finally:
            stop(process)
        if status:
            raise Refused(ended_with(status), f'the program ended with status {status} over {shown(self.store)}; the next run goes on where it stopped')
        counts = json.loads(answer)
        if counts['bytes'] != self.kept.coming.bytes:
            raise Refused(BAD_STORE, f'{shown(self.store)} has {counts["bytes"]:,} bytes of logs instead of {self.kept.coming.bytes:,}; keep another store')
        return counts, signs


def begun_after(store: str | None, mode: str | None) -> Kept:
    """A new store, of the whole log, or of what comes after what another store has."""
    if store is None:
        return Kept(mode or 'plain', Taken())
    before = Kept.read(store) or bad_words(f'{shown(store)} isn\'t a store that is kept, so no other one can begin where it ends')
    if before.coming:
        bad_words(f'{shown(store)} was stopped in the middle: keep it once more, and then begin the next one after it')
    return Kept(mode or before.mode, Taken(place=before.taken.place, last=before.taken.last))


def where_to_go_on(files: Sequence[Held], taken: Taken) -> tuple[int, list[tuple[str, str]]]:
    """The file with which to go on, and between which records files are missing from there on."""
    first, gaps = 0, []
    if taken.place:
        same = [place for place, it in enumerate(files) if it.starts_as(taken.place)]
        same = [it for it in same if files[it].is_inode_of(taken.place)] or same
        if same:
            first = same[-1]
        else:
            gaps.append((taken.last, files[0].first_record()))
    for older, newer in zip(files[first:], files[first + 1:]):
        if older.number != newer.number + 1:
            gaps.append((older.last_record(), newer.first_record()))
    return first, [it for it in gaps if it not in taken.gaps]


def still_unseen(portion: BinaryIO, size: int, unseen: tuple[str, ...]) -> tuple[str, ...]:
    """The kinds of calls that didn't come yet. A log that was recorded by the right rules has all of them soon, and then isn't looked at."""
    if not unseen or not size:
        return unseen
    seen: set[str] = set()
    kinds = {number: kind for kind in unseen for number in NEEDED_CALLS[kind]}
    portion.flush()
    with mmap.mmap(portion.fileno(), size, access=mmap.ACCESS_READ) as data:
        for match in CALL_NUMBER.finditer(data):
            if match[1] in kinds:
                seen.add(kinds[match[1]])
                if len(seen) == len(unseen):
                    break
    return tuple(it for it in unseen if it not in seen)


def keep(options: argparse.Namespace) -> int:
    """Takes what is new of a log into a store."""
    log = (options.input or [DEFAULT_LOG])[0]
    if len(options.input) > 1 or os.path.exists(log) and not os.path.isdir(log) and not os.path.isfile(log) or log == '-':
        bad_words('keep takes one log, from its files: name it by one -if')
    if options.store is not None or options.order:
        bad_words('keep names its store itself, and takes the log in its own order: --store and --order don\'t stand beside it')
    with alone(options.store_kept, options.wait) as lock, contextlib.ExitStack() as ends:
        keeper = Keeper(options, lock)
        before = keeper.kept.taken.bytes
        waiting = keeper.take_all(held_files(log, ends), not options.quiet and sys.stderr.isatty())
    tell_kept(options, keeper.kept, keeper.kept.taken.bytes - before, waiting)
    return ANSWER


def tell_kept(options: argparse.Namespace, kept: Kept, count: int, waiting: int) -> None:
    taken = kept.taken
    if options.json:
        warnings = unfit_for_answers(taken.counts or {}, 'store', b'') or noted_warnings(taken) + counted_warnings(taken.counts)
        print(json.dumps({'store': options.store_kept, 'mode': kept.mode, 'taken': count, 'waiting': waiting, 'bytes': taken.bytes, 'size': taken.size,
                          'first': taken.first, 'last': taken.last, 'unseen': taken.unseen, 'gaps': taken.gaps, 'stat': taken.counts, 'warnings': warnings}))
        return
    until = f', up to {record_shown(taken.last)}' if taken.last else ''
    waits = f'; {many(waiting, "byte")} {"waits" if waiting == 1 else "wait"} for the end of an event' if waiting else ''
    print(f'{shown(options.store_kept)}: {many(count, "byte")} taken{until}{waits}')
