"""The program over the logs or over a store, with what was asked of it already."""
from __future__ import annotations

import argparse
import contextlib
import os
from typing import Iterable, Iterator, Sequence

from .basics import NO_ANSWER, Refused, bad_words
from .common import NEVER_COMMON, common_patterns, matches
from .kept import noted_of
from .lines import Life
from .logs import Logs, logs_of
from .programs import LogProgram, Program, StoreProgram, order_words, program_words
from .stores import mode_of_store
from .things import Step, Thing

LONGEST_QUESTION = 4096


class Session:
    """The program over the logs, with what was asked of it already."""

    def __init__(self, program: Program, mode: str, store: str | None = None) -> None:
        self.program, self.mode, self.store = program, mode, store
        self.ordered = program.order is not None
        self.reading = program.reading
        self.counts = program.ask('stat')
        self.things: dict[int, Thing] = {}
        self.written: dict[int, bool] = {}
        self.common = common_patterns()
        self.noted = noted_of(store, self.counts['bytes']) if store is not None else None

    @classmethod
    @contextlib.contextmanager
    def over(cls, options: argparse.Namespace) -> Iterator[Session]:
        """A session over the logs or the store of the command line. At its end the program ends."""
        with contextlib.ExitStack() as ends:
            if options.store is not None:
                mode = mode_of_store(options.store)
                logs = logs_of(options.input, ends) if options.input else Logs([])
                program: Program = StoreProgram(program_words(options.program), options.store, logs, not options.quiet)
            else:
                mode = options.mode or 'plain'
                logs = logs_of(options.input, ends)
                # What stat tells is about the log as it is: ordering would hide how many events are late.
                in_order = options.command != 'stat' if options.order is None else options.order
                order = order_words(options.order is True) if in_order else []
                program = LogProgram(program_words(options.program), mode, logs, not options.quiet, order)
            ends.callback(program.stop)
            yield cls(program, mode, options.store)

    @property
    def holder(self) -> str:
        """What the answers are about, as notes call it."""
        return 'log' if self.store is None else 'store'

    @property
    def has_lines(self) -> bool:
        return bool(self.program.logs.files)

    @property
    def has_all_lines(self) -> bool:
        """Whether the lines of all that is asked about are there. A store may have taken more than the logs that are named beside it."""
        return self.has_lines and (self.store is None or self.reading.bytes == self.counts['bytes'])

    def life_of(self, thing: Thing) -> tuple[Life | None, bool]:
        """The log's lines of a process, and whether they are surely its own. A store may have lives from logs that aren't named beside it."""
        life, sure = self.reading.life_of(thing.pid, thing.life)
        return life, sure and self.has_all_lines

    @property
    def known(self) -> int:
        return self.counts['known']

    def thing(self, number: int) -> Thing:
        return self.things.get(number) or self.of([number])[0]

    def numbered(self, number: int) -> Thing:
        """The object of a number that was typed."""
        if number >= self.known:
            raise Refused(NO_ANSWER, f'no object of the {self.holder} has the number {number}; there are {self.known:,}, from #0 on')
        return self.thing(number)

    def of(self, numbers: Iterable[int]) -> list[Thing]:
        numbers = list(numbers)
        wanted = [it for it in numbers if it not in self.things]
        for reply in self.program.ask_all([f'show {it}' for it in wanted]):
            self.things[reply['show']] = Thing(reply['show'], reply['is'], tuple(reply['names']))
        return [self.things[it] for it in numbers]

    def everything(self) -> list[Thing]:
        return self.of(range(self.known))

    def named(self, name: str) -> list[Thing]:
        """The objects that have exactly this name. In a reply U+FFFD stands for a byte that isn't UTF-8, so a name with it is looked for among the replies."""
        question = f'find {name}'
        if '\n' in name or '\ufffd' in name or not name or len(os.fsencode(question)) > LONGEST_QUESTION:
            return [it for it in self.everything() if name in it.names]
        return self.of(self.program.ask(question)['ids'])

    def reach(self, way: str, number: int, bound: str = '') -> list[int]:
        """The objects that the program answers to `back` or `fore`."""
        reply = self.program.ask(f'{way} {number}{bound}')
        self.must_be_kept(reply)
        return reply['ids'] if 'ids' in reply else reply['sources']

    def path(self, source: int, target: int, bound: str = '') -> list[Step] | None:
        return self.paths([(source, target)], bound)[0]

    def paths(self, pairs: Sequence[tuple[int, int]], bound: str) -> list[list[Step] | None]:
        """A path for each pair of objects, or none if there is none."""
        return [self.steps(it) for it in self.program.ask_all([f'why {source} {target}{bound}' for source, target in pairs])]

    def steps(self, reply: dict) -> list[Step] | None:
        self.must_be_kept(reply)
        if reply['path'] is None:
            return None
        return [Step(it['from'], it['to'], it['how'], it['at'], it['serial']) for it in reply['path']]

    def must_be_kept(self, reply: dict) -> None:
        if 'error' in reply:
            bad_words(f'mode {self.mode} doesn\'t answer this; ask in the mode plain or continuous')

    def was_written(self, thing: Thing) -> bool:
        """Whether anything flowed into the object in this log, by the program's answer."""
        if thing.number not in self.written:
            self.written[thing.number] = any(it != thing.number for it in self.reach('back', thing.number))
        return self.written[thing.number]

    def is_common(self, thing: Thing) -> bool:
        """Whether the object is one that nearly every process reads. What was written in the log never is."""
        if thing.kind not in ('file', 'path') or not thing.names:
            return False
        return all(matches(it, self.common) and not it.startswith(NEVER_COMMON) for it in thing.names) and not self.was_written(thing)
