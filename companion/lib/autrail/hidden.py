"""Which objects of an answer aren't shown. They are always counted."""
from __future__ import annotations

import argparse
from dataclasses import dataclass
from typing import Iterable

from .basics import many
from .common import matches
from .session import Session
from .things import Thing


@dataclass(frozen=True)
class Hidden:
    """The objects of an answer that aren't shown: common objects, and objects that --hide names."""
    common: frozenset[int]
    named: frozenset[int]

    @classmethod
    def of(cls, session: Session, things: Iterable[Thing], options: argparse.Namespace) -> Hidden:
        # The labels of a large answer take a while to make, and nothing else here asks for them.
        named = {it for it in things if any(matches(name, options.hide) for name in (it.label, *it.known_as))} if options.hide else set()
        common = {it for it in things if it not in named and not options.all and session.is_common(it)}
        return cls(frozenset(it.number for it in common), frozenset(it.number for it in named))

    def __contains__(self, number: int) -> bool:
        return number in self.common or number in self.named

    def texts(self) -> list[str]:
        """How many are hidden, and why."""
        common = f'{many(len(self.common), "common object")} hidden; -a shows {"it" if len(self.common) == 1 else "them"}'
        return [common] * bool(self.common) + [f'{many(len(self.named), "object")} hidden by --hide'] * bool(self.named)
