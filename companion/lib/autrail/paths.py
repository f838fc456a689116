"""The command `why`: one path between two objects."""
from __future__ import annotations

import argparse

from .basics import ANSWER, NO_ANSWER, Refused, bad_words, many, say, shown
from .evidence import Evidence, evidence, in_words, may_be_regular
from .json_lines import step_json
from .naming import describe, listed, matching, resolve, several_of
from .processes import tell_processes
from .session import Session
from .stores import NO_LINES
from .things import Step, Thing
from .times import bound_of, clock
from .trees import can_draw
from .trust import blind_spots


def why(session: Session, options: argparse.Namespace) -> int:
    """One path between two objects. If a name belongs to several objects, the pair of the last ones is taken that has a path."""
    if options.lines and not session.has_lines:
        bad_words(f'--lines shows the log\'s lines, and {NO_LINES}')
    bound = bound_of(options.time, 'flows up to')
    sources, targets = (objects_of(session, it, options.each) for it in (options.source, options.target))
    pairs = [(source, target) for target in reversed(targets) for source in reversed(sources)]
    for place, (source, target) in enumerate(pairs):
        path = session.path(source.number, target.number, bound)
        if path is not None:
            if len(pairs) > 1:
                say(pair_taken(source, target, place, len(pairs)))
            show_path(session, options, source, path)
            return ANSWER
    raise Refused(NO_ANSWER, f'no path in this {session.holder} from {either(sources)} to {either(targets)}\n{blind_spots(session)}')


# How much later than its entry audit_order lets a read count that can't wait, in milliseconds.
TICK = 4


def tell_waits(session: Session, path: list[Step], records: dict[Step, Evidence]) -> None:
    """Says which reads the path takes to have waited that perhaps can't have. audit_order doesn't know each file that is a regular one, of which no read waits."""
    def entered(step: Step) -> int:
        recorded = records[step].recorded
        return step.order if recorded is None else recorded

    for fed, read in zip(path, path[1:]):
        if read.how == 'read' and entered(read) + TICK < entered(fed) and may_be_regular(session, session.thing(read.source)):
            say(f'serial {read.serial} reads {session.thing(read.source).label} and was entered before serial {fed.serial}, which feeds it: no read of a regular file waits so, '
                'and audit_order doesn\'t know each of them, such as one that was open before the log began')


def objects_of(session: Session, what: str, each: bool) -> list[Thing]:
    """The objects that a name means, of which a note tells if they are several."""
    match = matching(session, what)
    if not match.one_name:
        return resolve(session, what, each)
    if len(match.meant) > 1:
        say(several_of(what, match.meant))
    return match.meant


def pair_taken(source: Thing, target: Thing, place: int, count: int) -> str:
    passed = f', since {many(place, "pair")} of later ones {"has" if place == 1 else "have"} no path' if place else ''
    return f'of {many(count, "pair")} of objects that of {describe(source)} and {describe(target)} is taken{passed or ", the last ones"}'


def either(things: list[Thing]) -> str:
    return describe(things[0]) if len(things) == 1 else f'each of {listed(things)}'


def show_path(session: Session, options: argparse.Namespace, source: Thing, path: list[Step]) -> None:
    # In the order of effects the log's lines are read even if they aren't shown, for the times that they bear.
    records = evidence(session, path) if options.lines or session.ordered else {}
    lines = {step: it.lines for step, it in records.items()} if options.lines else {}
    raised = {step: it.recorded for step, it in records.items()}
    if session.ordered:
        tell_waits(session, path, records)
    if options.interpret:
        lines = in_words(lines)
    if options.json:
        for step in path:
            print(step_json(session, step, raised.get(step), texts(lines, step) if options.lines else None))
        return
    arrow = '→' if can_draw() else '->'
    if not path:
        print(f'{source.label}  #{source.number}  is both, so the path has no step')
    for step in path:
        ends = f'  {arrow}  '.join(f'{session.thing(it).label}  #{it}' for it in (step.source, step.target))
        recorded = '' if raised.get(step) is None else f'  (recorded as {clock(raised[step])})'
        print(f'{clock(step.at)}  {step.serial:>8}  {step.how:5}  {ends}{recorded}')
        for line in texts(lines, step):
            print('      ' + line)
    if not options.lines:
        tell_processes(session, [it for step in path for it in (step.source, step.target)])


def texts(lines: dict[Step, list[bytes]], step: Step) -> list[str]:
    return [shown(it.decode('utf-8', 'replace')) for it in lines.get(step, [])]
