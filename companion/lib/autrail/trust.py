"""What to mistrust in a log or a store, and what no answer over it can show."""
from __future__ import annotations

import re
from datetime import datetime
from typing import Collection, Mapping, Sequence

from .basics import many, shown
from .kept import Taken, gap_text, time_text
from .lines import NEEDED_CALLS, OUR_MACHINE, Reading
from .session import Session
from .signs import X86_64
from .times import DAY, clock, zone

OTHER_MACHINES = {'40000003': 'the 32-bit gate (i386)', 'c00000b7': 'AArch64', '40000028': 'ARM', 'c00000f3': 'RISC-V'}


def warnings_of(session: Session) -> list[str]:
    """What may make the answers mean less than they seem to, each in one line with what to do."""
    counts, reading = session.counts, session.reading
    unfit = unfit_for_answers(counts, session.holder, reading.start)
    if unfit:
        return unfit
    found = list(session.program.logs.warnings)
    if session.noted:
        found += noted_warnings(session.noted)
    if session.has_lines:
        found += (missing_calls(reading) + other_machines(reading.machines) + wrong_times(reading.times.greatest, reading.times.back, session.ordered)
                  + several_hosts(reading.hosts))
    found += counted_warnings(counts, order_of(session))
    # Lines beside a store may say the same as what keep noted of it.
    return list(dict.fromkeys(found))


def unfit_for_answers(counts: dict, holder: str, start: bytes) -> list[str]:
    """The only warning that is given of a log or store about which no question makes sense."""
    if not counts or counts['lines'] == 0:
        return [f'the {holder} is empty']
    if counts['malformed'] * 2 > counts['lines']:
        return [f'{counts["malformed"]:,} of {many(counts["lines"], "line")} are malformed: {not_a_log(start)}']
    return []


def counted_warnings(counts: dict, order: str = '') -> list[str]:
    """What the program's counts say of a log in this order."""
    found = []
    if counts['late'] * 50 > counts['events']:
        found.append(f'{counts["late"]:,} of {many(counts["events"], "event")} came late, '
                     f'so {order}{" " if order else ""}a path over them may be missing or have a later time')
    if counts['excess']:
        found.append(f'{many(counts["excess"], "record")} of overlong events were dropped')
    return found


def noted_warnings(noted: Taken) -> list[str]:
    """What keep noted of a store."""
    signs = noted.signs
    missing = [] if signs.machines and X86_64 not in signs.machines else missing_kinds(noted.unseen)
    return (list(map(gap_text, noted.gaps)) + missing + other_machines(signs.machines) + wrong_times(signs.greatest, signs.back)
            + several_hosts(signs.hosts))


def not_a_log(start: bytes) -> str:
    """Why a log isn't one that auditd writes, and what to do."""
    if start.startswith(b'\x28\xb5\x2f\xfd'):
        return 'it is packed by zstd; unpack it first'
    if b'\0' in start:
        return 'it isn\'t text; unpack it first'
    if re.search(rb'msg=audit\(\d+/\d+/\d+ ', start):
        return 'it is interpreted (ausearch -i); take it by ausearch --raw'
    if start.lstrip().startswith(b'{') or re.search(rb'audit(\[\d+\])?: ', start):
        return 'it comes from the journal or syslog; take /var/log/audit/audit.log'
    return 'it isn\'t an audit log as auditd writes it'


def missing_calls(reading: Reading) -> list[str]:
    numbers = {call for _, arch, call in reading.calls if arch == OUR_MACHINE}
    missing = [name for name, calls in NEEDED_CALLS.items() if not calls & numbers]
    return [] if not numbers and reading.calls else missing_kinds(missing)


def missing_kinds(missing: Sequence[str]) -> list[str]:
    if not missing:
        return []
    return [f'the log has no {" and no ".join(missing)}, so paths over them are missing: load the rules that "autrail rules" prints']


def other_machines(counts: Mapping[str, int]) -> list[str]:
    return [f'{many(count, "call")} of {OTHER_MACHINES.get(arch, "arch " + arch)} {"isn" if count == 1 else "aren"}\'t followed'
            for arch, count in sorted(counts.items()) if arch != X86_64]


def several_hosts(hosts: Collection[str]) -> list[str]:
    if len(hosts) < 2:
        return []
    named = ', '.join(shown(it) or 'no name' for it in sorted(hosts)[:5])
    return [f'the log has lines of {many(len(hosts), "host")}, and their process and file numbers are mixed up: ask about each host\'s log apart ({named})']


def wrong_times(greatest: int, back: tuple[int, int] | None, ordered: bool = False) -> list[str]:
    found = []
    if back:
        what_follows = ('later reads may count at the end of the log, so paths may be shown that can\'t be: ask again without its lines'
                        if ordered else 'later events may be torn, or have it in the answers')
        found.append(f'the log goes back in time, from {clock(back[0])} to {clock(back[1])}: if the first is a wrong time, ' + what_follows)
    if greatest > (datetime.now().timestamp() + DAY) * 1000 and not (back and back[0] == greatest):
        found.append(f'the log has the time {clock(greatest)}, more than a day ahead of this machine\'s clock')
    return found


def span(session: Session) -> str:
    reading = session.reading
    if reading.least is None:
        return 'no calls'
    return f'calls from {clock(reading.least)} to {clock(reading.greatest)} {zone(reading.greatest)}'


def store_span(session: Session) -> str:
    """What a store has of logs, as far as it tells that itself."""
    noted = session.noted
    times = f' from {clock(time_text(noted.first))} to {clock(time_text(noted.last))}' if noted and noted.first else ''
    return f'{many(session.counts["events"], "event")} of {many(session.counts["bytes"], "byte")} of logs{times}'


def blind_spots(session: Session) -> str:
    """What no answer over this log or store can show."""
    has = span(session) if session.store is None else store_span(session)
    return (f'  the {session.holder} has {has}; it can\'t show what came before or after,\n'
            f'  calls without a record, calls that aren\'t followed ({session.counts["unmapped"]:,} in it), '
            + ('or an order that audit_order can\'t tell' if session.ordered else 'or flows that it has in another order than they happened'))


def order_of(session: Session) -> str:
    """The order in which answers are meant. A store has that in which its logs were taken."""
    return '' if session.store is not None else f'in the order of {"effects" if session.ordered else "the log"}'
