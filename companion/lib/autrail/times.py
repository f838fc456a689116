"""Times, in milliseconds since 1970: the words that spell them, and how they are shown."""
from __future__ import annotations

import re
from datetime import datetime, timedelta
from decimal import Decimal
from pathlib import Path
from typing import NoReturn, Sequence

from .basics import bad_words, say, shown

LAST_SECOND = 10**15 - 1
DAY = 24 * 3600
UNITS = {'s': 1, 'sec': 1, 'second': 1, 'm': 60, 'min': 60, 'minute': 60, 'h': 3600, 'hour': 3600, 'd': DAY, 'day': DAY,
         'w': 7 * DAY, 'week': 7 * DAY}


def no_time(text: str) -> NoReturn:
    bad_words(f'no time: "{shown(text)}" (try now, today, "yesterday 14:00", "10 min ago", 2026-06-09T08:01, 06/09/2026 08:01:00)')


def moment(text: str, now: datetime | None = None) -> int:
    """The time that the words spell: ausearch's, `yesterday 14:00`, `10 min ago`, ISO 8601, or seconds since 1970."""
    text = ' '.join(text.split())
    now = now or datetime.now()
    if re.fullmatch(r'\d{9,15}|\d{1,15}\.\d+', text):
        return int(Decimal(text) * 1000)
    if match := re.fullmatch(r'(\d{1,9}) ?([a-z]+) ago', text):
        unit = UNITS.get(match[2]) or UNITS.get(match[2].rstrip('s')) or no_time(text)
        return round((now.timestamp() - int(match[1]) * unit) * 1000)
    if text in ('now', 'recent', 'boot'):
        return round(instant(text, now) * 1000)
    day, _, clock = text.rpartition(' ')
    try:
        if re.fullmatch(r'\d{1,2}:\d{2}(:\d{2}(\.\d{1,6})?)?', clock):
            return on_clock(day_of(day or 'today', now), clock)
        if 'T' in text:
            return iso(text)
        return round(day_of(text, now).timestamp() * 1000)
    except (ValueError, OverflowError):
        no_time(text)


def instant(word: str, now: datetime) -> float:
    if word == 'boot':
        stat = Path('/proc/stat').read_text(encoding='ascii')
        return float(re.search(r'^btime (\d+)', stat, re.M)[1])
    return now.timestamp() - (600 if word == 'recent' else 0)


def day_of(text: str, now: datetime) -> datetime:
    """The start of a day, or of an hour, on the clock of this machine's zone. A week begins on Sunday, as for ausearch."""
    day = now.replace(hour=0, minute=0, second=0, microsecond=0, fold=0)
    words = {'today': day, 'yesterday': day - timedelta(1), 'this-week': day - timedelta((now.weekday() + 1) % 7), 'week-ago': day - timedelta(7),
             'this-month': day.replace(day=1), 'this-year': day.replace(month=1, day=1), 'this-hour': now.replace(minute=0, second=0, microsecond=0)}
    if text in words:
        return words[text]
    # ausearch -i writes a year in two digits.
    return datetime.strptime(text, '%m/%d/%y' if re.fullmatch(r'\d+/\d+/\d\d', text) else '%m/%d/%Y' if '/' in text else '%Y-%m-%d')


def on_clock(day: datetime, clock: str) -> int:
    hours, minutes, seconds = (clock.split(':') + ['0'])[:3]
    second, part = divmod(Decimal(seconds) * 1000000, 1000000)
    return local(day.replace(hour=int(hours), minute=int(minutes), second=int(second), microsecond=int(part)))


def iso(text: str) -> int:
    time = datetime.fromisoformat(re.sub('Z$', '+00:00', text))
    return local(time) if time.tzinfo is None else milliseconds(time)


def local(time: datetime) -> int:
    """A time on this machine's clock. One that the clock passes over, or shows twice, is refused."""
    early, late = time.replace(fold=0), time.replace(fold=1)
    if early.timestamp() == late.timestamp():
        return milliseconds(early)
    both = ' or '.join(it.astimezone().isoformat(timespec='seconds') for it in (early, late))
    there = datetime.fromtimestamp(early.timestamp()) == early.replace(fold=0)
    bad_words(f'{time} {"comes twice" if there else "is passed over"} when the clocks change; write {both}')


def milliseconds(time: datetime) -> int:
    return int(Decimal(str(time.replace(microsecond=0).timestamp())) * 1000) + time.microsecond // 1000


def spelled(at: int) -> str:
    """A time as question lines have it."""
    if not 0 <= at <= LAST_SECOND * 1000 + 999:
        bad_words('a time of the log is between 0 and 10^15 seconds since 1970')
    return f'{at // 1000}.{at % 1000:03}'


def clock(at: int | str) -> str:
    """A time for a reader, on this machine's clock."""
    at = int(at.replace('.', '')) if isinstance(at, str) else at
    try:
        return datetime.fromtimestamp(at // 1000).strftime('%Y-%m-%d %H:%M:%S') + f'.{at % 1000:03}'
    except (ValueError, OverflowError, OSError):
        return spelled(at)


def zone(at: int) -> str:
    try:
        return datetime.fromtimestamp(at // 1000).astimezone().strftime('UTC%z')
    except (ValueError, OverflowError, OSError):
        return 'seconds since 1970'


def bound_of(words: Sequence[str] | None, what: str) -> str:
    """The time that bounds a question line. A note says which time was understood."""
    if not words:
        return ''
    at = moment(' '.join(words))
    text = spelled(at)
    say(f'{what} {clock(at)} {zone(at)}')
    return ' ' + text
