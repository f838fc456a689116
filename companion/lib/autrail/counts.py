"""The command `stat`: what a log or a store holds, and what to mistrust."""
from __future__ import annotations

import argparse
import json

from .basics import ANSWER, many, shown
from .session import Session
from .trust import order_of, span, store_span, warnings_of

FAULTS = ('', 'too long', 'header', 'a field is missing', 'number', 'text')
COUNTED = (('lines', 'lines'), ('used', 'used'), ('other', 'of other types'), ('blank', 'blank'), ('malformed', 'malformed'), ('events', 'events'),
           ('late', 'of them late'), ('torn', 'of them torn off others: records that came after their event was released, and are lost to it'),
           ('unmapped', 'of calls that aren\'t followed'), ('excess', 'records dropped from overlong events'), ('flows', 'flows'),
           ('kept', 'rows kept in {mode} mode'), ('known', 'objects'))


def stat(session: Session, options: argparse.Namespace) -> int:
    counts, found = {**session.counts, 'torn': torn(session)}, warnings_of(session)
    if options.json:
        of_the_session = ({'store': session.store, 'mode': session.mode} if session.store is not None
                          else {'order': 'effects' if session.ordered else 'log'})
        print(json.dumps({**counts, **of_the_session, 'warnings': found, 'least': session.reading.least, 'greatest': session.reading.greatest,
                          'files': [it.path for it in session.program.logs.files]}))
        return ANSWER
    if session.store is not None:
        print(f'{shown(session.store)}: {store_span(session)}')
    if session.has_lines:
        order = order_of(session)
        print(f'{many(len(session.program.logs.files), "file")}, {span(session)}{", " if order else ""}{order}')
    for key, text in COUNTED:
        if key != 'torn' or counts['torn']:
            print(f'{counts[key]:>12,}  {text.format(mode=session.mode)}')
    if counts['malformed_lines']:
        numbered = ', as they are numbered when ordered' if session.ordered else ''
        print(f'malformed lines{numbered}: ' + ', '.join(f'{line} ({FAULTS[fault]})' for line, fault in counts['malformed_lines'][:10]))
    for text in found:
        print(f'warning: {text}')
    return ANSWER


def torn(session: Session) -> int | None:
    """How many events have no call, as far as the lines of all calls are there."""
    if not session.has_all_lines:
        return None
    return max(0, session.counts['events'] - session.reading.calls_read)
