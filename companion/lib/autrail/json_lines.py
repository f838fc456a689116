"""Objects and steps as lines of JSON, for other programs."""
from __future__ import annotations

import json
from typing import Sequence

from .processes import reading_of
from .session import Session
from .things import Step, Thing
from .times import spelled


def as_json(session: Session, thing: Thing, **more: object) -> str:
    """A line for an object, with what the log's lines say of it apart."""
    said = {key.replace(' ', '_'): text for key, text in reading_of(session, thing).items()}
    return json.dumps({'id': thing.number, 'kind': thing.kind, 'label': thing.label, 'names': thing.names, 'key': thing.key, **more,
                       **({'read_from_log': said} if said else {})})


def step_json(session: Session, step: Step, recorded: int | None, lines: Sequence[str] | None) -> str:
    ends = {'from': step.source, 'from_label': session.thing(step.source).label, 'to': step.target, 'to_label': session.thing(step.target).label}
    more = {} if recorded is None else {'recorded_at': spelled(recorded)}
    more |= {} if lines is None else {'lines': lines}
    return json.dumps({'at': step.at, 'serial': step.serial, 'how': step.how, **ends, **more})
