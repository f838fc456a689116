#!/usr/bin/env python3
"""A plain reading of a store's bytes by docs/FORMATS.md (batches, payloads, rows, what continues a store), written apart from the program.

    bench/plain_store.py STORE [REPLIES] < QUESTIONS

It answers the lines `back`, `fore`, `why`, `find`, `show`, `stat` and `end` as `query STORE` does, from the rows alone. If the file is no store it
writes the places at which it is none, and ends with status 7. A row stands for its first and its last flow: in continuous mode no flow between them
makes another answer. Any path is a right answer to `why`: a path in the file REPLIES, with a program's replies to the same questions, is repeated if it
is one, and else the answer says that it is wrong.
"""
import argparse
import itertools
import json
import os
import sys

from plain_reading import ASK, LINE, NAMES, QUESTION, RECORDS, GROUPS, LAPSE, SHOWN, TEXT, class_of, key_text, lossy, time_text

CLOSED, OPEN = 0x5A, 0xA5
MOST_PAYLOAD = 1_073_741_824
MOST_ENTITIES, MOST_NUMBER, MOST_ACTS = 10_000_000, 2 ** 60, 2 ** 62
MODES = ['plain', 'continuous', 'full', 'source']
HOWS = ['fork', 'exec', 'read', 'write', 'make', 'alter']
ENTITY, KEPT, EXTEND, NAME, LIFE, HELD, ADDRESS, BORN, WAITING, STATE = range(1, 11)
COUNTS = ['taken', 'part', 'lines', 'used', 'other', 'blank', 'malformed', 'excess', 'events', 'late', 'unmapped', 'flows', 'acts']
INODE, PATH, LOST = 2, 3, 6


class NoStore(Exception):
    """The bytes are no store, at these places: the gate that breaks, the batch that spells no rows or doesn't go on with the store."""


class Misspelt(Exception):
    """The bytes spell no row."""


# ---- batches


def batches_of(disk):
    """The places and payloads of the open batches, the place of the first gate that breaks or None, and that of the closed one or None."""
    found, gate = [], 0
    while disk and disk[gate] == OPEN:
        end = gate + 9 + int.from_bytes(disk[gate + 1:gate + 9], 'little')
        if end - gate - 9 > MOST_PAYLOAD or end >= len(disk):
            return found, gate, None
        found.append((gate, disk[gate + 9:end]))
        gate = end
    if disk and disk[gate] != CLOSED:
        return found, gate, None
    return found, None, gate if disk else None


# ---- rows


class Spelling:
    """The bytes of a payload, read from the first to the last."""

    def __init__(self, payload):
        self.payload, self.at, self.numbers, self.begun = payload, 0, [], []

    def take(self, count):
        if len(self.payload) - self.at < count:
            raise Misspelt
        self.at += count
        return self.payload[self.at - count:self.at]

    def number(self, size):
        """A number, whose place and size are noted."""
        self.numbers.append((self.at, size))
        return int.from_bytes(self.take(size), 'little')

    def choice(self, choices):
        """One of these, counted from 1."""
        number = self.number(1)
        if not 1 <= number <= len(choices):
            raise Misspelt
        return choices[number - 1]

    def flag(self):
        number = self.number(1)
        if number > 1:
            raise Misspelt
        return number == 1

    def text(self):
        return self.take(self.number(4))

    def flagged(self, *sizes):
        """The numbers after a flag, or None if it is 0; then they are 0."""
        flag, numbers = self.flag(), tuple(self.number(size) for size in sizes)
        if not flag and any(numbers):
            raise Misspelt
        return numbers if flag else None

    def key(self):
        kind = self.number(1)
        if kind not in KEYS:
            raise Misspelt
        return KEYS[kind](self)

    def object(self):
        kind = self.choice(('file', 'made', 'made'))
        if kind == 'made':
            return 'made', self.number(8)
        if self.payload[self.at:self.at + 1] not in (b'\x02', b'\x03', b'\x06'):
            raise Misspelt
        return self.key()

    def mark(self):
        return {'ms': self.number(8), 'place': self.number(8), 'how': self.choice(HOWS), 'serial': self.number(4)}


KEYS = {
    1: lambda read: ('process', read.number(4), read.number(8)),
    2: lambda read: ('inode', ((read.number(4), read.number(4)), read.number(8)), read.number(8)),
    3: lambda read: ('path', read.text()),
    4: lambda read: ('address', read.text()),
    5: lambda read: ('made', read.number(8)),
    6: lambda read: ('lost', read.number(4), read.number(8), read.number(4)),
}


def kept_row(read):
    return {'from': read.number(4), 'to': read.number(4), 'mark': read.mark(), 'into': read.number(8), 'out': read.number(8)}


def life_row(read):
    return {'pid': read.number(4), 'life': read.number(8), 'live': read.flag(), 'awaits': read.flagged(4), 'linked': read.flag()}


def held_row(read):
    row = {'slot': (read.number(4), read.number(4)), 'held': None}
    if read.flag():
        row['held'] = (read.flag(), read.object())
    return row


def waiting_row(read):
    return {'key': (read.number(8), read.number(4)), 'closed': read.flag(), 'lines': [read.text() for _ in range(read.number(4))]}


def state_row(read):
    row = {name: read.number(8) for name in COUNTS}
    row['seen'], row['released'], row['effective'] = read.flagged(8), read.flagged(8, 4), read.number(8)
    row['long'], row['tail'] = read.flag(), read.text()
    row['bad'] = [[read.number(8), read.number(1)] for _ in range(read.number(4))]
    return row


ROWS = {
    ENTITY: lambda read: {'key': read.key()},
    KEPT: kept_row,
    EXTEND: lambda read: {'row': read.number(8), 'mark': read.mark()},
    NAME: lambda read: {'key': read.key(), 'name': read.text()},
    LIFE: life_row,
    HELD: held_row,
    ADDRESS: lambda read: {'act': read.number(8), 'address': read.text()},
    BORN: lambda read: {'file': (read.number(4), read.number(4), read.number(8)), 'births': read.number(8)},
    WAITING: waiting_row,
    STATE: state_row,
}


def rows_of(payload):
    """The mode and the rows of a payload, each with its tag."""
    return read_rows(Spelling(payload))


def read_rows(read):
    """The same of bytes that are read from their first on."""
    rows = []
    if read.take(5) != b'ADLR\x01':
        raise Misspelt
    mode = read.choice(MODES)
    while read.at < len(read.payload):
        read.begun.append(read.at)
        tag = read.number(1)
        if tag not in ROWS or (rows and (tag < rows[-1][0] or rows[-1][0] == STATE)):
            raise Misspelt
        rows.append((tag, ROWS[tag](read)))
    if not rows or rows[-1][0] != STATE:
        raise Misspelt
    return mode, rows


# ---- what continues a store

# By what the rows of a tag ascend.
ORDERS = {EXTEND: 'row', LIFE: 'pid', HELD: 'slot', ADDRESS: 'act', BORN: 'file', WAITING: 'key'}


class Store:
    """What the rows of a store say, from the first batch on."""

    def __init__(self, mode):
        self.mode = mode
        self.ids, self.appeared, self.rows, self.first_rows, self.into, self.out = {}, 0, [], {}, {}, {}
        self.names, self.lives, self.acts, self.numbers = {}, {}, [], []
        self.waiting, self.state, self.last, self.flows = [], None, None, []

    def takes(self, rows):
        """Whether these rows continue the store, which then has them."""
        self.waiting = [row for tag, row in rows if tag == WAITING]
        ordered = all(one[0] != next_[0] or one[0] not in ORDERS or one[1][ORDERS[one[0]]] < next_[1][ORDERS[one[0]]]
                      for one, next_ in zip(rows, rows[1:]))
        return ordered and all(TAKES[tag](self, row) for tag, row in rows)

    def take_entity(self, row):
        key = row['key']
        fits = key not in self.ids and len(self.ids) < MOST_ENTITIES
        self.ids.setdefault(key, len(self.ids))
        self.note_act(key)
        return fits

    def take_kept(self, row):
        source, target, mark = row['from'], row['to'], row['mark']
        numbered = source <= self.appeared and target <= max(self.appeared, source + 1)
        later = not self.rows or is_later(self.rows[-1]['first'], mark)
        linked = (row['into'], row['out']) == (self.into.get(target, 0), self.out.get(source, 0))
        self.appeared = max(self.appeared, source + 1, target + 1)
        self.rows.append({'from': source, 'to': target, 'first': mark, 'last': mark})
        self.first_rows.setdefault(source, self.rows[-1])
        self.first_rows.setdefault(target, self.rows[-1])
        self.into[target] = self.out[source] = len(self.rows)
        return source != target and max(source, target) < len(self.ids) and numbered and later and linked

    def take_extend(self, row):
        if self.mode != 'continuous' or row['row'] >= len(self.rows) or not is_later(self.rows[row['row']]['last'], row['mark']):
            return False
        self.rows[row['row']]['last'] = row['mark']
        return True

    def take_name(self, row):
        names = self.names.setdefault(row['key'], [])
        if row['name'] not in names and len(names) < NAMES:
            names.append(row['name'])
        self.note_act(row['key'])
        return True

    def take_life(self, row):
        self.lives[row['pid']] = row
        self.numbers.append(row['life'])
        return True

    def take_held(self, row):
        if row['held']:
            self.note_act(row['held'][1])
        return row['slot'][0] in self.lives and self.lives[row['slot'][0]]['live']

    def take_address(self, row):
        self.acts.append(row['act'])
        return True

    def take_born(self, row):
        self.numbers.append(row['births'])
        return True

    def take_waiting(self, row):
        return 1 <= len(row['lines']) <= RECORDS

    def take_state(self, row):
        self.state = row
        return (self.appeared == len(self.ids) and self.is_above_all(row) and has_counts(row) and has_tail(row) and has_listed(row))

    def is_above_all(self, row):
        """Whether a State's numbers are above those of the rows."""
        marks = [mark for kept in self.rows for mark in (kept['first'], kept['last'])]
        return (all(mark['place'] < row['flows'] and mark['ms'] <= row['effective'] for mark in marks)
                and max(self.acts, default=-1) < row['acts'] and max(self.numbers, default=0) <= row['acts'])

    def note_act(self, key):
        if key[0] == 'made':
            self.acts.append(key[1])

    # What is asked of the last batch alone, when a store is opened.

    def is_sound(self):
        places = [row['last']['place'] for row in self.rows]
        return len(set(places)) == len(places) and self.waits_soundly()

    def waits_soundly(self):
        """Whether each line of a group is a used one of its key, that a joiner would hold, and the least group isn't ripe."""
        text, seen = 0, self.state['seen'][0] if self.state['seen'] else None
        for group in self.waiting:
            kinds = []
            for line in group['lines']:
                said = class_of(line)
                if said[0] != 'used' or said[1][0] != group['key'] or said[1][1] in ('EOE', 'PROCTITLE') or (said[1][1] == 'SYSCALL' and 'SYSCALL' in kinds):
                    return False
                kinds.append(said[1][1])
                text += len(line)
            if seen is None or group['key'][0] > seen:
                return False
        if not self.waiting:
            return True
        least = self.waiting[0]
        return not (least['closed'] or seen - least['key'][0] > LAPSE or len(self.waiting) > GROUPS or text > TEXT)


def is_later(before, now):
    return before['place'] < now['place'] and before['ms'] <= now['ms']


def has_counts(row):
    begun = row['long'] or bool(row['tail'])
    clocks = [row['effective'], *(row['seen'] or ()), *(row['released'] or ())[:1]]
    small = all(row[name] <= MOST_NUMBER for name in COUNTS[:-1]) and max(clocks) <= MOST_NUMBER and row['acts'] <= MOST_ACTS
    return small and row['lines'] == sum(row[name] for name in ('used', 'other', 'blank', 'malformed')) and row['lines'] + begun <= row['taken']


def has_tail(row):
    return len(row['tail']) <= LINE and b'\n' not in row['tail'] and not (row['long'] and row['tail'])


def has_listed(row):
    lines = [line for line, _ in row['bad']]
    return len(lines) <= SHOWN and all(one < other for one, other in zip(lines, lines[1:])) and all(1 <= line <= row['lines'] for line in lines)


TAKES = {ENTITY: Store.take_entity, KEPT: Store.take_kept, EXTEND: Store.take_extend, NAME: Store.take_name, LIFE: Store.take_life, HELD: Store.take_held,
         ADDRESS: Store.take_address, BORN: Store.take_born, WAITING: Store.take_waiting, STATE: Store.take_state}


def read_store(disk):
    """The store that the bytes of a disk spell, or None if it has no batch."""
    batches, broken, _ = batches_of(disk)
    store, places = None, [] if broken is None else [broken]
    for place, payload in batches:
        try:
            mode, rows = rows_of(payload)
        except Misspelt:
            raise NoStore(place, *places) from None
        store = store or Store(mode)
        store.last = place
        if mode != store.mode or not store.takes(rows):
            raise NoStore(place, *places)
    if store and not store.is_sound():
        places.append(store.last)
    if places:
        raise NoStore(*places)
    if store:
        store.flows = flows_of(store)
    return store


# ---- answers


def flows_of(store):
    """The first and the last flow of each row, by place."""
    marks = [(row['from'], row['to'], row[end]) for row in store.rows for end in ('first', 'last')]
    found = {(mark['place'], mark['ms'], source, target, mark['how'], mark['serial']) for source, target, mark in marks}
    return [list(group) for _, group in itertools.groupby(sorted(found), lambda flow: flow[0])]


def back(store, of, until=None):
    found = {of}
    for flows in reversed(store.flows):
        found |= {source for _, ms, source, target, _, _ in flows if target in found and (until is None or ms <= until)}
    return sorted(found)


def fore(store, of, since=None):
    found = {of}
    for flows in store.flows:
        found |= {target for _, ms, source, target, _, _ in flows if source in found and (since is None or ms >= since)}
    return sorted(found)


def is_path(store, path, source, target, until):
    """Whether an answer to `why` is right."""
    if path is None:
        return source not in back(store, target, until)
    at, place = source, -1
    for hop in path:
        flow = next((flow for flows in store.flows for flow in flows if flow[0] > place and (until is None or flow[1] <= until) and hop == {
            'at': time_text(flow[1]), 'from': at, 'how': flow[4], 'serial': flow[5], 'to': flow[3]} and flow[2] == at), None)
        if flow is None:
            return False
        at, place = flow[3], flow[0]
    return at == target


def why(store, source, target, until, reply):
    """The path of this reply, if it is one."""
    try:
        path = json.loads(reply)['path']
    except (ValueError, KeyError, TypeError):
        path = 'none'
    return {'from': source, 'path': path if path != 'none' and is_path(store, path, source, target, until) else 'wrong', 'to': target}


def is_source(store, of):
    return store.first_rows[of]['from'] == of


def stat(store):
    counts = {name: store.state[name] for name in ('blank', 'events', 'excess', 'flows', 'late', 'lines', 'malformed', 'other', 'unmapped', 'used')}
    return dict(counts, bytes=store.state['taken'], kept=len(store.rows), known=len(store.ids), malformed_lines=store.state['bad'], waiting=len(store.waiting))


def is_kept(store, way, of, bound):
    if way == 'back' or store.mode in ('plain', 'continuous'):
        return True
    if store.mode == 'source' and not is_source(store, of):
        return False
    return way == 'why' or bound is None or bound <= store.first_rows[of]['first']['ms']


def answer(store, question, reply=b''):
    way, _, rest = question.partition(' ')
    if len(question) > ASK or not QUESTION.fullmatch(question) or way in ('take', 'settle'):
        return {'error': 'BadQuestion'}
    if way == 'stat':
        return stat(store)
    if way == 'end':
        return {'end': True}
    if way == 'find':
        text = rest.encode('latin1')
        return {'find': lossy(text), 'ids': [of for key, of in store.ids.items() if text in store.names.get(key, [])]}
    ids = [int(word) for word in rest.split(' ') if '.' not in word]
    bound = next((int(word.replace('.', '')) for word in rest.split(' ') if '.' in word), None)
    if max(ids) >= 2 ** 32:
        return {'error': 'BadQuestion'}
    if max(ids) >= len(store.ids):
        return {'error': 'Unknown'}
    return answer_of_known(store, way, ids, bound, reply)


def answer_of_known(store, way, ids, bound, reply):
    of = ids[0]
    if way == 'show':
        key = list(store.ids)[of]
        return {'is': lossy(key_text(key)), 'names': [lossy(name) for name in store.names.get(key, [])], 'show': of}
    if not is_kept(store, way, of, bound):
        return {'error': 'NotKept'}
    if way == 'why':
        return why(store, *ids, bound, reply)
    found = (back if way == 'back' else fore)(store, of, bound)
    if way == 'back' and store.mode == 'source':
        return {'back': of, 'sources': [source for source in found if is_source(store, source)]}
    return {way: of, 'ids': found}


def spelled(said):
    """A reply as the program writes it."""
    return json.dumps(said, ensure_ascii=False, separators=(',', ':'), sort_keys=True)


def main():
    parser = argparse.ArgumentParser(description=__doc__, formatter_class=argparse.RawDescriptionHelpFormatter)
    parser.add_argument('store')
    parser.add_argument('replies', nargs='?', default=os.devnull)
    options = parser.parse_args()
    with open(options.store, 'rb') as file:
        disk = file.read()
    try:
        store = read_store(disk)
        if store is None:
            raise NoStore(0)
    except NoStore as fault:
        print(f'no store at {" or ".join(map(str, fault.args))}')
        return 7
    sys.stdout.reconfigure(encoding='utf-8')
    with open(options.replies, 'rb') as replies:
        for line in sys.stdin.buffer:
            print(spelled(answer(store, line.decode('latin1').removesuffix('\n'), replies.readline())))
    return 0


if __name__ == '__main__':
    sys.exit(main())
