"""Rounds of hostile stores, for bench/fuzz.py: stores that were changed, the questions and logs that they are given, and what must hold."""

import bisect
import collections

from mutated import log_of
from plain_store import CLOSED, OPEN, NoStore, Spelling, answer, batches_of, read_rows, read_store, spelled
from runs import MODES, run

MOST_BATCHES = 4
BATCH = 4_194_304
EDGES = [0, 0, 255, 2 ** 31, 2 ** 32, 2 ** 48, 2 ** 60, 2 ** 62, 2 ** 63, 2 ** 64]


def disk_of(payloads):
    return b''.join(bytes([OPEN]) + len(payload).to_bytes(8, 'little') + payload for payload in payloads) + bytes([CLOSED])


def payloads_of(disk):
    return [payload for _, payload in batches_of(disk)[0]]


# ---- what may be done to a store: each takes the bytes of two stores, and gives those of one


def as_it_is(rng, disk, other):
    return disk


def random_bytes(rng, disk, other):
    return rng.choice([b'', bytes([CLOSED]), bytes([OPEN]), disk[:15]]) + rng.randbytes(rng.randrange(2_000))


def cut(rng, disk, other):
    return disk[:rng.randrange(len(disk))]


def changed_bytes(rng, disk, other):
    changed = bytearray(disk)
    for _ in range(rng.choice([1, 1, 2, 10])):
        changed[rng.randrange(len(changed))] = rng.choice([0, 1, 0x5A, 0xA5, 0xFF, rng.randrange(256)])
    return bytes(changed)


def moved_batches(rng, disk, other):
    """Batches twice, left out, in another order, or of another store."""
    payloads, others = payloads_of(disk), payloads_of(other)
    at = rng.randrange(len(payloads))
    return disk_of(rng.choice([payloads[:at + 1] + payloads[at:], payloads[:at] + payloads[at + 1:], payloads[::-1], payloads + others,
                               payloads[:at] + others[-1:] + payloads[at:]]))


def changed_lengths(rng, disk, other):
    gate = rng.choice(batches_of(disk)[0])[0]
    length = int.from_bytes(disk[gate + 1:gate + 9], 'little')
    return disk[:gate + 1] + near(rng, length, 8, [length]).to_bytes(8, 'little') + disk[gate + 9:]


def near(rng, value, size, others):
    """Another value for a number: one of its neighbours, of other numbers, or at an edge."""
    return (rng.choice([value, rng.choice(others), rng.choice(EDGES)]) + rng.choice([0, 1, -1])) % 256 ** size


def columns_of(payload):
    """The places and sizes of the numbers of a payload, by the tag of their row and their place in it."""
    read, columns = Spelling(payload), collections.defaultdict(list)
    read_rows(read)
    begun = [0, *read.begun]
    for place, size in read.numbers:
        first = begun[bisect.bisect_right(begun, place) - 1]
        columns[payload[first] if first else 0, place - first].append((place, size))
    return columns


def edited_numbers(rng, disk, other):
    """Some numbers of one payload have other values, as a rule near those of rows of the same kind or of its State, with all lengths kept."""
    payloads = payloads_of(disk)
    at = rng.randrange(len(payloads))
    payload, columns = bytearray(payloads[at]), columns_of(payloads[at])
    value_at = lambda place, size: int.from_bytes(payload[place:place + size], 'little')
    for _ in range(rng.choice([1, 1, 2, 3])):
        tag = rng.choice(sorted({tag for tag, _ in columns}))
        column = columns[rng.choice(sorted(key for key in columns if key[0] == tag))]
        place, size = rng.choice(column)
        near_by = [value_at(*number) for number in rng.sample(column, min(3, len(column)))]
        far = [value_at(*rng.choice(columns[key])) for key in rng.sample(sorted(columns), 3)]
        payload[place:place + size] = near(rng, value_at(place, size), size, near_by + far).to_bytes(size, 'little')
    return disk_of(payloads[:at] + [bytes(payload)] + payloads[at + 1:])


def moved_rows(rng, disk, other):
    """Rows of one payload twice, left out, in another order, or of another store."""
    payloads, theirs = payloads_of(disk), payloads_of(other)
    at = rng.randrange(len(payloads))
    rows, more = spellings_of(payloads[at]), spellings_of(rng.choice(theirs))
    for _ in range(rng.choice([1, 1, 2])):
        one, two = rng.randrange(len(rows)), rng.randrange(len(rows))
        rows = rng.choice([rows[:one] + rows[one + 1:] or rows, rows[:one + 1] + rows[one:], rows[:one] + [rng.choice(more)] + rows[one:],
                           [rows[two] if place == one else rows[one] if place == two else row for place, row in enumerate(rows)]])
    return disk_of(payloads[:at] + [payloads[at][:6] + b''.join(rows)] + payloads[at + 1:])


def spellings_of(payload):
    """The bytes of each row."""
    read = Spelling(payload)
    _, rows = read_rows(read)
    return [payload[begin:end] for begin, end in zip(read.begun, [*read.begun[1:], len(payload)])]


CHANGES = [as_it_is, random_bytes, cut, changed_bytes, moved_batches, changed_lengths, edited_numbers, edited_numbers, edited_numbers, moved_rows, moved_rows]


class StoreRounds:
    """Rounds over stores in a folder: the program, the lines of some logs, and what was counted."""

    def __init__(self, program, folder, logs, dialogue, counts):
        self.program, self.folder, self.logs, self.dialogue, self.counts = program, folder, logs, dialogue, counts

    def run(self, words, questions=b''):
        ran = run(words, questions, self.program)
        self.counts[f'status {ran.status}'] += 1
        return ran

    def file(self, name, content):
        path = self.folder / name
        path.write_bytes(content)
        return path

    def log(self, rng):
        """A cut of a real or a generated log, some of its lines changed, short in one of two cases."""
        log = log_of(rng, rng.choice(self.logs))
        return b'\n'.join(log.split(b'\n')[:rng.choice([10, 30, 10 ** 6, 10 ** 6])])

    def stopped_store(self, rng, mode, log):
        """A log that goes on with this one, the bytes of its store up to the gate of a batch that ends within this one, and what it is.

        A line that is too long fills the bytes up to there. So records may wait in that batch, and a line have begun.
        """
        ends_at = rng.randrange(len(log) + 1)
        log = b'x' * (BATCH - 1 - ends_at) + b'\n' + log
        store = self.file('stopped', b'')
        ran = self.run(['reduce', mode, self.file('log', log), store])
        self.counts['lines'] += log.count(b'\n')
        batches = batches_of(store.read_bytes())[0]
        if ran.status != 0 or len(batches) != 2:
            return log, None, f'status {ran.status}, {ran.text!r}, {len(batches)} batches'
        return log, store.read_bytes()[:batches[1][0]] + bytes([CLOSED]), f'a batch that ends {ends_at} bytes into the log'

    def real_store(self, rng, mode):
        """The bytes of a store of some logs, and the last of them."""
        if rng.random() < 0.3:
            log, disk, text = self.stopped_store(rng, mode, self.log(rng))
            return (disk, log) if disk else (None, text)
        store = self.file('real', b'')
        for _ in range(rng.choice([1, 1, 2, MOST_BATCHES])):
            log = self.log(rng)
            ran = self.run(['reduce', mode, self.file('log', log), store])
            self.counts['lines'] += log.count(b'\n')
            if ran.status != 0:
                return None, f'status {ran.status}, {ran.text!r} of a run that makes a store'
        return store.read_bytes(), log

    def fault_of_round(self, rng):
        """What is wrong with one round, or None."""
        mode = rng.choice(MODES)
        disk, log = self.real_store(rng, mode)
        other, text = self.real_store(rng, rng.choice(MODES)) if disk else (None, log)
        if other is None:
            return text
        change = rng.choice(CHANGES)
        disk = change(rng, disk, other)
        self.counts['stores'] += 1
        store = self.file('store', disk)
        fault = self.fault_of_query(rng, store, disk) or self.fault_of_reduce(rng, store, disk, mode, log)
        return fault and f'{mode}, {change.__name__.replace("_", " ")}: {fault}'

    def fault_of_query(self, rng, store, disk):
        """What is wrong with the answers over a store of these bytes, or None."""
        questions = self.dialogue(rng)
        ran = self.run(['query', store], questions)
        lines = asked(questions)
        self.counts['questions'] += len(lines)
        self.counts['dialogues'] += 1
        if ran.fault() or ran.status not in (0, 7):
            return f'query: status {ran.status}, {ran.text!r}'
        if store.read_bytes() != disk:
            return 'a query changed it'
        replies = ran.out.split(b'\n')
        try:
            read = read_store(disk)
        except NoStore as fault:
            is_right = ran.status == 7 and ran.text in [f'bad store at {place}' for place in fault.args]
            return None if is_right else f'{ran.text!r}, but by the plain reading bad at {fault.args}'
        if read is None:
            return None if ran.text == 'bad store at 0' else f'{ran.text!r} of a store without a batch'
        if ran.status != 0 or replies.pop() or len(replies) != len(lines):
            return f'status {ran.status}, {ran.text!r}, {len(replies)} replies to {len(lines)} questions, but by the plain reading it is a store'
        for line, reply in zip(lines, replies):
            wanted = spelled(answer(read, line.decode('latin1'), reply)).encode()
            if reply != wanted:
                return f'{line!r} has {reply[:300]!r}, by the plain reading {wanted[:300]!r}'
        return None

    def fault_of_reduce(self, rng, store, disk, mode, log):
        """What is wrong when a log is taken into a store of these bytes, or None."""
        log = rng.choice([log, log + self.log(rng), log[:rng.randrange(len(log) + 1)], self.log(rng), rng.randbytes(3_000)])
        words = rng.choice([[], ['--resume']])
        ran = self.run(['reduce', rng.choice([mode, mode, mode, rng.choice(MODES)]), self.file('log', log), store, *words])
        self.counts['lines'] += log.count(b'\n')
        if ran.fault() or ran.status in (2, 3, 4, 5, 6):
            return f'reduce {" ".join(words)}: status {ran.status}, {ran.text!r}'
        if ran.status in (7, 8, 10):
            return None if store.read_bytes() == disk else f'reduce ended with status {ran.status} and changed it'
        return self.fault_of_query(rng, store, store.read_bytes()) if ran.status == 0 or batches_of(disk)[0] else None


def fault_of_parts(here, rng, log):
    """What is wrong with a store of a log that was taken in parts, held against `watch` with a settle where a part ends, or None."""
    mode, store, grows = rng.choice(MODES), here.file('parts.store', b''), rng.random() < 0.5
    ends = sorted(rng.randrange(len(log) + 1) for _ in range(rng.choice([0, 1, 2, 3]))) + [len(log)]
    taken, begin = b'', 0
    for end in ends:
        part = here.file('part', log[:end] if grows else log[begin:end])
        ran = here.run(['reduce', mode, part, store, *(['--resume'] if grows else [])])
        if ran.status != 0:
            return f'{mode}: reduce of bytes {begin} to {end} has status {ran.status}, {ran.text!r}'
        taken, begin = taken + b'take %d\nsettle\n' % (end - begin), end
    text = fault_against_watch(here, rng, mode, store, log, taken)
    return text and f'{mode}, parts that end at {ends}, {"grown" if grows else "apart"}: {text}'


def fault_against_watch(here, rng, mode, store, log, taken):
    """What `query` answers otherwise over a store than `watch` over its log, which is taken so, or None."""
    questions = b''.join(line + b'\n' for line in [b'stat', *asked(here.dialogue(rng))] if not line.startswith((b'take', b'settle')))
    queried, watched = here.run(['query', store], questions), here.run(['watch', mode, here.file('log', log)], taken + questions)
    here.counts.update({'stores': 1, 'dialogues': 1, 'lines': log.count(b'\n'), 'questions': questions.count(b'\n')})
    wanted = watched.out.split(b'\n', taken.count(b'\n'))[-1]
    if (queried.status, watched.status) == (0, 0) and queried.out == wanted:
        return None
    place = next((place for place, (one, other) in enumerate(zip(queried.out, wanted)) if one != other), -1)
    return (f'status {queried.status} and {watched.status}; from byte {place} on the store answers {queried.out[place:place + 200]!r}, '
            f'watch {wanted[place:place + 200]!r}')


def fault_of_restored(here, rng, log):
    """What is wrong with a store whose run stopped after a batch that ends within this log, and with the one that then went on, or None."""
    mode = rng.choice(MODES)
    log, disk, text = here.stopped_store(rng, mode, log)
    if disk is None:
        return f'{mode}: {text}'
    disk += rng.choice([b'', rng.randbytes(500)])
    store = here.file('restored.store', disk)
    fault = here.fault_of_query(rng, store, disk)
    if fault:
        return f'{mode}, {text}: {fault}'
    ran = here.run(['reduce', mode, here.file('log', log), store, '--resume'])
    fault = ran.text if ran.status else fault_against_watch(here, rng, mode, store, log, b'take %d\nsettle\n' % len(log))
    return fault and f'{mode}, {text}, resumed: {fault}'


def asked(questions):
    """The lines of the questions up to `end`, the last one also without a line feed."""
    lines = questions.split(b'\n')
    if not lines[-1]:
        lines.pop()
    return lines[:lines.index(b'end') + 1] if b'end' in lines else lines
