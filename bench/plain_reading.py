#!/usr/bin/env python3
"""A plain reading of docs/FORMATS.md, written apart from the program, to compare the program with.

    bench/plain_reading.py MODE LOG [--calls three|moves|all] [--paths REPLIES] < QUESTIONS

It answers the lines `take`, `settle`, `back`, `fore`, `why`, `find`, `show`, `stat` and `end` as `watch MODE LOG` does. It keeps all
flows in every mode, goes through them for each question, and proves nothing: what a mode keeps is only counted. With `--calls three`
only read, write and fork are mapped, with `moves` all calls but those that only make or move descriptors.

Any path is a right answer to `why`. With `--paths` the file REPLIES has a program's replies to the same questions: a path in it is
repeated if it is one, and else the answer says what is wrong with it.
"""
import argparse
import json
import os
import re
import sys

LINE, ASK, GROUPS, TEXT, RECORDS, SHOWN, PATH, NAMES, LAPSE = 65536, 4096, 4096, 16777216, 512, 100, 4096, 16, 2000
X86_64 = 0xC000003E
HEADER = re.compile(
    rb'(?:node=[^ ]+ )?type=([A-Z0-9_\[\]]+) msg=audit\(([0-9]{1,15})\.([0-9]{3}):([0-9]{1,10})\) ?:(?=\Z|[ \x1d])', re.S)
QUESTION = re.compile(r'take [0-9]{1,15}|settle|stat|end|find .+|show [0-9]{1,10}|(back|fore|why [0-9]{1,10}) [0-9]{1,10}( [0-9]{1,15}\.[0-9]{3})?', re.S)

# ---- values and fields: a reader raises the number of the fault

NUMBER, TEXT_FAULT = 4, 5


def reader(pattern, read, fault, fits=lambda value: True):
    def of(value):
        if re.fullmatch(pattern, value, re.S) and fits(read(value)):
            return read(value)
        raise ValueError(fault)
    return of


dec32 = reader(rb'[0-9]{1,10}', int, NUMBER, lambda n: n < 2**32)
dec64 = reader(rb'[0-9]{1,20}', int, NUMBER, lambda n: n < 2**64)
signed = reader(rb'-?[0-9]{1,19}', int, NUMBER, lambda n: -2**63 <= n < 2**63)
hex32 = reader(rb'[0-9a-fA-F]{1,8}', lambda v: int(v, 16), NUMBER)
hex64 = reader(rb'[0-9a-fA-F]{1,16}', lambda v: int(v, 16), NUMBER)
device = reader(rb'[0-9a-fA-F]{1,8}:[0-9a-fA-F]{1,8}', lambda v: tuple(int(half, 16) for half in v.split(b':')), NUMBER)
yesno = reader(rb'yes|no', lambda v: v == b'yes', TEXT_FAULT)
coded = reader(rb'([0-9a-fA-F]{2})+', lambda v: bytes.fromhex(v.decode()), TEXT_FAULT)


def handle(value):
    return signed(value) % 2**32


def text(value):
    if re.fullmatch(rb'"[^"]*"', value, re.S):
        return value[1:-1]
    return None if value == b'(null)' else coded(value)


def word(value):
    return value


MUST, MAY = True, False
FIELDS = {
    'SYSCALL': [('arch', hex32, MUST), ('syscall', dec32, MUST), ('success', yesno, MAY), ('exit', signed, MAY), ('a0', hex64, MUST),
                ('a1', hex64, MUST), ('a2', hex64, MUST), ('a3', hex64, MUST), ('ppid', dec32, MUST), ('pid', dec32, MUST), ('exe', text, MAY)],
    'PATH': [('item', dec32, MUST), ('name', text, MUST), ('inode', dec64, MAY), ('dev', device, MAY), ('nametype', word, MAY), ('objtype', word, MAY)],
    'CWD': [('cwd', text, MUST)],
    'SOCKADDR': [('saddr', coded, MUST)],
    'FD_PAIR': [('fd0', dec32, MUST), ('fd1', dec32, MUST)],
    'MMAP': [('fd', handle, MUST)],
    'PROCTITLE': [],
    'EOE': [],
}

# ---- lines


def tokens_of(raw):
    found, at = {}, 0
    while at < len(raw):
        if raw[at] == 0x20:
            at += 1
            continue
        token = re.compile(rb'([^ =]*)=("[^"]*(?:"[^ ]*)?|[^ ]*)|[^ ]+', re.S).match(raw, at)
        if token[1] is not None:
            found.setdefault(token[1].decode('latin1'), token[2])
        at = token.end()
    return found


def class_of(line):
    """The class of a line, with its fault, or with its key, type, fields and length."""
    if len(line) > LINE:
        return 'malformed', 1
    if not line.strip(b' \t\r'):
        return 'blank', None
    header = HEADER.match(line)
    if not header or int(header[4]) >= 2**32:
        return 'malformed', 2
    kind = header[1].decode()
    if kind not in FIELDS:
        return 'other', None
    tokens, fields = tokens_of(line[header.end():].split(b'\x1d')[0]), {}
    for name, read, must in FIELDS[kind]:
        if name not in tokens and must:
            return 'malformed', 3
        try:
            fields[name] = read(tokens[name]) if name in tokens else None
        except ValueError as fault:
            return 'malformed', fault.args[0]
    return 'used', ((int(header[2]) * 1000 + int(header[3]), int(header[4])), kind, fields, len(line))


# ---- texts


def join_path(cwd, name):
    path = name if name.startswith(b'/') or cwd is None else cwd + b'/' + name
    absolute, parts = path.startswith(b'/'), []
    for part in path.split(b'/'):
        if part == b'..' and parts and parts[-1] != b'..':
            parts.pop()
        elif part not in (b'', b'.') and not (part == b'..' and absolute):
            parts.append(part)
    return ((b'/' if absolute else b'') + b'/'.join(parts) or b'.')[:PATH]


def family(bytes_):
    return int.from_bytes(bytes_[:2], 'little') if len(bytes_) >= 2 else None


def address_key(saddr):
    if family(saddr) == 2 and len(saddr) >= 8:
        return saddr[:8]
    if family(saddr) == 10 and len(saddr) >= 24:
        return saddr[:4] + bytes(4) + saddr[8:24]
    if family(saddr) == 1:
        if not saddr[2:].strip(b'\0'):
            return None
        if saddr[2]:
            return saddr[:2] + saddr[2:].split(b'\0')[0]
    return saddr


def address_text(key):
    port = int.from_bytes(key[2:4], 'big')
    if family(key) == 2 and len(key) == 8:
        return b'%d.%d.%d.%d:%d' % (*key[4:8], port)
    if family(key) == 10 and len(key) == 24:
        return b'[' + b':'.join(key[i:i + 2].hex().encode() for i in range(8, 24, 2)) + b']:%d' % port
    if family(key) == 1:
        return b'unix:' + key[2:] if key[2] else b'unix:@' + key[3:]
    return b'family:' + key.hex().encode()


def key_text(key):
    kind, *parts = key
    if kind == 'inode':
        (major, minor), inode = parts[0]
        return b'file %02x:%02x %d %d' % (major, minor, inode, parts[1])
    if kind == 'address':
        return b'address ' + address_text(parts[0])
    if kind == 'path':
        return b'path ' + parts[0]
    return ' '.join([kind, *map(str, parts)]).encode()


def lossy(bytes_):
    return bytes_.decode('utf-8', 'replace')


def time_text(ms):
    return f'{ms // 1000}.{ms % 1000:03}'


# ---- calls and acts

# The calls of each kind: a call's name and number, and where its flags are, if it has any that its record shows.
KINDS = {
    'Read': 'read 0, pread64 17, readv 19, preadv 295, preadv2 327', 'Receive': 'recvfrom 45, recvmsg 47',
    'Write': 'write 1, pwrite64 18, writev 20, pwritev 296, pwritev2 328', 'Send': 'sendto 44, sendmsg 46', 'SendFile': 'sendfile 40',
    'Tee': 'tee 276', 'Splice': 'splice 275, copy_file_range 326', 'Open': 'open 2 a1, openat 257 a2, openat2 437, creat 85 0x200',
    'Close': 'close 3', 'Dup': 'dup 32', 'Dup2': 'dup2 33', 'Dup3': 'dup3 292 a2', 'Fcntl': 'fcntl 72',
    'Pair': 'pipe 22, pipe2 293 a1, socketpair 53 a1', 'Socket': 'socket 41 a1', 'Bind': 'bind 49', 'Connect': 'connect 42',
    'Accept': 'accept 43, accept4 288 a3', 'Exec': 'execve 59, execveat 322', 'Fork': 'fork 57, vfork 58, clone3 435', 'Clone': 'clone 56 a0',
    'Exit': 'exit_group 231', 'Map': 'mmap 9 a3',
    'AlterPath': 'truncate 76, chmod 90, chown 92, lchown 94, fchownat 260, fchmodat 268', 'AlterFd': 'ftruncate 77, fchmod 91, fchown 93',
    'Rename': 'rename 82, link 86, renameat 264, linkat 265, renameat2 316', 'Remove': 'unlink 87, rmdir 84, unlinkat 263',
    'MakePath': 'mkdir 83, symlink 88, mknod 133, mkdirat 258, mknodat 259, symlinkat 266'}
# The name, the kind and the place of the flags of each number.
TABLE = {int(number): (name, kind, place[0] if place else None) for kind, calls in KINDS.items()
         for name, number, *place in (call.split() for call in calls.split(', '))}
CALLS = {number: kind for number, (_, kind, _) in TABLE.items()}
OPENING = {'Open', 'Dup', 'Dup2', 'Dup3', 'Fcntl', 'Pair', 'Socket', 'Bind', 'Connect', 'Accept'}
MAPPED = {
    'three': lambda number: CALLS.get(number) if number in (0, 1, 57) else None,
    'moves': lambda number: None if CALLS.get(number) in OPENING else CALLS.get(number),
    'all': CALLS.get,
}


class Event:
    """The records of one key, and what its call says of them."""

    def __init__(self, records):
        self.records = records
        self.call = self.first('SYSCALL')
        if self.call is None:
            return
        self.pid, self.exit = self.call['pid'], self.call['exit']
        self.args = [self.call[name] for name in ('a0', 'a1', 'a2', 'a3')]
        self.is_ok = self.call['success'] is True
        self.moved = self.is_ok and self.exit is not None and self.exit >= 1
        self.new = self.exit if self.exit is not None and 0 <= self.exit < 2**32 else None
        cwd, address = self.first('CWD'), self.first('SOCKADDR')
        self.address = address_key(address['saddr']) if address else None
        self.paths = [(self.kind_of(path), self.file_of(path, cwd and cwd['cwd'])) for kind, path in records
                      if kind == 'PATH' and (path['name'] is not None or None not in (path['inode'], path['dev']))]
        ranked = [[file for kind, file in self.paths if kind == wanted] for wanted in ('CREATE', 'NORMAL', None)]
        self.target = next((files[-1] for files in ranked if files), None)
        self.target_is_new = bool(ranked[0])

    def first(self, kind):
        return next((fields for its_kind, fields in self.records if its_kind == kind), None)

    @staticmethod
    def kind_of(path):
        named = path['nametype'] if path['nametype'] is not None else path['objtype']
        if named is None:
            return 'NORMAL'
        return named.decode('latin1') if named in (b'NORMAL', b'PARENT', b'DELETE', b'CREATE') else None

    @staticmethod
    def file_of(path, cwd):
        number = None if None in (path['inode'], path['dev']) else (path['dev'], path['inode'])
        return 'file', number, None if path['name'] is None else join_path(cwd, path['name'])

    def fd(self, which):
        return self.args[which] % 2**32

    def files_of(self, kind):
        return [file for its_kind, file in self.paths if its_kind == kind]


def descriptor(fd):
    return 'fd', fd


def acts_of(event, mapped):
    """The acts of an event, and whether it is counted as unmapped."""
    if event.call is None:
        return [], False
    see = ('see', event.pid, event.call['ppid'], event.call['exe'])
    number = event.call['syscall']
    call = mapped(number) if event.call['arch'] == X86_64 else None
    return ([see], True) if call is None else ([see] + further_acts(event, call, number), False)


def flags_of(number, args):
    place = TABLE[number][2]
    return 0 if place is None else args[int(place[1])] if place.startswith('a') else int(place, 16)


def further_acts(e, call, number):
    pid, fd, a, flags = e.pid, e.fd, e.args, flags_of(number, e.args)
    closes = lambda word: bool(word & 0x80000)
    reads = lambda thing, how='read': ('move', pid, True, how, thing)
    writes = lambda thing, how='write': ('move', pid, False, how, thing)
    at_address = lambda: ('address', e.address) if e.address is not None else descriptor(fd(0))
    if call in ('Read', 'Receive'):
        return [reads(at_address() if call == 'Receive' else descriptor(fd(0)))] if e.moved else []
    if call in ('Write', 'Send'):
        return [writes(at_address() if call == 'Send' else descriptor(fd(0)))] if e.moved else []
    if call in ('SendFile', 'Tee', 'Splice'):
        source, target = {'SendFile': (1, 0), 'Tee': (0, 1), 'Splice': (0, 2)}[call]
        return [reads(descriptor(fd(source))), writes(descriptor(fd(target)))] if e.moved else []
    if call == 'Connect':
        return [('address', pid, fd(0), e.address)] if (e.is_ok or e.exit == -115) and e.address is not None else []
    if call == 'Exit':
        return [('end', pid)]
    if not e.is_ok:
        return []
    if call == 'Open':
        if e.new is None:
            return []
        if e.target is None:
            return [('close', pid, e.new)]
        put = ('set', pid, e.new, e.target, closes(flags))
        if e.target_is_new:
            return [('birth', None, e.target), writes(e.target, 'make'), put]
        return ([writes(e.target, 'alter')] if flags & 0x200 else []) + [put]
    if call == 'Close':
        return [('close', pid, fd(0))]
    if call in ('Dup', 'Dup2', 'Dup3'):
        itself = call != 'Dup' and fd(0) == e.new
        return [] if e.new is None or itself else [('copy', pid, fd(0), e.new, call == 'Dup3' and closes(flags))]
    if call == 'Fcntl':
        if fd(1) in (0, 1030):
            return [] if e.new is None else [('copy', pid, fd(0), e.new, fd(1) == 1030)]
        return [('mark', pid, fd(0), bool(a[2] & 1))] if fd(1) == 2 else []
    if call == 'Pair':
        pair = e.first('FD_PAIR')
        return [('pair', pid, pair['fd0'], pair['fd1'], closes(flags))] if pair else []
    if call == 'Socket':
        return [] if e.new is None else [('set', pid, e.new, ('socket', None, None), closes(flags))]
    if call == 'Bind':
        return [] if e.address is None else [('address', pid, fd(0), e.address)]
    if call == 'Accept':
        return [] if e.new is None else [('set', pid, e.new, ('socket', e.address, fd(0)), closes(flags))]
    if call == 'Exec':
        return [reads(file, 'exec') for file in e.files_of('NORMAL')] + [('exec', pid)]
    if call in ('Fork', 'Clone'):
        is_thread = call == 'Clone' and flags & 0x10000
        return [('fork', pid, e.new)] if e.new and e.new != pid and not is_thread else []
    if call == 'Map':
        mapped = e.first('MMAP')
        if flags & 0x20 or not mapped:
            return []
        thing = descriptor(mapped['fd'])
        return [reads(thing)] + ([writes(thing)] if flags & 1 and a[2] & 2 else [])
    if call == 'AlterPath':
        return [writes(e.target, 'alter')] if e.target else []
    if call == 'AlterFd':
        return [writes(e.target or descriptor(fd(0)), 'alter')]
    if call == 'Rename':
        return [writes(file, 'alter') for file in e.files_of('CREATE')]
    if call == 'Remove':
        return [writes(file, 'alter') for file in e.files_of('DELETE')]
    return [act for file in e.files_of('CREATE') for act in (('birth', None, file), writes(file, 'make'))]


# ---- lives, descriptors, keys and flows


class Host:
    def __init__(self):
        self.acts = 0
        self.begun, self.live, self.awaits, self.linked = {}, set(), {}, set()
        self.held, self.sockets, self.address, self.births = {}, set(), {}, {}
        self.ids, self.flows, self.names = {}, [], {}

    def process(self, pid):
        return 'process', pid, max(self.begun.get(pid, 0) - 1, 0)

    def file(self, file):
        return ('path', file[2] or b'') if file[1] is None else ('inode', file[1], self.births.get(file[1], 0))

    def name(self, key, text):
        names = self.names.setdefault(key, [])
        if text is not None and text not in names and len(names) < NAMES:
            names.append(text)

    def name_thing(self, thing):
        if thing[0] == 'file':
            self.name(self.file(thing), thing[2])
        elif thing[0] == 'address':
            self.name(thing, address_text(thing[1]))

    def key_of(self, pid, thing):
        if thing[0] == 'file':
            return self.file(thing)
        if thing[0] == 'address':
            return thing
        held = self.held.get(pid, {}).get(thing[1])
        return self.object(held[0]) if held else ('lost', *self.process(pid)[1:], thing[1])

    def object(self, held):
        return ('address', self.address[held]) if held in self.address else held

    def flow(self, source, target, how, ms, serial):
        for key in (source, target):
            self.ids.setdefault(key, len(self.ids))
        self.flows.append((self.ids[source], self.ids[target], how, ms, serial))

    def begin(self, pid, parent, linked):
        self.begun[pid] = self.begun.get(pid, 0) + 1
        self.live.add(pid)
        (self.linked.add if linked else self.linked.discard)(pid)
        self.held[pid] = dict(self.held.get(parent, {})) if linked else {}

    def do(self, act, ms, serial):
        kind, pid, *rest = act
        getattr(self, 'do_' + kind)(pid, *rest, **({'ms': ms, 'serial': serial} if kind in ('see', 'fork', 'move') else {}))
        self.acts += 1

    def do_see(self, pid, parent, exe, ms, serial):
        if pid not in self.live:
            self.do_begin(pid, parent, ms, serial)
        self.name(self.process(pid), exe)

    def do_begin(self, pid, parent, ms, serial):
        linked = parent in self.live and parent != pid
        self.begin(pid, parent, linked)
        self.awaits[pid] = parent
        if linked:
            self.flow(self.process(parent), self.process(pid), 'fork', ms, serial)

    def do_fork(self, pid, child, ms, serial):
        if child == pid:
            return
        claimed = child in self.live and self.awaits.get(child) == pid
        had_parent = child in self.linked
        if claimed:
            self.linked.add(child)
        else:
            self.begin(child, pid, True)
        self.awaits[child] = None
        if not (claimed and had_parent):
            self.flow(self.process(pid), self.process(child), 'fork', ms, serial)

    def do_end(self, pid):
        self.live.discard(pid)
        self.held[pid] = {}

    def do_exec(self, pid):
        self.held[pid] = {fd: held for fd, held in self.held.get(pid, {}).items() if not held[1]}

    def do_set(self, pid, fd, what, closes):
        if what[0] == 'file':
            self.name_thing(what)
            self.held[pid][fd] = (self.file(what), closes)
            return
        socket, listener = ('made', self.acts), self.held[pid].get(what[2])
        if what[1] is not None:
            self.name_thing(('address', what[1]))
            self.address[socket] = what[1]
        elif listener and listener[0] in self.address:
            self.address[socket] = self.address[listener[0]]
        self.held[pid][fd] = (socket, closes)
        self.sockets.add(socket)

    def do_pair(self, pid, first, second, closes):
        self.held[pid][first] = self.held[pid][second] = (('made', self.acts), closes)

    def do_copy(self, pid, source, target, closes):
        held = self.held[pid].get(source)
        self.held[pid][target] = (held[0] if held else ('lost', *self.process(pid)[1:], source), closes)

    def do_close(self, pid, fd):
        self.held[pid].pop(fd, None)

    def do_mark(self, pid, fd, closes):
        if fd in self.held[pid]:
            self.held[pid][fd] = (self.held[pid][fd][0], closes)

    def do_address(self, pid, fd, address):
        self.name_thing(('address', address))
        held = self.held[pid].get(fd)
        if not held or held[0] not in self.sockets:
            held = self.held[pid][fd] = (('made', self.acts), False)
            self.sockets.add(held[0])
        self.address[held[0]] = address

    def do_birth(self, _, file):
        if file[1] is not None:
            self.births[file[1]] = self.births.get(file[1], 0) + 1
        self.name_thing(file)

    def do_move(self, pid, inward, how, thing, ms, serial):
        self.name_thing(thing)
        ends = self.key_of(pid, thing), self.process(pid)
        self.flow(*(ends if inward else ends[::-1]), how, ms, serial)


# ---- how many rows each mode keeps

def merged(flows):
    """A flow makes a row unless an earlier one of its pair has no flow into the source and none out of the target after it."""
    rows, last, into, out = 0, {}, {}, {}
    for place, (source, target, *_) in enumerate(flows):
        before = last.get((source, target))
        rows += before is None or into.get(source, -1) > before or out.get(target, -1) > before
        last[source, target], into[target], out[source] = place, place, place
    return rows


def linked(flows):
    """A flow is kept unless a kept one of its pair has no kept flow into the source after it."""
    rows, last, into = 0, {}, {}
    for place, (source, target, *_) in enumerate(flows):
        if into.get(source, -1) >= last.get((source, target), -1) or (source, target) not in last:
            rows += 1
            last[source, target], into[target] = place, place
    return rows


def sources(flows):
    """For each object the sources from which a path leads to it; an object whose first flow leaves it is one itself."""
    reached = {}
    for source, target, *_ in flows:
        reached.setdefault(source, {source})
        yield reached[source] <= reached.get(target, set()), reached
        reached[target] = reached.get(target, set()) | reached[source]


def bringing(flows):
    """A flow is kept if it brings its target a source."""
    return sum(not dropped for dropped, _ in sources(flows))


KEPT = {'plain': len, 'continuous': merged, 'full': linked, 'source': bringing}

# ---- joining, and the dialogue


class Engine:
    def __init__(self, mode, mapped):
        self.mode, self.mapped, self.host = mode, mapped, Host()
        self.tail, self.bad = b'', []
        self.counts = dict.fromkeys(('blank', 'bytes', 'events', 'excess', 'late', 'malformed', 'other', 'unmapped', 'used'), 0)
        self.groups, self.closed, self.text = {}, set(), 0
        self.seen = self.released = None
        self.effective = 0

    def lines(self):
        return sum(self.counts[name] for name in ('blank', 'malformed', 'other', 'used'))

    def feed(self, piece):
        self.counts['bytes'] += len(piece)
        *lines, self.tail = (self.tail + piece).split(b'\n')
        for line in lines:
            self.take(line)

    def take(self, line):
        name, said = class_of(line)
        self.counts[name] += 1
        if name == 'malformed' and len(self.bad) < SHOWN:
            self.bad.append([self.lines(), said])
        if name == 'used':
            self.enter(*said)
            self.release()

    def enter(self, key, kind, fields, length):
        self.seen = key[0] if self.seen is None else max(self.seen, key[0])
        group = self.groups.get(key, [])
        if kind in ('EOE', 'PROCTITLE'):
            if key in self.groups:
                self.closed.add(key)
        elif len(group) >= RECORDS or kind == 'SYSCALL' and any(its_kind == kind for its_kind, _, _ in group):
            self.counts['excess'] += 1
        else:
            self.groups.setdefault(key, []).append((kind, fields, length))
            self.text += length

    def release(self):
        while self.groups:
            key = min(self.groups)
            if not (key in self.closed or self.seen - key[0] > LAPSE or len(self.groups) > GROUPS or self.text > TEXT):
                return
            group = self.groups.pop(key)
            self.closed.discard(key)
            self.text -= sum(length for _, _, length in group)
            self.counts['events'] += 1
            self.counts['late'] += self.released is not None and key < self.released
            self.released = key if self.released is None else max(self.released, key)
            self.effective = max(self.effective, key[0])
            acts, unmapped = acts_of(Event([(kind, fields) for kind, fields, _ in group]), self.mapped)
            self.counts['unmapped'] += unmapped
            for act in acts:
                self.host.do(act, self.effective, key[1])

    def settle(self):
        if self.tail:
            line, self.tail = self.tail, b''
            self.take(line)
        self.closed |= set(self.groups)
        self.release()

    def stat(self):
        return dict(self.counts, flows=len(self.host.flows), kept=KEPT[self.mode](self.host.flows), known=len(self.host.ids),
                    lines=self.lines(), malformed_lines=self.bad, waiting=len(self.groups))

    def back(self, of, until):
        found = {of}
        for source, target, _, ms, _ in reversed(self.host.flows):
            if target in found and (until is None or ms <= until):
                found.add(source)
        return sorted(found)

    def fore(self, of, since):
        found = {of}
        for source, target, _, ms, _ in self.host.flows:
            if source in found and (since is None or ms >= since):
                found.add(target)
        return sorted(found)


    def first(self, of):
        """The first flow of an object."""
        return next(flow for flow in self.host.flows if of in flow[:2])

    def is_source(self, of):
        return self.first(of)[0] == of

    def allows(self, way, of, bound):
        if self.mode not in ('full', 'source') or way == 'back':
            return True
        if self.mode == 'source' and not self.is_source(of):
            return False
        return way == 'why' or bound is None or bound <= self.first(of)[3]

    def fault_of(self, path, source, target, until):
        """What is wrong with this answer to `why`, or None."""
        if path is None:
            return 'there is a path' if source in self.back(target, until) else None
        at, place = source, -1
        for hop in path:
            if hop['from'] != at:
                return f'{hop} begins elsewhere'
            flow = next((number for number, (one, other, how, ms, serial) in enumerate(self.host.flows) if number > place and hop == {
                'at': time_text(ms), 'from': one, 'how': how, 'serial': serial, 'to': other}), None)
            if flow is None:
                return f'{hop} is no flow after those before it'
            if until is not None and self.host.flows[flow][3] > until:
                return f'{hop} is too late'
            at, place = hop['to'], flow
        return None if at == target else 'it ends elsewhere'

    def why(self, source, target, until, reply):
        """The path of this reply, if it is one."""
        try:
            path = json.loads(reply)['path']
            fault = self.fault_of(path, source, target, until)
        except (ValueError, KeyError, TypeError):
            path, fault = None, 'it has no path'
        return {'from': source, 'path': path if fault is None else f'wrong: {fault}', 'to': target}

    def find(self, text):
        return [of for key, of in self.host.ids.items() if text in self.host.names.get(key, [])]

    def show(self, of):
        key = list(self.host.ids)[of]
        return {'is': lossy(key_text(key)), 'names': [lossy(name) for name in self.host.names.get(key, [])], 'show': of}


def answer(engine, log, question, reply):
    if len(question) > ASK or not QUESTION.fullmatch(question):
        return {'error': 'BadQuestion'}
    way, *words = question.split(' ')
    if way == 'take':
        piece = log.read(int(words[0]))
        engine.feed(piece)
        return {'take': len(piece)}
    if way == 'settle':
        engine.settle()
        return {'settle': engine.counts['events']}
    if way == 'stat':
        return engine.stat()
    if way == 'end':
        return {'end': True}
    if way == 'find':
        text = question.removeprefix('find ').encode('latin1')
        return {'find': lossy(text), 'ids': engine.find(text)}
    ids = [int(word) for word in words if '.' not in word]
    bound = next((int(word.replace('.', '')) for word in words if '.' in word), None)
    if max(ids) >= 2**32:
        return {'error': 'BadQuestion'}
    if max(ids) >= len(engine.host.ids):
        return {'error': 'Unknown'}
    if way == 'show':
        return engine.show(ids[0])
    if not engine.allows(way, ids[0], bound):
        return {'error': 'NotKept'}
    if way == 'why':
        return engine.why(*ids, bound, reply)
    found = getattr(engine, way)(ids[0], bound)
    if way == 'back' and engine.mode == 'source':
        return {'back': ids[0], 'sources': [of for of in found if engine.is_source(of)]}
    return {way: ids[0], 'ids': found}


def main():
    parser = argparse.ArgumentParser()
    parser.add_argument('mode', choices=KEPT)
    parser.add_argument('log')
    parser.add_argument('--calls', default='all', choices=MAPPED)
    parser.add_argument('--paths', default=os.devnull)
    options = parser.parse_args()
    engine = Engine(options.mode, MAPPED[options.calls])
    sys.stdout.reconfigure(encoding='utf-8')
    with open(options.log, 'rb') as log, open(options.paths, 'rb') as replies:
        for line in sys.stdin.buffer:
            question = line.decode('latin1').removesuffix('\n')
            said = answer(engine, log, question, replies.readline())
            print(json.dumps(said, ensure_ascii=False, separators=(',', ':'), sort_keys=True))
            if question == 'end':
                return


if __name__ == '__main__':
    main()
