"""A plain reading of what the rules of `audit_order` make of a line by the lines before it, written apart from the program, to compare the program with.

It reads lines as `plain_reading.py` does. A path of more than 4,096 bytes it takes for its first 4,096, which the program doesn't keep.
"""
import re

from plain_reading import X86_64, address_key, address_text, class_of, join_path

WORKING, LEAVES, TICK, PATIENCE, INHERITED = 0xFFFFFF9C, 0x80000, 4, 20000, 256
BLANK_PEER = b'\1\0'
OPENS, SOCKETS, COPIES, FORKS, RUNS = {2: 1, 85: None, 257: 2, 437: None}, {41: 1, 43: None, 288: 3}, {32, 33, 292}, {57, 58, 435}, {59, 322}
AT_FIRST, AT_BOTH = {257, 258, 259, 260, 263, 268, 322, 437}, {264, 265, 316}
MAPPED = bytes(10) + b'\xff\xff'
OWN = re.compile(rb'/dev/fd/(\d{1,10})|/proc/(?:self|thread-self|(\d{1,10}))/fd/(\d{1,10})')
STANDARD = {b'/dev/stdin': 0, b'/dev/stdout': 1, b'/dev/stderr': 2}
BEFORE_THIRD = re.compile(rb': arch=c000003e syscall=[^ ]* success=yes exit=([^ ]*) a0=[^ ]* a1=[^ ]*(?= )', re.S)
VALUE = re.compile(rb'^([: ]*)(cwd|saddr)=([^ \x1d]*)', re.S)


def inet_of(saddr):
    """The host and the port of an address."""
    if len(saddr) >= 8 and saddr[:2] == b'\2\0':
        return saddr[4:8], saddr[2:4]
    if len(saddr) >= 24 and saddr[:2] == b'\12\0':
        return saddr[20:24] if saddr[8:20] == MAPPED else saddr[8:24], saddr[2:4]
    return None


def is_unix(saddr):
    return saddr[:2] == b'\1\0'


def place_of(saddr):
    """The port of an address, or what names the other end of one of family 1."""
    inet = inet_of(saddr)
    return address_key(saddr) if is_unix(saddr) else inet and inet[1]


class Node:
    """What is known of a node by its lines."""

    def __init__(self):
        self.held, self.hosts, self.places, self.waits, self.early, self.call, self.time = {}, set(), set(), {}, {}, None, 0

    # ---- what a line makes of what is known

    def hear(self, key, kind, fields, line):
        call = self.call if self.call and self.call['key'] == key else None
        if kind == 'SYSCALL' and fields['arch'] == X86_64:
            self.hear_call(key, fields)
        elif kind == 'CWD' and call:
            call['cwd'] = fields['cwd']
        elif kind == 'PATH' and fields['nametype'] in (b'NORMAL', b'CREATE') and own_in(line):
            self.call = {'key': key, 'pid': None, 'cwd': None, 'opens': None, 'asks': None, 'silent': False, 'own': own_in(line)}
        elif kind == 'PATH' and call and call['opens'] and fields['nametype'] in (b'NORMAL', b'CREATE'):
            at, stays = call['opens']
            named = any(it.startswith(b'mode=04') for it in line.split(b' ')) and fields['name'] is not None
            path = join_path(self.base(call), fields['name']) if named else b''
            self.put(at, path.startswith(b'/') and ('directory', path, stays))
        elif kind == 'SOCKADDR':
            self.hear_address(call, key, fields['saddr'])

    def hear_call(self, key, fields):
        number, pid, exit_, done = fields['syscall'], fields['pid'], fields['exit'], fields['success']
        a = [fields[f'a{i}'] % 2**32 for i in range(4)]
        answer = exit_ if exit_ is not None and 0 <= exit_ < 2**32 else None
        self.call = {'key': key, 'pid': pid, 'cwd': None, 'opens': None, 'asks': asks_of(number, a, done, exit_ == -115), 'silent': number in (43, 288) and done and a[1] == 0}
        if number == 231:
            self.become(pid, {})
        elif done:
            self.act(pid, number, answer, a)

    def act(self, pid, number, answer, a):
        def stays(which):
            return not a[which] & LEAVES

        of_process = {fd: what for (it, fd), what in self.held.items() if it == pid}
        if number in OPENS and answer is not None:
            open_stays = number == 85 or number != 437 and stays(OPENS[number])
            self.put((pid, answer), None)
            self.call['opens'] = (pid, answer), open_stays
        elif number in SOCKETS and answer is not None:
            self.put((pid, answer), ('socket', b'', number == 43 or stays(SOCKETS[number]), {1: 'stream', 2: 'datagrams'}.get(a[1] % 16) if number == 41 else 'stream'))
        elif number == 3:
            self.put((pid, a[0]), None)
        elif number == 436:
            if not a[2] & 4:
                self.become(pid, {fd: what for fd, what in of_process.items() if not a[0] <= fd <= a[1]})
        elif number in COPIES or number == 72 and a[1] in (0, 1030):
            if answer not in (None, a[0]):
                self.copy((pid, a[0]), (pid, answer), stays(2) if number == 292 else number != 72 or a[1] == 0)
        elif number == 72 and a[1] == 2:
            self.copy((pid, a[0]), (pid, a[0]), not a[2] & 1)
        elif (number in FORKS or number == 56 and not a[0] & 0x10000) and answer is not None:
            self.become(answer, {fd: what for fd, what in of_process.items() if fd < INHERITED})
        elif number in RUNS:
            self.become(pid, {fd: what for fd, what in of_process.items() if what[2]})

    def put(self, at, what):
        self.held.pop(at, None)
        if what:
            self.held[at] = what

    def copy(self, old, new, stays):
        self.put(new, old in self.held and (*self.held[old][:2], stays, *self.held[old][3:]))

    def become(self, pid, of_process):
        """A process holds this, and nothing else."""
        self.held = {at: what for at, what in self.held.items() if at[0] != pid} | {(pid, fd): what for fd, what in of_process.items()}

    def hear_address(self, call, key, saddr):
        target, door = self.knocked(call, saddr), self.answered(call, saddr)
        inet, place = inet_of(saddr), place_of(saddr)
        if call:
            call['silent'] = False
        if target:
            self.hear_connect(*target, key)
        if door:
            self.hear_accept(door, key, saddr)
        if call and call['asks'] and call['asks'][0] == 'binds' and place is not None:
            at = call['pid'], call['asks'][1]
            was = self.held.get(at, (None, None, True))
            self.put(at, ('socket', place, was[2], was[3] if was[0] == 'socket' else None))
            if place.strip(b'\0'):
                self.places.add(place)
            if inet and inet[0].strip(b'\0'):
                self.hosts.add(inet[0])

    def hear_connect(self, place, stem, key):
        early = self.early_at(place)
        self.early[place] = early[1:]
        if not early:
            name, count, since = self.wait_at(place) or (name_of(stem, key), 0, self.time)
            self.waits[place] = name, count + 1, since

    def hear_accept(self, place, key, saddr):
        own = own_name(place, key, saddr)
        wait = self.wait_at(place)
        self.waits.pop(place, None)
        if wait:
            name, count, since = wait
            if count > 1:
                self.waits[place] = name, count - 1, since
        elif own:
            self.early[place] = [*self.early_at(place), (own, self.time)]

    # ---- what is known

    def early_at(self, place):
        """The accepts that wait at a place for their connects, which they do for a tick."""
        return [it for it in self.early.get(place, []) if self.time <= it[1] + TICK]

    def wait_at(self, place):
        """The connects that wait at a place, which they do for twenty seconds since the first of them: their name, how many they are, and when the first came."""
        wait = self.waits.get(place)
        return wait if wait and self.time <= wait[2] + PATIENCE else None

    def base(self, call):
        """What the names of a call are relative to, if it is known."""
        return self.directory(call) if call['asks'] and call['asks'][0] == 'at' else call['cwd']

    def directory(self, call):
        what = call['asks'] and call['asks'][0] == 'at' and self.held.get((call['pid'], call['asks'][1]))
        return what[1] if what and what[0] == 'directory' else None

    def is_local(self, inet):
        return bool(inet) and (len(inet[0]) == 4 and inet[0][0] == 127 or inet[0] == bytes(15) + b'\1' or inet[0] in self.hosts)

    def knocked(self, call, saddr):
        """The place that a connect goes to, and what its name begins with."""
        if not call or not call['asks'] or call['asks'][0] != 'connects' or self.held.get((call['pid'], call['asks'][1]), ())[3:] == ('datagrams',):
            return None
        inet, key = inet_of(saddr), is_unix(saddr) and address_key(saddr)
        if is_unix(saddr):
            target = key and (key, key)
        else:
            target = self.is_local(inet) and (inet[1], b'\1\0' + address_text(address_key(address_of(*inet))))
        return target if target and target[0] in self.places else None

    def listening(self, call):
        """The place of the socket of which a connection was accepted."""
        what = call and call['asks'] and call['asks'][0] == 'accepts' and self.held.get((call['pid'], call['asks'][1]))
        return what[1] if what and what[0] == 'socket' and what[1].strip(b'\0') else None

    def own_port(self, call, inet):
        """The port of the socket that has accepted a peer, or received or sent a datagram, if that is to stand in place of the peer's."""
        if not call or not call['asks'] or call['asks'][0] not in ('accepts', 'receives', 'sends'):
            return None
        asks, what = call['asks'][0], self.held.get((call['pid'], call['asks'][1]))
        if not what or what[0] != 'socket' or len(what[1]) != 2 or what[1] == bytes(2):
            return None
        is_stream, is_known = what[3] == 'stream', inet[1] in self.places
        return what[1] if asks == 'accepts' or not is_stream and (asks == 'receives' or not is_known) else None

    def answered(self, call, saddr):
        return self.listening(call) if is_unix(saddr) or self.is_local(inet_of(saddr)) else None

    def lacks_peer(self, key, leaves_out):
        """Whether an event's accept didn't ask for the address of its peer, and no record has it, but its connection has a name."""
        call = self.call if self.call and self.call['key'] == key else None
        if not call or not call['silent'] or '--no-join' in leaves_out or '--shared-connections' in leaves_out:
            return False
        door = self.answered(call, BLANK_PEER)
        return bool(door) and (bool(self.wait_at(door)) or own_name(door, key, BLANK_PEER) is not None)

    # ---- what becomes of a line

    def copied(self, key, kind, fields, rest):
        """What of the record of a call is that of a copy, if it has opened a descriptor by its name, which was seen before it."""
        own = self.call.get('own') if self.call and self.call['key'] == key else None
        stands = BEFORE_THIRD.match(rest)
        if kind != 'SYSCALL' or not own or not stands or not fields['success'] or fields['arch'] != X86_64 or fields['syscall'] not in OPENS or own[1] not in (None, fields['pid']):
            return None
        number, flags = fields['syscall'], OPENS[fields['syscall']]
        stays = number == 85 or number != 437 and not fields[f'a{flags}'] & LEAVES
        return stands[0], b': arch=c000003e syscall=72 success=yes exit=%b a0=%02x a1=%b' % (stands[1], own[0], b'0' if stays else b'406')

    def value(self, key, kind, fields, leaves_out):
        """The value that the first field of a line gets, if it is known."""
        call = self.call if self.call and self.call['key'] == key else None
        if kind == 'CWD' and call and '--no-names' not in leaves_out:
            path = self.directory(call)
            return path and (b'"' + path + b'"' if all(33 <= it <= 126 and it != 34 for it in path) else path.hex().upper().encode())
        if kind == 'SOCKADDR' and '--no-join' not in leaves_out:
            address = self.address(call, key, fields['saddr'], '--shared-connections' not in leaves_out)
            return address and address.hex().upper().encode()
        return None

    def address(self, call, key, saddr, apart):
        target, door, inet = self.knocked(call, saddr), self.answered(call, saddr), inet_of(saddr)
        if apart and target:
            place, stem = target
            return self.wait_at(place)[0] if self.wait_at(place) else self.early_at(place)[0][0] if self.early_at(place) else name_of(stem, key)
        if apart and door:
            return self.wait_at(door)[0] if self.wait_at(door) else own_name(door, key, saddr)
        port = self.own_port(call, inet) if self.is_local(inet) else None
        return port and address_of(inet[0], port)


def own_in(line):
    """The descriptor below 256 that the first text between quotes names, and whose it is if it isn't that of the process itself."""
    name = line.split(b'"')[1] if b'"' in line else b''
    found = OWN.fullmatch(name)
    if name in STANDARD:
        return STANDARD[name], None
    fd, pid = (int(found[1] or found[3]), found[2] and int(found[2])) if found else (256, None)
    return (fd, pid) if fd < 256 and (pid is None or pid < 2**32) else None


def name_of(stem, key):
    return stem + b'#%d:%d' % key


def own_name(place, key, saddr):
    """The name of a connection whose accept comes first, at a place."""
    inet = inet_of(saddr)
    if len(place) == 2:
        return name_of(b'\1\0' + address_text(address_key(address_of(inet[0], place))), key) if inet else None
    return name_of(place, key) if is_unix(saddr) else None


def address_of(host, port):
    return b'\2\0' + port + host + bytes(8) if len(host) == 4 else b'\12\0' + port + bytes(4) + host + bytes(4)


def asks_of(number, a, done, begun):
    """What the records after that of a call say something about."""
    fd = a[0] if number in AT_FIRST or number in AT_BOTH and a[0] == a[2] else a[1] if number == 266 else None
    if fd is not None or number in AT_BOTH:
        return ('at', fd) if fd not in (None, WORKING) else None
    if number == 42:
        return ('connects', a[0]) if done or begun else None
    asks = {49: 'binds', 43: 'accepts', 288: 'accepts', 45: 'receives', 47: 'receives', 44: 'sends', 46: 'sends'}.get(number)
    return (asks, a[0]) if done and asks else None


class Rules:
    """What is known of each node by the lines that were seen, and the words that turn rules off."""

    def __init__(self, leaves_out):
        self.leaves_out, self.nodes = leaves_out, {}

    def lacks_peer(self, front, time, serial):
        """Whether the event of a line of this stamp lacks the address of its peer, after the lines that were seen."""
        node = self.nodes.get(front[5:].split(b' ')[0] if front.startswith(b'node=') else b'')
        return bool(node) and node.lacks_peer((time, serial), self.leaves_out)

    def see(self, front, time, rest, line):
        """What of a line is rewritten, and to what; nothing if no rule says so. After that it was seen. It is given with what stands before and after its stamp, and
        with its time in milliseconds."""
        name = front[5:].split(b' ')[0] if front.startswith(b'node=') else b''
        if name not in self.nodes or front.endswith((b'type=SYSTEM_BOOT msg=audit', b'type=DAEMON_START msg=audit')):
            self.nodes[name] = Node()
        node, (kind, about) = self.nodes[name], class_of(line)
        node.time = max(node.time, time)
        if kind != 'used':
            return None
        copied = node.copied(*about[:3], rest) if '--no-descriptors' not in self.leaves_out else None
        value = node.value(*about[:3], self.leaves_out)
        node.hear(*about[:3], line)
        stands = VALUE.match(rest)
        if copied:
            return copied
        if not value or not stands or stands[2].decode() != {'CWD': 'cwd', 'SOCKADDR': 'saddr'}[about[1]] or stands[3] == value:
            return None
        return stands[0], stands[1] + stands[2] + b'=' + value
