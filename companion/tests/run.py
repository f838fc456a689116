#!/usr/bin/env python3
"""The tests of autrail and of the scripts that build the programs, over the built programs.

    companion/tests/run.py [--program WORDS] [--kills N] [NAME..]

WORDS is the program (what ./audit_cli at the top has built, which is run first for it). Checks that need graphviz, tmux, auditctl, unshare,
scdoc, zsh or systemd-analyze are skipped on a machine without them, and say so; so are those of the order of effects if audit_order isn't built.
"""
from __future__ import annotations

import argparse
import bz2
import contextlib
import fcntl
import gzip
import html
import itertools
import json
import lzma
import os
import random
import re
import shlex
import shutil
import signal
import struct
import subprocess
import sys
import tempfile
import threading
import time
import unittest
import unittest.mock
from datetime import datetime
from pathlib import Path

HERE = Path(__file__).resolve().parent
TOP = HERE.parent.parent
AUTRAIL = HERE.parent / 'autrail'
PACKAGE = HERE.parent / 'lib'
EXAMPLE = TOP / 'examples' / 'web1_sample.log'
SCRIPT = TOP / 'audit_cli'
BUILT = TOP / 'crates' / 'audit_cli' / 'out' / 'audit_cli'
ORDER = TOP / 'crates' / 'audit_order' / 'out' / 'audit_order'
WAITED = TOP / 'examples' / 'waited_read.log'
PROGRAM = str(SCRIPT)
# How many runs of keep are killed at random moments.
KILLS = 100
ADMIN_FOLDERS = os.environ['PATH'] + ':/usr/sbin:/sbin'
TREES = {'received': 'back /srv/evil/received.tar --tree', 'port4445': 'back 127.0.0.1:4445 --tree', 'customers': 'fore /customers.csv --tree'}
RAW = re.compile(rb'[\x00-\x09\x0b-\x1f\x7f]|\xc2[\x80-\x9f]')


# The package, for its functions on words alone.
sys.dont_write_bytecode = True
sys.path.insert(0, str(PACKAGE))
from autrail import basics, lines, logs as autrail_logs, main as autrail_main, prompt, signs, times, trees, whole  # noqa: E402 pylint: disable=wrong-import-position


def environment(**more: str) -> dict[str, str]:
    return {**os.environ, 'AUDIT_CLI': PROGRAM, 'AUDIT_ORDER': shlex.quote(str(ORDER)), 'TZ': 'UTC', 'LC_ALL': 'C.UTF-8', 'PYTHONDONTWRITEBYTECODE': '1', **more}


def by_default(*words: str | bytes | Path, stdin: str | bytes = '', **more: str) -> subprocess.CompletedProcess[bytes]:
    """autrail with these words, in the order of effects if they say no other."""
    text = stdin.encode() if isinstance(stdin, str) else stdin
    return subprocess.run([AUTRAIL, *words], input=text, capture_output=True, env=environment(**more), cwd=TOP, check=False)


def run(*words: str | bytes | Path, stdin: str | bytes = '', **more: str) -> subprocess.CompletedProcess[bytes]:
    """autrail in the order of the log: most tests are about a log or a store as it is."""
    return by_default('--no-order', *words, stdin=stdin, **more)


# What is said of that order before each answer over a log.
OF_THE_LOG = 'autrail: in the order of the log\n'


def asked(log: Path | str, questions: str) -> str:
    """The answers to lines of the prompt, over a log that is read once, in its own order."""
    done = run('-q', '-if', str(log), 'ask', stdin=questions)
    assert done.returncode == 0, done.stderr.decode()
    return done.stdout.decode()


def call(serial: int, number: int, pid: int = 100, at: int | None = None, arch: str = 'c000003e', exit: int = 5, a0: str = '3', more: str = '', node: str = '') -> str:
    """The SYSCALL line of an event. If no time is given it is one second later for each serial number."""
    return (f'{node}type=SYSCALL msg=audit({1780992000 + serial if at is None else at}.000:{serial}): arch={arch} syscall={number} success=yes exit={exit} '
            f'a0={a0} a1=0 a2=0 a3=0 items=1 ppid=1 pid={pid} auid=1000 uid=1001 gid=0 tty=pts0 ses=7 comm="p" exe="/usr/bin/p"{more}\n')


def path(serial: int, name: str, inode: int, kind: str = 'NORMAL') -> str:
    return f'type=PATH msg=audit({1780992000 + serial}.000:{serial}): item=0 name={name} inode={inode} dev=08:01 mode=0100644 nametype={kind}\n'


def opened_and(move: int, name: str, inode: int, serial: int, kind: str = 'NORMAL', pid: int = 100) -> str:
    """A process opens a file as descriptor 3, and reads (0) or writes (1) it."""
    return call(serial, 257, pid, exit=3) + path(serial, name, inode, kind) + call(serial + 1, move, pid)


def repeated(size: int) -> bytes:
    """The example again and again, with later times and serial numbers each time, until it has this many bytes."""
    return subprocess.run([sys.executable, TOP / 'bench' / 'repeat_log.py', EXAMPLE, str(size)], capture_output=True, check=True).stdout


def copy_of_autrail(folder: Path) -> Path:
    """The command in this folder, with its package."""
    shutil.copytree(PACKAGE, folder / 'lib', ignore=shutil.ignore_patterns('__pycache__'))
    return Path(shutil.copy(AUTRAIL, folder / 'autrail'))


class Scratch(unittest.TestCase):
    """Tests with a folder of their own."""

    def setUp(self) -> None:
        self.folder = Path(tempfile.mkdtemp(prefix='autrail test '))
        self.addCleanup(shutil.rmtree, self.folder)

    def log(self, text: str | bytes, name: str = 'audit.log') -> Path:
        file = self.folder / name
        file.write_bytes(text.encode() if isinstance(text, str) else text)
        return file


class Answers(unittest.TestCase):
    """The real log of the repository."""

    @classmethod
    def setUpClass(cls) -> None:
        cls.lines = EXAMPLE.read_text().splitlines()

    def test_trees_are_those_checked_by_hand(self) -> None:
        for name, question in TREES.items():
            with self.subTest(name):
                self.assertEqual(asked(EXAMPLE, question), (HERE / 'expected' / f'{name}.txt').read_text())

    def test_names_on_a_tree_are_in_the_answer(self) -> None:
        for question in TREES.values():
            tree, objects = asked(EXAMPLE, question), asked(EXAMPLE, question.replace('--tree', '--json'))
            known = {(it['id'], it['label']) for it in map(json.loads, objects.splitlines())}
            on_tree = {(int(number), label) for label, number in re.findall(r'(?:\d\d:\d+|^)  ?(\S+)  #(\d+)', tree.split('processes (')[0], re.M)}
            self.assertGreater(len(on_tree), 3)
            self.assertLessEqual(on_tree, known)

    def test_each_edge_is_a_line_of_the_log_of_that_process(self) -> None:
        for question in TREES.values():
            self.check_edges(asked(EXAMPLE, question.replace('--tree', '--dot')))

    def check_edges(self, dot: str) -> None:
        pids = {int(number): pid for number, pid in re.findall(r'^  n(\d+) \[.*tooltip="process (\d+) 0', dot, re.M)}
        edges = re.findall(r'^  n(\d+) -> n(\d+) \[label="(\w+)\\n([\d :.-]+)", tooltip="serial (\d+)"(, style=dashed)?\]', dot, re.M)
        self.assertGreater(len(edges), 3)
        for source, target, how, _, serial, dashed in edges:
            ends = {pids[it] for it in (int(source), int(target)) if it in pids}
            line = next(it for it in self.lines if it.startswith('type=SYSCALL') and f':{serial})' in it)
            pid = re.search(r' pid=(\d+) ', line)[1]
            self.assertTrue(dashed or pid in ends or how == 'fork' and pid in ends, f'{source} {target} {serial}')

    def test_lists_show_find_and_why(self) -> None:
        text = asked(EXAMPLE, 'find *received*\nshow pid:434\nwhy /customers.csv 127.0.0.1:4445 --lines\nfind 4445\nback x.sh\n')
        for want in ('#15     file     /srv/evil/received.tar   file fe:00 19137 1', 'tar -cf /tmp/.loot.tar -C /home/alice/secret customers.csv',
                     'type=SYSCALL msg=audit(1780992115.824:1052): arch=c000003e syscall=0', '/tmp/x.sh  #25  can have come from:',
                     '13 common objects hidden; -a shows them', 'first taken in 2026-06-09 08:01:55.644'):
            self.assertIn(want, text)

    def test_programs_are_named_by_path_base_name_or_pattern(self) -> None:
        found = [[json.loads(it)['label'] for it in asked(EXAMPLE, f'find {word} --json').splitlines()] for word in ('exe:/usr/bin/tar', 'exe:tar', 'exe:*/tar', 'exe:nc.openbsd')]
        self.assertEqual(found[:3], 3 * [['tar[434]']])
        self.assertEqual(found[3], [f'nc.openbsd[{it}]' for it in (424, 425, 430, 435)])
        self.assertEqual(run('-q', '-if', EXAMPLE, 'find', 'exe:customers.csv').returncode, 1)

    def test_no_path_says_what_the_log_cannot_show(self) -> None:
        done = run('-if', EXAMPLE, 'why', '/customers.csv', '/srv/evil/received.tar')
        self.assertEqual((done.returncode, done.stdout), (1, b''))
        self.assertIn(b'no path in this log from #47 /customers.csv', done.stderr)
        self.assertIn(b"can't show what came before or after", done.stderr)
        self.assertNotRegex(done.stderr, rb'\b(safe|clean)\b')

    def test_all_hides_nothing_and_the_rest_is_counted(self) -> None:
        few, all_, hidden = (asked(EXAMPLE, f'back x.sh {it}') for it in ('', '-a', '--hide /tmp/* --hide *:4444'))
        count = lambda text: len(re.findall(r'^  #\d+', text, re.M))
        self.assertEqual(count(all_), 20)
        self.assertEqual((count(few), few.splitlines()[-1]), (7, '13 common objects hidden; -a shows them'))
        self.assertEqual((count(hidden), hidden.splitlines()[-2:]), (6, ['13 common objects hidden; -a shows them', '1 object hidden by --hide']))

    def test_other_modes_answer_or_say_that_they_do_not(self) -> None:
        for mode in ('continuous', 'full', 'source'):
            done = run('-q', '-m', mode, '-if', EXAMPLE, 'back', '/tmp/x.sh', '--json')
            self.assertIn('/tmp/x.sh' if mode != 'source' else '127.0.0.1:4444', done.stdout.decode(), mode)
            for form in ((), ('--tree',)):
                lines = run('-q', '-m', mode, '-if', EXAMPLE, 'back', '/tmp/x.sh', *form).stdout.decode().splitlines()
                self.assertEqual('only sources are listed, since the mode is source' in lines, mode == 'source')
        for mode, want in (('plain', 0), ('continuous', 0), ('full', 1), ('source', 1)):
            text = run('-q', '-m', mode, '-if', EXAMPLE, 'show', '/tmp/x.sh').stdout.decode()
            self.assertEqual((text.count(f'  first and last not kept in mode {mode}\n'), text.count('first taken in')), (want, 1 - want))
        done = run('-q', '-m', 'source', '-if', EXAMPLE, 'fore', '/tmp/x.sh')
        self.assertEqual((done.returncode, done.stderr.decode()), (2, OF_THE_LOG + "autrail: mode source doesn't answer this; ask in the mode plain or continuous\n"))

    def test_a_time_cuts_the_answer(self) -> None:
        done = run('-q', '-if', EXAMPLE, 'back', '/tmp/x.sh', '--json', '--at', '2026-06-09T08:01:55.440')
        early = {json.loads(it)['id'] for it in done.stdout.splitlines()}
        self.assertIn(26, early)
        self.assertNotIn(36, early)
        # No progress either, since this isn't a terminal.
        self.assertEqual(done.stderr.decode(), OF_THE_LOG + 'autrail: flows up to 2026-06-09 08:01:55.440 UTC+0000\n')

    def test_late_events_of_the_samples_are_those_that_the_readme_tells(self) -> None:
        text = ' '.join((TOP / 'README.md').read_text().split())
        for log, told in ((EXAMPLE, '`examples/web1_sample.log` {late} of {events} events (4%) came after a later one'),
                          (TOP / 'examples' / 'web1_reads_writes.log', '`examples/web1_reads_writes.log` none of {events} events came late')):
            counts = json.loads(run('-q', '-if', log, 'stat', '--json').stdout)
            self.assertIn(told.format(**counts), text)
            self.assertEqual(counts['late'] == 0, 'none' in told)

    def test_sessions_of_the_documents_are_as_printed(self) -> None:
        order_must_be_built(self)
        folder = tempfile.mkdtemp(prefix='autrail-')
        self.addCleanup(shutil.rmtree, folder)
        text = (TOP / 'docs' / 'INVESTIGATING.md').read_text().replace('/tmp/web1.store', folder + '/web1.store')
        sessions = re.findall(r'^    \$ (autrail .*)\n((?:    (?!\$ ).*\n|\n(?=    (?!\$ )))*)', text, re.M)
        self.assertGreater(len(sessions), 5)
        for command, printed in sessions:
            with self.subTest(command):
                done = subprocess.run(['bash', '-c', f'{shlex.quote(str(AUTRAIL))} {command[8:]} 2>&1'], capture_output=True, env=environment(), cwd=TOP, check=False)
                want = ''.join(it[4:] + '\n' for it in printed.rstrip('\n').split('\n'))
                self.assertEqual(done.stdout.decode(), want)


HOSTILE = {'quote': b'/tmp/a"b', 'feed': b'/tmp/line\nfeed', 'escape': b'/tmp/\x1b[31mred\x1b]0;title\x07', 'c1': b'/tmp/\xc2\x9b1m', 'bytes': b'/tmp/\xff\xfe',
           'turned': '/tmp/\u202etxt.exe'.encode(), 'slash': b'/tmp/back\\slash', 'blank': b'/tmp/a b', 'angle': b'/tmp/<b>&', 'dollar': b'/tmp/#15'}


class Names(Scratch):
    """Names that nobody should send to a terminal."""

    def setUp(self) -> None:
        super().setUp()
        text = call(1, 59, exit=0, a0='0') + f'type=EXECVE msg=audit(1780992001.000:1): argc=2 a0="p" a1={HOSTILE["escape"].hex()}\n'
        for place, name in enumerate(HOSTILE.values()):
            text += opened_and(0, name.hex().upper(), 50 + place, 10 + 10 * place) + call(15 + 10 * place, 3, exit=0)
        text += opened_and(1, '"/tmp/out"', 90, 200, 'CREATE').replace('comm="p"', 'comm="\x1b[32m\x9b"')
        self.file = self.log(text)

    def test_nothing_raw_reaches_the_output(self) -> None:
        questions = ['back /tmp/out', 'back /tmp/out --tree', 'back /tmp/out --json', 'back /tmp/out --dot', 'find *', 'show *a* --each', 'show pid:100', 'stat',
                     'find nosuch', 'back *', 'why pid:100 /tmp/out --lines', 'why pid:100 /tmp/out --lines --json']
        done = run('-if', self.file, 'ask', stdin='\n'.join(questions))
        for text in (done.stdout, done.stderr):
            self.assertIsNone(RAW.search(text), RAW.search(text))
            self.assertNotIn('\u202e'.encode(), text)
        for want in ('/tmp/line\\nfeed', '/tmp/\\x1b[31mred\\x1b]0;title\\x07', '/tmp/\\x9b1m', '/tmp/\\u202etxt.exe', '/tmp/back\\\\slash', '/tmp/a"b', '/tmp/<b>&'):
            self.assertIn(want.encode(), done.stdout)

    def test_each_is_found_by_its_bytes(self) -> None:
        for name in (HOSTILE['feed'], HOSTILE['bytes'], HOSTILE['quote']):
            done = run('-q', '-if', self.file, 'find', name)
            self.assertEqual((done.returncode, done.stdout.count(b'\n')), (0, 1), name)

    def test_a_name_is_found_as_it_is_shown(self) -> None:
        """The prompt offers a name with bytes that aren't UTF-8 as it is shown, and whoever copies it types that."""
        shown = json.loads(run('-q', '-if', self.file, 'find', 'inode:08:01:54', '--json').stdout)
        self.assertEqual(shown['names'], [HOSTILE['bytes'].decode('utf-8', 'replace')])
        self.assertEqual(prompt.Completion(shown['names']).words('/tmp'), [shlex.quote(shown['names'][0])])
        for word in (*shown['names'], 'name:' + shown['names'][0], os.path.basename(shown['names'][0])):
            self.assertEqual(json.loads(run('-q', '-if', self.file, 'find', word, '--json').stdout), shown, word)

    def test_a_name_is_said_apart_from_a_number(self) -> None:
        done = run('-q', '-if', self.file, 'find', b'name:' + HOSTILE['dollar'])
        self.assertIn(b'/tmp/#15', done.stdout)

    def test_two_objects_of_one_name_are_told(self) -> None:
        text = opened_and(1, '"/tmp/x"', 7, 10, 'CREATE') + opened_and(1, '"/tmp/x"', 7, 20, 'CREATE', pid=200) + opened_and(1, '"/srv/x"', 8, 30, 'CREATE')
        log = self.log(text, 'two.log')
        done = run('-q', '-if', log, 'back', '/tmp/x')
        self.assertIn(b'/tmp/x is the name of 2 objects: ', done.stderr)
        self.assertIn(b'[200]', done.stdout)
        both = run('-q', '-if', log, 'back', '/tmp/x', '--each')
        self.assertEqual(both.stdout.count(b'can have come from'), 2)
        done = run('-q', '-if', log, 'back', '*/x')
        self.assertEqual(done.returncode, 2)
        self.assertIn(b'may mean 3 objects', done.stderr)
        self.assertEqual(done.stdout, b'')

    def test_of_many_objects_of_one_name_the_last_is_listed(self) -> None:
        """Each process gives the file a new life: the objects are #0 (process), #1 (file), #2, #3 and so on."""
        log = self.log(''.join(opened_and(1, '"/tmp/x"', 7, 10 * it, 'CREATE', pid=100 + it) for it in range(1, 11)), 'ten.log')
        done = run('-q', '-if', log, 'back', '/tmp/x')
        first = ', '.join(f'#{2 * it - 1} /tmp/x (file 08:01 7 {it})' for it in range(1, 8))
        self.assertEqual(done.stderr.decode(), f'{OF_THE_LOG}autrail: /tmp/x is the name of 10 objects: {first}, .., #19 /tmp/x (file 08:01 7 10); the last is taken, --each takes all\n')
        self.assertTrue(done.stdout.startswith(b'/tmp/x  #19  can have come from:'))

    def test_why_says_which_of_several_objects_it_takes(self) -> None:
        """Process 300 read the file before it was made anew, and process 400 read it after that."""
        text = opened_and(1, '"/tmp/x"', 7, 10, 'CREATE') + opened_and(0, '"/tmp/x"', 7, 13, pid=300)
        text += opened_and(1, '"/tmp/x"', 7, 20, 'CREATE', pid=200) + opened_and(0, '"/tmp/x"', 7, 30, pid=400)
        log = self.log(text, 'two.log')
        objects = 'autrail: /tmp/x is the name of 2 objects: #1 /tmp/x (file 08:01 7 1), #4 /tmp/x (file 08:01 7 2)\n'
        for reader, number, taken in ((300, 1, '#1 /tmp/x (file 08:01 7 1) and #2 p[300] (process 300 0) is taken, since 1 pair of later ones has no path'),
                                      (400, 4, '#4 /tmp/x (file 08:01 7 2) and #5 p[400] (process 400 0) is taken, the last ones')):
            done = run('-q', '-if', log, 'why', '/tmp/x', f'pid:{reader}', '--json')
            self.assertEqual((done.returncode, [json.loads(it)['from'] for it in done.stdout.splitlines()]), (0, [number]))
            self.assertEqual(done.stderr.decode(), f'{OF_THE_LOG}{objects}autrail: of 2 pairs of objects that of {taken}\n')
        done = run('-q', '-if', log, 'why', '/tmp/x', 'pid:200')
        self.assertEqual((done.returncode, done.stdout), (1, b''))
        self.assertIn(objects + 'autrail: no path in this log from each of #1 /tmp/x (file 08:01 7 1), #4 /tmp/x (file 08:01 7 2) to #3 p[200] (process 200 0)\n', done.stderr.decode())

    def test_completion_offers_names_that_the_prompt_takes(self) -> None:
        names = ['/tmp/a b', '/tmp/back\\slash', "/tmp/it's", '/tmp/plain', '/tmp/\x1b[31m', '/tmp/\u202etxt', '/tmp/\udcff', 'find me']
        for text, want in (('/tmp/a', ["'/tmp/a b'"]), ("'/tmp/a", ["'/tmp/a b'"]), ('/tmp/b', ["'/tmp/back\\slash'"]), ('/tmp/i', ['\'/tmp/it\'"\'"\'s\'']),
                           ('/tmp/p', ['/tmp/plain']), ('/tmp/\x1b', []), ('/tmp/\u202e', []), ('/tmp/\udcff', []), ('fi', ['find', "'find me'"]), ('nosuch', [])):
            offered = prompt.Completion(names + names)
            self.assertEqual([offered(text, it) for it in range(len(want) + 1)], [*want, None], text)
        self.assertEqual([shlex.split(it) for it in offered.words('/')], [[it] for it in names[:4]])

    def test_what_was_written_is_never_common(self) -> None:
        text = opened_and(1, '"/usr/lib/libc.so"', 7, 10) + call(15, 3, exit=0) + opened_and(0, '"/usr/lib/libc.so"', 7, 20, pid=200) + opened_and(0, '"/usr/lib/libm.so"', 8, 30, pid=200)
        text += opened_and(1, '"/tmp/o"', 9, 40, 'CREATE', pid=200)
        done = run('-q', '-if', self.log(text, 'lib.log'), 'back', '/tmp/o')
        self.assertIn(b'/usr/lib/libc.so', done.stdout)
        self.assertNotIn(b'/usr/lib/libm.so', done.stdout)
        self.assertIn(b'1 common object hidden; -a shows it', done.stdout)

    def test_what_comes_by_way_of_hidden_objects_stays(self) -> None:
        text = (opened_and(0, '"/tmp/in"', 7, 10) + opened_and(1, '"/opt/between"', 8, 20, 'CREATE')
                + opened_and(0, '"/opt/between"', 8, 30, pid=200) + opened_and(1, '"/tmp/out"', 9, 40, 'CREATE', pid=200))
        done = run('-q', '-if', self.log(text, 'way.log'), 'back', '/tmp/out', '--tree', '--hide', '/opt/*')
        self.assertIn('read  2026-06-09 08:00:31.000:31  p[100]  #1  (by way of 1 hidden object)', done.stdout.decode())
        self.assertIn(b'/tmp/in', done.stdout)


class Trees(Scratch):
    def test_a_long_chain_is_a_tree(self) -> None:
        text = ''.join(call(it, 57, pid=1000 + it, exit=1001 + it) for it in range(1, 1501))
        lines = asked(self.log(text), 'back pid:2501 --tree').splitlines()
        self.assertEqual(len([it for it in lines if ' fork  ' in it]), 1500)
        self.assertIn('p[1001]  #', lines[1500])

    def test_a_tree_of_too_many_paths_says_what_it_left_out(self) -> None:
        text = ''.join(opened_and(0, f'"/tmp/f{it}"', 50 + it, 10 * it) for it in range(1, 11))
        text += call(200, 41, exit=3) + call(201, 42) + 'type=SOCKADDR msg=audit(1780992201.000:201): saddr=02001F907F0000010000000000000000\n' + call(202, 0)
        text += opened_and(1, '"/tmp/out"', 9, 900, 'CREATE')
        lines = asked(self.log(text), 'back /tmp/out --tree --paths 3').splitlines()
        self.assertEqual([it.split()[-2] for it in lines if '─ read ' in it], ['127.0.0.1:8080', '/tmp/f2', '/tmp/f1'])
        self.assertIn('one path for each of 4 objects', lines)
        self.assertIn('8 objects of the answer left out, since 3 paths were asked for; --paths N asks for more', lines)

    def test_a_tree_out_of_many_objects_is_made_of_fewer_paths(self) -> None:
        self.assertEqual([trees.most_paths(it) for it in (1, 3000, 3001, 100000)], [300, 300, 50, 50])
        # Without --paths, and with a number that is more than that.
        for objects, words, want in ((300, '', 301), (302, '', 301), (302, '--paths 400', 303)):
            text = ''.join(opened_and(0, f'"/tmp/f{it}"', 50 + it, 10 * it) for it in range(1, objects + 1)) + opened_and(1, '"/tmp/out"', 9, 9000, 'CREATE')
            lines = asked(self.log(text), f'back /tmp/out --tree {words}').splitlines()
            self.assertIn(f'one path for each of {want} objects', lines)

    def test_times_along_each_branch_go_one_way(self) -> None:
        """Two objects reach the target over one process, which wrote it after each of them was read."""
        text = opened_and(0, '"/a"', 7, 10) + opened_and(1, '"/out"', 9, 20, 'CREATE') + call(22, 3, exit=0) + opened_and(0, '"/b"', 8, 30)
        text += call(35, 257, exit=4) + path(35, '"/out"', 9) + call(36, 1, a0='4')
        lines = asked(self.log(text), 'back /out --tree').splitlines()
        self.assertEqual(lines[1:4], ['└─ write 2026-06-09 08:00:36.000:36  p[100]  #1', '   ├─ read  2026-06-09 08:00:31.000:31  /b  #3',
                                      '   └─ read  2026-06-09 08:00:11.000:11  /a  #0'])


class Rotated(Scratch):
    """A log in parts, packed in several ways, in a folder whose name has a blank."""

    def parts(self, count: int) -> list[bytes]:
        lines = EXAMPLE.read_bytes().splitlines(keepends=True)
        return [b''.join(lines[len(lines) * it // count:len(lines) * (it + 1) // count]) for it in range(count)]

    def rotate(self, numbers: dict[int, str]) -> None:
        pack = {'': lambda it: it, '.gz': gzip.compress, '.xz': lzma.compress, '.bz2': bz2.compress}
        for part, (number, suffix) in zip(self.parts(7), sorted(numbers.items(), reverse=True)):
            (self.folder / f'audit.log{f".{number}" if number else ""}{suffix}').write_bytes(pack[suffix](part))

    def test_the_answers_are_those_over_one_file(self) -> None:
        self.rotate({12: '.xz', 11: '.gz', 10: '.bz2', 9: '.gz', 8: '', 7: '.xz', 0: ''})
        for number in (12, 11, 10, 9, 8, 7):
            file = next(self.folder.glob(f'audit.log.{number}*'))
            file.rename(str(file).replace(f'.log.{number}', f'.log.{number - 6}'))
        want = asked(EXAMPLE, 'back 127.0.0.1:4445 --json\nfore /customers.csv --tree\nstat --json\n')
        for word in (self.folder, self.folder / 'audit.log'):
            got = asked(word, 'back 127.0.0.1:4445 --json\nfore /customers.csv --tree\nstat --json\n')
            self.assertEqual(got.splitlines()[:-1], want.splitlines()[:-1])
            counts, wanted = (json.loads(it.splitlines()[-1]) for it in (got, want))
            self.assertEqual([Path(it).name for it in counts.pop('files')],
                             ['audit.log.6.xz', 'audit.log.5.gz', 'audit.log.4.bz2', 'audit.log.3.gz', 'audit.log.2', 'audit.log.1.xz', 'audit.log'])
            wanted.pop('files')
            self.assertEqual(counts, wanted)

    def test_files_named_apart_are_put_in_order(self) -> None:
        self.rotate({2: '', 1: '.gz', 0: ''})
        words = [it for name in ('audit.log.1.gz', 'audit.log', 'audit.log.2', 'audit.log.1.gz') for it in ('-if', self.folder / name)]
        files = json.loads(run('-q', *words, 'stat', '--json').stdout)['files']
        self.assertEqual([Path(it).name for it in files], ['audit.log.2', 'audit.log.1.gz', 'audit.log'])

    def test_missing_files_are_told(self) -> None:
        self.rotate({5: '.gz', 3: '', 1: '.xz', 0: ''})
        warnings = json.loads(run('-if', self.folder, 'stat', '--json').stdout)['warnings']
        self.assertTrue(any('are missing' in it and it.endswith('number 2, 4') for it in warnings), warnings)
        warnings = json.loads(run('-if', self.folder / 'audit.log.3', 'stat', '--json').stdout)['warnings']
        self.assertTrue(any('were not named: number 0 (the newest), 1, 5' in it for it in warnings), warnings)

    def test_a_file_alone_may_end_in_any_number(self) -> None:
        lone = self.folder / 'evidence.2026'
        lone.write_bytes(self.parts(7)[0])
        self.assertFalse(any('files of' in it for it in json.loads(run('-if', lone, 'stat', '--json').stdout)['warnings']))

    def test_a_file_that_is_there_twice_is_read_once(self) -> None:
        self.rotate({1: '.gz', 0: ''})
        (self.folder / 'audit.log.1').write_bytes(self.parts(7)[0])
        told = json.loads(run('-if', self.folder, 'stat', '--json').stdout)
        self.assertEqual([Path(it).name for it in told['files']], ['audit.log.1', 'audit.log'])
        self.assertTrue(any("audit.log.1.gz isn't" in it for it in told['warnings']), told['warnings'])

    def test_a_damaged_file_is_a_read_fault(self) -> None:
        (self.folder / 'audit.log.1.gz').write_bytes(gzip.compress(self.parts(7)[0])[:-20])
        (self.folder / 'audit.log').write_bytes(self.parts(7)[1])
        done = run('-if', self.folder, 'stat')
        self.assertEqual((done.returncode, done.stdout), (4, b''))
        self.assertIn(b'audit.log.1.gz', done.stderr)

    def test_a_log_that_is_rotated_while_it_is_asked(self) -> None:
        """auditd renames the files between their listing and their reading, or while somebody is at the prompt."""
        def rotate() -> None:
            for number in (2, 1, 0):
                (self.folder / f'audit.log{f".{number}" if number else ""}').rename(self.folder / f'audit.log.{number + 1}')
            (self.folder / 'audit.log').write_bytes(b'')

        for word in (self.folder, self.folder / 'audit.log'):
            self.rotate({2: '', 1: '', 0: ''})
            found = autrail_logs.logs_of([str(word)], contextlib.ExitStack())
            want = [(self.folder / it).read_bytes() for it in ('audit.log.2', 'audit.log.1', 'audit.log')]
            rotate()
            self.assertEqual([b''.join(autrail_logs.pieces(it)) for it in found.files], want)
            (self.folder / 'audit.log.3').unlink()
            with self.assertRaises(basics.Refused) as refused:
                b''.join(autrail_logs.pieces(found.files[0]))
            self.assertEqual((refused.exception.status, str(refused.exception)),
                             (4, f'{self.folder / "audit.log.2"}: the log was rotated meanwhile, and this file was packed or removed; ask again'))
            for file in self.folder.iterdir():
                file.unlink()

    def test_a_prompt_shows_lines_of_a_log_that_was_rotated_since(self) -> None:
        log = self.log(EXAMPLE.read_bytes())
        child = subprocess.Popen([AUTRAIL, '-q', '--no-order', '-if', log, 'ask'], stdin=subprocess.PIPE, stdout=subprocess.PIPE, stderr=subprocess.PIPE, env=environment())
        child.stdin.write(b'find /customers.csv\n')
        child.stdin.flush()
        child.stderr.readline()
        log.rename(self.folder / 'audit.log.1')
        log.write_bytes(b'')
        out, err = child.communicate(b'why /customers.csv /tmp/.loot.tar --lines\n', timeout=120)
        self.assertEqual((out.count(b'type=SYSCALL'), err), (2, b''))

    def test_standard_input_is_a_log(self) -> None:
        done = run('-q', '-if', '-', 'find', '/customers.csv', stdin=gzip.compress(EXAMPLE.read_bytes()), TMPDIR=str(self.folder))
        self.assertEqual((done.returncode, done.stdout), (0, b'#47     file     /customers.csv   file fe:00 19130 0\n'))
        self.assertFalse(list(self.folder.iterdir()))

    def test_a_pipe_is_a_log(self) -> None:
        command = f'{shlex.quote(str(AUTRAIL))} -q -if <(cat {shlex.quote(str(EXAMPLE))}) stat --json'
        done = subprocess.run(['bash', '-c', command], capture_output=True, env=environment(), check=False)
        self.assertEqual((json.loads(done.stdout)['lines'], json.loads(done.stdout)['malformed']), (1519, 0))


class Fitness(Scratch):
    """A warning before the answer says what a log isn't fit for."""

    def test_lines_with_a_blank_before_the_colon_are_read_too(self) -> None:
        """The program takes both forms of a header."""
        text = opened_and(0, '"/tmp/in"', 7, 10) + opened_and(1, '"/tmp/out"', 8, 20, 'CREATE') + call(30, 57, exit=101) + call(40, 59, exit=0)
        text += 'type=EXECVE msg=audit(1780992040.000:40): argc=1 a0="p"\n'
        questions = 'stat\nshow pid:100\nwhy /tmp/in /tmp/out\nwhy /tmp/in /tmp/out --lines\n'
        one, other = (asked(self.log(it), questions) for it in (text, text.replace('): ', ') : ')))
        self.assertEqual(other.replace(') : ', '): '), one)
        self.assertNotIn('warning', one)

    def test_each_fault_is_told(self) -> None:
        good = opened_and(0, '"/a"', 7, 1) + opened_and(1, '"/b"', 8, 3, 'CREATE') + call(5, 57, exit=101) + call(6, 59, exit=0)
        logs = {
            'interpreted': ('type=SYSCALL msg=audit(06/09/2026 08:01:53.180:655) : arch=x86_64 syscall=read\n' * 3, 'ausearch --raw'),
            'journal': ('Jun 09 08:01:53 web1 audit[423]: SYSCALL arch=c000003e syscall=0\n' * 3, 'journal or syslog'),
            'packed': (b'\x28\xb5\x2f\xfd\x04\x00\n\x00\n', 'packed by zstd'),
            'empty': ('', 'the log is empty'),
            'no reads': (good.replace('syscall=0 ', 'syscall=4 ').replace('syscall=1 ', 'syscall=4 '), 'no reads and no writes'),
            'hosts': (good.replace('type=', 'node=web1 type=') + call(9, 0, node='node=web2 '), 'lines of 2 hosts'),
            'machines': (good + call(9, 63, arch='c00000b7') + call(10, 3, arch='40000003'), '1 call of AArch64 isn\'t followed'),
            'gate': (good + call(10, 3, arch='40000003'), '1 call of the 32-bit gate (i386) isn\'t followed'),
            'far': (call(9, 0, at=2000000000) + good, 'the log goes back in time'),
            'future': (good + call(9, 0, at=33000000000), "more than a day ahead of this machine's clock"),
            'late': (call(9, 0) + 'type=EOE msg=audit(1780992009.000:9): \n' + good, 'came late'),
        }
        for name, (text, want) in logs.items():
            with self.subTest(name):
                done = run('-if', self.log(text, f'{name}.log'), 'find', '*')
                self.assertIn(want, done.stderr.decode())
                self.assertTrue(done.stderr.startswith(b'autrail: warning: '))
        self.assertEqual(json.loads(run('-if', self.log(good, 'good.log'), 'stat', '--json').stdout)['warnings'], [])

    def test_the_time_of_each_record_counts(self) -> None:
        """Also of records that aren't calls. The span that stat tells is still that of the calls."""
        good = opened_and(0, '"/a"', 7, 1) + opened_and(1, '"/b"', 8, 3, 'CREATE') + call(5, 57, exit=101) + call(6, 59, exit=0)
        for kind, rest in (('PATH', 'item=0 name="/far" inode=9 dev=08:01 nametype=NORMAL'), ('CWD', 'cwd="/"'), ('SOCKADDR', 'saddr=02001F907F000001'), ('EOE', ''),
                           ('USER_LOGIN', 'pid=1 uid=0')):
            far = f'node=web1 type={kind} msg=audit(33000000000.000:9): {rest}\n'
            for text, want in ((far + good, "the log goes back in time, from 3015-09-24 10:40:00.000 to 2026-06-09 08:00:01.000: if the first is a wrong time, later events may be torn, or have it in the answers"),
                               (good + far, "the log has the time 3015-09-24 10:40:00.000, more than a day ahead of this machine's clock")):
                told = json.loads(run('-if', self.log(text), 'stat', '--json').stdout)
                self.assertIn(want, told['warnings'], kind)
                self.assertEqual((told['least'], told['greatest']), (1780992001000, 1780992006000))

    def test_torn_events_are_told(self) -> None:
        """The event of serial 1 is released by that of serial 4, which is three seconds later, and its PATH comes after that."""
        end = 'type=EOE msg=audit(1780992004.000:4): \n'
        whole_log = self.log(call(1, 257) + path(1, '"/a"', 7) + call(4, 0) + end, 'whole.log')
        torn = self.log(call(1, 257) + call(4, 0) + end + path(1, '"/a"', 7), 'torn.log')
        store = self.folder / 'torn.store'
        reduced(torn, store)
        line = '           1  of them torn off others: records that came after their event was released, and are lost to it\n'
        for words, told in ((['-if', torn], 1), (['-if', whole_log], 0), (['--store', store], None), (['--store', store, '-if', torn], 1), (['--store', store, '-if', EXAMPLE], None)):
            counts = json.loads(run('-q', *words, 'stat', '--json').stdout)
            self.assertEqual((counts['events'], counts['torn']), (2 if told == 0 else 3, told))
            self.assertEqual(run('-q', *words, 'stat').stdout.decode().count(line), told or 0)

    def test_late_events_are_counted_and_told_above_two_percent(self) -> None:
        ended = lambda serial, at: call(serial, 0, at=at) + f'type=EOE msg=audit({at}.000:{serial}): \n'
        for late in (2, 3):
            text = ''.join(ended(it, 1780992000 + it) for it in range(1, 101 - late)) + ''.join(ended(200 + it, 1780992000) for it in range(late))
            lines_of_stat = run('-if', self.log(text), 'stat').stdout.decode().splitlines()
            self.assertIn(f'           {late}  of them late', lines_of_stat)
            self.assertEqual(f'warning: {late} of 100 events came late, so in the order of the log a path over them may be missing or have a later time' in lines_of_stat,
                             late == 3)

    def test_a_few_malformed_lines_are_no_warning(self) -> None:
        good = opened_and(0, '"/a"', 7, 1) + opened_and(1, '"/b"', 8, 3, 'CREATE') + call(5, 57, exit=101) + call(6, 59, exit=0)
        told = json.loads(run('-if', self.log(good + 'garbage\n'), 'stat', '--json').stdout)
        self.assertEqual((told['malformed'], told['warnings']), (1, []))

    def test_users_and_arguments_are_read_from_the_lines(self) -> None:
        text = call(1, 59, exit=0) + 'type=EXECVE msg=audit(1780992001.000:1): argc=3 a0="p" a1_len=4 a1[0]=6162 a1[1]=6364 a2="x"\n' + opened_and(1, '"/tmp/o"', 9, 10, 'CREATE')
        text += call(12, 231, exit=0) + opened_and(1, '"/tmp/o2"', 10, 20, 'CREATE')
        text = text.replace('exe="/usr/bin/p"', 'exe="/usr/bin/p"\x1dARCH=x86_64 SYSCALL=x AUID="alice" UID="bob" GID="bob"')
        said = [json.loads(it) for it in asked(self.log(text), 'show pid:100 --each --json').splitlines()]
        self.assertEqual([it['key'] for it in said], ['process 100 0', 'process 100 1'])
        first = said[0]['read_from_log']
        self.assertEqual((first['arguments'], first['auid'], first['uid'], first['session'], first['terminal']), ('p abcd x', '1000 (alice)', '1001 (bob)', '7', 'pts0'))
        self.assertNotIn('arguments', said[1]['read_from_log'])


def ran(serial: int, pid: int, argument: str, more: str = '') -> str:
    """A process runs a program with this argument."""
    return call(serial, 59, pid, exit=0, a0='0', more=more) + f'type=EXECVE msg=audit({1780992000 + serial}.000:{serial}): argc=1 a0="{argument}"\n'


class Lives(Scratch):
    """Lives of one process number. A process that a signal ended has no exit_group."""

    def said(self, text: str) -> list[tuple[str, str | None, str | None, str | None]]:
        shown = [json.loads(it) for it in asked(self.log(text), 'show pid:500 --each --json').splitlines()]
        return [(it['key'], *map(it.get('read_from_log', {}).get, ('arguments', 'last_call', 'note'))) for it in shown]

    def test_a_fork_ends_the_life_before_it(self) -> None:
        want = [('process 500 0', 'first', '2026-06-09 08:00:03.000', None), ('process 500 1', 'second', '2026-06-09 08:00:12.000', None)]
        for number, flags in ((57, '0'), (58, '0'), (56, '1200011'), (435, '7ffd0')):
            forks = [call(serial, number, exit=500, a0=flags) for serial in (1, 10)]
            self.assertEqual(self.said(forks[0] + ran(2, 500, 'first') + call(3, 0, 500) + forks[1] + ran(11, 500, 'second') + call(12, 0, 500)), want, number)

    def test_what_begins_no_life_of_the_number_ends_none(self) -> None:
        """A thread, a call that failed, one of another machine, a fork of another number, and a fork by the process itself."""
        begun = call(1, 57, exit=500) + ran(2, 500, 'first') + call(3, 0, 500)
        later = ran(11, 500, 'second') + call(12, 0, 500)
        for between in (call(10, 56, exit=500, a0='3d0f00'), call(10, 57, exit=500).replace('success=yes', 'success=no'), call(10, 57, exit=500, arch='40000003'),
                        call(10, 57, exit=501), call(10, 57, pid=500, exit=500)):
            reading = lines.Reading()
            reading.take((begun + between + later).encode())
            self.assertEqual((len(reading.lives[500]), reading.lives[500][0].several), (1, False), between)
            self.assertEqual(reading.arguments_of(reading.lives[500][0]), [['first'], ['second']])

    def test_a_life_that_the_program_takes_for_one_has_a_note(self) -> None:
        """Process 500 was there before the log, so the fork by its parent is taken for its own, although its lines are from before that."""
        text = ran(1, 500, 'first') + opened_and(1, '"/tmp/o"', 9, 2, 'CREATE', pid=500) + call(10, 57, pid=1, exit=500) + ran(11, 500, 'second')
        self.assertEqual(self.said(text), [('process 500 0', 'first ; then second', '2026-06-09 08:00:11.000', 'lines of several lives of this number')])

    def test_lines_before_that_of_their_vfork_are_told_apart_or_have_a_note(self) -> None:
        """The line of a vfork comes after the first lines of its child, or even after all of them."""
        first, second, note = call(1, 57, exit=500) + ran(2, 500, 'first'), ran(11, 500, 'second'), 'lines of several lives of this number'
        vfork, end, later = call(10, 58, exit=500), call(12, 231, 500), call(20, 57, exit=500) + ran(21, 500, 'third')
        mixed = ('process 500 0', 'first ; then second', '2026-06-09 08:00:11.000', note)
        self.assertEqual(self.said(first + second + vfork), [mixed, ('process 500 1', *mixed[1:])])
        mixed = (*mixed[:2], '2026-06-09 08:00:12.000', note)
        third = ('third', '2026-06-09 08:00:21.000', None)
        self.assertEqual(self.said(first + second + end + vfork + later), [mixed, ('process 500 1', None, None, None), ('process 500 2', *third)])
        self.assertEqual(self.said(first + call(3, 231, 500) + second + end + vfork + later),
                         [('process 500 0', 'first', '2026-06-09 08:00:03.000', None), ('process 500 1', 'second', '2026-06-09 08:00:12.000', None), ('process 500 2', *third)])

    def test_lives_are_those_of_the_plain_reading(self) -> None:
        """Of a log with many ends and starts bench/plain_reading.py tells the greatest number of a life that each process has."""
        log = self.log(subprocess.run([sys.executable, TOP / 'bench' / 'make_log.py', '1', '2000'], capture_output=True, check=True).stdout)
        script = ('import sys; sys.path.insert(0, "bench"); import plain_reading as it; engine = it.Engine("plain", it.MAPPED["all"]); '
                  'engine.feed(open(sys.argv[1], "rb").read()); engine.settle(); print(*[f"{key[1]}:{key[2]}" for key in engine.host.ids if key[0] == "process"])')
        told = subprocess.run([sys.executable, '-B', '-c', script, log], capture_output=True, text=True, cwd=TOP, check=True).stdout.split()
        last: dict[int, int] = {}
        for pid, number in (map(int, it.split(':')) for it in told):
            last[pid] = max(last.get(pid, 0), number)
        reading = lines.Reading()
        reading.take(log.read_bytes())
        self.assertGreater(sum(last.values()), 10)
        self.assertEqual({it: len(reading.lives[it]) - 1 for it in last}, last)

    def test_a_life_without_calls_has_no_lines(self) -> None:
        text = call(1, 57, exit=500) + call(5, 57, exit=500) + ran(6, 500, 'second')
        self.assertEqual(self.said(text), [('process 500 0', None, None, None), ('process 500 1', 'second', '2026-06-09 08:00:06.000', None)])


def reduced(log: Path, store: Path, mode: str = 'plain', *words: str) -> None:
    """Takes a log into a store."""
    subprocess.run([*shlex.split(PROGRAM), 'reduce', mode, log, store, *words], stdout=subprocess.DEVNULL, check=True)


def over_store(store: Path, *words: str | bytes | Path, **more: str) -> tuple[int, str, str]:
    """The status, the answer and the notes over a store."""
    done = run('--store', store, *words, **more)
    return done.returncode, done.stdout.decode(), done.stderr.decode()


WITHOUT_LINES = 'autrail: without arguments and users: a store has no lines of its own; name the log by -if beside --store\n'


class Stores(Scratch):
    """Answers over a store, with and without the log beside it."""

    def setUp(self) -> None:
        super().setUp()
        self.store = self.folder / 'host.store'

    def test_the_answers_are_those_over_the_log(self) -> None:
        reduced(EXAMPLE, self.store)
        for words in ('back 127.0.0.1:4445 --tree', 'fore customers.csv', 'why customers.csv 127.0.0.1:4445 --lines', 'find *received*', 'show pid:435',
                      'back x.sh --at 2026-06-09T08:01:55.440 --json', 'back x.sh --dot'):
            with self.subTest(words):
                # The caption of a graph says the order of a log, and a store has that in which its logs were taken.
                want = asked(EXAMPLE, words).replace('in the order of the log; ', '')
                self.assertEqual(over_store(self.store, '-q', '-if', EXAMPLE, *words.split())[:2], (0, want))
                self.assertEqual(run('-q', '--store', self.store, '-if', EXAMPLE, 'ask', stdin=words).stdout.decode(), want)

    def test_without_the_log_users_are_left_out_and_lines_are_refused(self) -> None:
        reduced(EXAMPLE, self.store)
        status, answer, said = over_store(self.store, 'back', '127.0.0.1:4445', '--tree')
        want = (HERE / 'expected' / 'port4445.txt').read_text()
        self.assertEqual((status, [it for it in answer.splitlines() if '#' in it]), (0, [it for it in want.splitlines() if re.search(r'#\d+$', it)]))
        self.assertTrue(said.endswith(WITHOUT_LINES), said)
        self.assertNotIn('uid=', answer)
        self.assertNotIn('processes', answer)
        groups = over_store(self.store, '-q', 'fore', 'customers.csv')
        self.assertEqual(groups, (0, '/customers.csv  #47  can have reached:\naddresses:\n  #49    127.0.0.1:4445\nfiles:\n  #45    /tmp/.loot.tar\n'
                                     'processes:\n  #39    tar[434]\n  #48    nc.openbsd[435]\n', ''))
        for words in (('--lines',), ('-i',)):
            self.assertEqual(over_store(self.store, '-q', 'why', 'customers.csv', '127.0.0.1:4445', *words),
                             (2, '', "autrail: --lines shows the log's lines, and a store has no lines of its own; name the log by -if beside --store\n"))

    def test_a_path_over_two_logs(self) -> None:
        """One process wrote a file in the first log. Another one read it in the second log, and wrote a second file."""
        first = self.log(opened_and(0, '"/in"', 7, 1) + opened_and(1, '"/tmp/a"', 8, 5), 'first.log')
        second = self.log(opened_and(0, '"/tmp/a"', 8, 20, pid=200) + opened_and(1, '"/tmp/b"', 9, 30, pid=200), 'second.log')
        for mode in ('plain', 'continuous', 'full', 'source'):
            store = self.folder / f'{mode}.store'
            reduced(first, store, mode)
            reduced(second, store, mode)
            path = [json.loads(it) for it in over_store(store, '-q', 'why', '/in', '/tmp/b', '--json')[1].splitlines()]
            self.assertEqual([(it['serial'], it['how'], it['from_label'], it['to_label']) for it in path],
                             [(2, 'read', '/in', 'p[100]'), (6, 'write', 'p[100]', '/tmp/a'), (21, 'read', '/tmp/a', 'p[200]'), (31, 'write', 'p[200]', '/tmp/b')])
        # The second log beside the store has the lines of two steps, and may have those of another life.
        done = run('-q', '--store', self.folder / 'plain.store', '-if', second, 'why', '/in', '/tmp/b', '--lines')
        self.assertEqual((done.returncode, done.stdout.count(b'type=SYSCALL'), done.stderr), (0, 2, b'autrail: the logs that were named have no lines for 2 steps\n'))
        self.assertIn('lines with this number, perhaps of another life', over_store(self.folder / 'plain.store', '-q', '-if', second, 'show', 'pid:200')[1])
        self.assertEqual(over_store(self.folder / 'source.store', '-q', 'fore', '/tmp/a'),
                         (2, '', "autrail: mode source doesn't answer this; ask in the mode plain or continuous\n"))

    def test_counts_and_what_the_store_cannot_show(self) -> None:
        reduced(EXAMPLE, self.store)
        status, answer, said = over_store(self.store, 'stat')
        self.assertEqual((status, answer.splitlines()[0]), (0, f'{self.store}: 524 events of 284,340 bytes of logs'))
        self.assertEqual(answer.splitlines()[-1], 'warning: 22 of 524 events came late, so a path over them may be missing or have a later time')
        counts = json.loads(over_store(self.store, 'stat', '--json')[1])
        self.assertEqual((counts['mode'], counts['lines'], counts['flows'], counts['files'], counts['least']), ('plain', 1519, 156, [], None))
        status, answer, said = over_store(self.store, '-q', 'why', 'customers.csv', '/srv/evil/received.tar')
        self.assertEqual((status, answer), (1, ''))
        self.assertIn('no path in this store from #47', said)
        self.assertIn("the store has 524 events of 284,340 bytes of logs; it can't show what came before or after", said)

    def test_progress_over_the_lines_beside_a_store_is_shown_at_a_terminal_alone(self) -> None:
        reduced(EXAMPLE, self.store)
        log = self.log(repeated(3 << 20))
        for more, want in (((), True), (('-q',), False)):
            ours, theirs = os.openpty()
            with open(ours, 'rb') as terminal:
                done = subprocess.run([AUTRAIL, '--store', self.store, '-if', log, *more, 'find', '/customers.csv'], stdout=subprocess.PIPE, stderr=theirs, env=environment(), check=False)
                os.write(theirs, b'end')
                os.close(theirs)
                said = os.read(terminal.fileno(), 100000)
            self.assertEqual((done.returncode, b'\r2 MB of the log read' in said, said.count(b'\r\x1b[K')), (0, want, want))
            self.assertNotIn(b'\r', done.stdout)
        self.assertNotIn(b'MB of the log', run('--store', self.store, '-if', log, 'find', '/customers.csv').stderr)

    def test_what_is_no_store_is_refused(self) -> None:
        reduced(EXAMPLE, self.store)
        later = bytearray(self.store.read_bytes())
        later[13] = 2
        empty, torn = b'', self.store.read_bytes()[:-20]
        cases = [(self.folder / 'none', 4, '"autrail keep STORE" makes one'), (self.folder, 7, 'a store is a regular file'),
                 (EXAMPLE, 7, "this isn't a store; a log is named by -if"), (self.log(empty, 'empty'), 7, 'the store has no batch yet'),
                 (self.log(b'\x5a', 'closed'), 7, 'the store has no batch yet'), (self.log(bytes(later), 'later'), 7, 'a store of a form'),
                 (self.log(torn, 'torn'), 7, 'the program says: audit_cli: bad store at 0')]
        for store, status, want in cases:
            with self.subTest(store.name):
                found = over_store(store, 'find', '*')
                self.assertEqual(found[:2], (status, ''), found)
                self.assertIn(want, found[2])
        done = run('-if', self.store, 'stat')
        self.assertEqual((done.returncode, done.stderr.decode()), (2, f'autrail: {self.store} is a store and not a log; name it by --store\n'))
        for words, want in ((('-m', 'plain', 'stat'), "-m doesn't stand beside --store"), (('--order', 'stat'), "--order doesn't stand beside --store")):
            self.assertIn(want, over_store(self.store, *words)[2])
        done = run('-q', '--store', self.store, 'ask', stdin='stat --store x\nfind /tmp/x.sh\n')
        self.assertEqual((done.returncode, done.stdout.count(b'\n'), done.stderr.count(b'stand before ask')), (0, 1, 1))

    def test_hostile_names_do_not_reach_a_terminal(self) -> None:
        text = ''.join(opened_and(0, name.hex().upper(), 50 + place, 10 + 10 * place) + call(15 + 10 * place, 3, exit=0) for place, name in enumerate(HOSTILE.values()))
        log = self.log(text + opened_and(1, '"/tmp/out"', 90, 200, 'CREATE'))
        store = self.folder / 'a\x1b[31m\nstore'
        reduced(log, store)
        for words in ('back /tmp/out', 'back /tmp/out --tree', 'back /tmp/out --json', 'back /tmp/out --dot', 'find *', 'show *a* --each', 'stat', 'find nosuch', 'why pid:100 /tmp/out --lines'):
            found = run('--store', store, *words.split())
            for text in (found.stdout, found.stderr):
                self.assertIsNone(RAW.search(text), (words, RAW.search(text)))
                self.assertNotIn('\u202e'.encode(), text)
        for name in (HOSTILE['feed'], HOSTILE['bytes'], HOSTILE['quote']):
            self.assertEqual(over_store(store, '-q', 'find', name)[1].count('\n'), 1, name)
        self.assertIn('a\\x1b[31m\\nstore: no such store', over_store(self.folder / 'a\x1b[31m\nstore' / '..' / 'b' / 'a\x1b[31m\nstore', 'stat')[2])


def lines_of(*events: tuple[int, str]) -> bytes:
    """Lines of events, each with a time in milliseconds and the kinds of its records, in the order in which they are written."""
    return b''.join(f'type={kind} msg=audit({at // 1000}.{at % 1000:03}:{at}): x=1\n'.encode() for at, kinds in events for kind in kinds.split())


class Whole(unittest.TestCase):
    """What is handed to the program: whole events alone, by the rule that the program joins them by."""

    def whole(self, lines: bytes, quiet: bool = False) -> int:
        with tempfile.TemporaryFile() as file:
            file.write(lines)
            return whole.whole_of(file, len(lines), quiet)

    def test_an_event_waits_for_its_end(self) -> None:
        ended, torn, later = lines_of((1000, 'SYSCALL PATH PROCTITLE')), lines_of((1001, 'SYSCALL PATH')), lines_of((3002, 'SYSCALL EOE'))
        cases = [(b'', 0), (b'type=SYSC', 0), (ended, len(ended)), (ended[:-1], 0), (ended + torn, len(ended)), (torn, 0), (torn + ended, 0),
                 (ended + torn + later, len(ended + torn + later)), (ended + b'half a line', len(ended)), (b'garbage\n' + ended + b'\n', len(ended) + 9),
                 (ended + lines_of((1001, 'USER_LOGIN')), len(ended + lines_of((1001, 'USER_LOGIN')))), (ended + ended[:ended.index(b'\n') + 1], len(ended))]
        for lines, want in cases:
            with self.subTest(lines):
                self.assertEqual(self.whole(lines), want)
        self.assertEqual(self.whole(ended + torn, True), len(ended + torn))
        self.assertEqual(self.whole(ended + torn[:-1], True), len(ended) + torn.index(b'\n') + 1)

    def test_two_seconds_apart_are_not_yet_later(self) -> None:
        """An event whose last record didn't come waits for a record that is more than two seconds later."""
        for later, want in ((3000, 0), (3001, 1)):
            lines = lines_of((1000, 'SYSCALL'), (later, 'SYSCALL EOE'))
            self.assertEqual(self.whole(lines), want * len(lines))

    def test_events_that_interleave_are_not_torn(self) -> None:
        first = lines_of((1000, 'SYSCALL EOE'))
        lines = first + lines_of((1001, 'SYSCALL'), (1002, 'SYSCALL'), (1001, 'EOE'), (1003, 'SYSCALL'), (1002, 'EOE'))
        self.assertEqual(self.whole(lines), len(first))
        self.assertEqual(self.whole(lines + lines_of((1003, 'EOE'))), len(lines + lines_of((1003, 'EOE'))))

    def test_a_later_record_must_stand_before_the_end(self) -> None:
        """The first event is released by the record of the third, which waits itself. So the portion ends before all three."""
        before = lines_of((500, 'SYSCALL EOE'))
        self.assertEqual(self.whole(before + lines_of((1000, 'SYSCALL'), (999, 'SYSCALL'), (3001, 'SYSCALL'), (1000, 'PROCTITLE'), (999, 'PROCTITLE'))), len(before))

    def test_the_end_of_a_long_portion_is_looked_at_as_far_back_as_needed(self) -> None:
        """A torn event begins further back than a window, and then than two."""
        before, torn = lines_of(*((it, 'SYSCALL EOE') for it in range(1000, 1100))), lines_of((4000, 'SYSCALL'))
        for count in (10, 1999):
            with tempfile.TemporaryFile() as file:
                file.write(before + torn + lines_of(*((4001 + it, 'SYSCALL EOE') for it in range(count))))
                with unittest.mock.patch.object(whole, 'WINDOW', 4096):
                    self.assertEqual(whole.whole_of(file, file.tell(), False), len(before))

    def test_no_more_is_looked_at_than_may_wait_in_the_program(self) -> None:
        """Events without an end at one time: the program would have released the oldest of them."""
        lines = lines_of(*((4000 + it // 10, 'PATH') for it in range(2000)))
        with unittest.mock.patch.object(whole, 'WINDOW', 4096), unittest.mock.patch.object(whole, 'WIDEST', 16384):
            cut = self.whole(lines + b'half a line')
            self.assertTrue(len(lines) - 16384 < cut < len(lines))
            self.assertEqual(lines[cut - 1:cut], b'\n')


class Writer:
    """Writes a log in a folder as auditd does, in pieces that end anywhere, and renames its files when they are long."""

    def __init__(self, folder: Path, text: bytes, longest: int) -> None:
        self.folder, self.text, self.longest, self.written = folder, text, longest, 0

    def write(self, count: int) -> None:
        log = self.folder / 'audit.log'
        if log.exists() and log.stat().st_size > self.longest:
            # Files are renamed between two lines alone.
            self.append(log, self.text.find(b'\n', self.written - 1) + 1 or len(self.text))
            self.rotate()
        self.append(log, self.written + count)

    def append(self, log: Path, end: int) -> None:
        with open(log, 'ab') as file:
            file.write(self.text[self.written:end])
        self.written = max(self.written, end)

    def rotate(self) -> None:
        for number in range(len(list(self.folder.glob('audit.log*'))) - 1, 0, -1):
            os.rename(self.folder / f'audit.log.{number}', self.folder / f'audit.log.{number + 1}')
        os.rename(self.folder / 'audit.log', self.folder / 'audit.log.1')

    def end(self) -> None:
        """Writes the rest, and lets a minute pass."""
        self.write(len(self.text))
        os.utime(self.folder / 'audit.log', times=(time.time() - 60,) * 2)


# autrail, which kills itself before or after its call of that number among those that change what is on the disk or start the program.
KILLS_ITSELF = """
import os, signal, sys
sys.path.insert(0, sys.argv[1])
from autrail import keep, main, programs
calls, last, after = 0, int(sys.argv[2]), sys.argv[3] == 'after'

def counted(call):
    def counting(*words, **more):
        global calls
        calls += 1
        if calls == last and not after:
            os.kill(os.getpid(), signal.SIGKILL)
        result = call(*words, **more)
        if calls == last:
            os.kill(os.getpid(), signal.SIGKILL)
        return result
    return counting

for name in ('fsync', 'replace', 'unlink'):
    setattr(os, name, counted(getattr(os, name)))
keep.started = programs.started = counted(programs.started)
sys.argv[:] = ['autrail', *sys.argv[4:]]
sys.exit(main.main())
"""


class Keeps(Scratch):
    """A store that is kept up to date with a log."""

    def setUp(self) -> None:
        super().setUp()
        self.logs, self.store = self.folder / 'audit logs', self.folder / 'host.store'
        self.logs.mkdir()

    def keep(self, *words: str | Path, **more: str) -> tuple[int, str, str]:
        done = run('keep', self.store, '-if', self.logs, *words, **more)
        return done.returncode, done.stdout.decode(), done.stderr.decode()

    def kept(self) -> dict:
        status, answer, said = self.keep('--json')
        self.assertEqual((status, said), (0, ''))
        return json.loads(answer)

    def put(self, name: str, data: bytes, age: int = 60) -> Path:
        file = self.logs / name
        file.write_bytes(data)
        os.utime(file, times=(time.time() - age,) * 2)
        return file

    def replies(self, words: list[str | Path], before: str = '') -> list[bytes]:
        questions = before + 'stat\n' + ''.join(f'{way} {of}\n' for of in range(0, 120, 7) for way in ('back', 'fore', 'show'))
        return subprocess.run([*shlex.split(PROGRAM), *words], input=questions.encode(), stdout=subprocess.PIPE, check=True).stdout.splitlines()

    def must_have(self, text: bytes, mode: str = 'plain') -> None:
        """The store answers as one run of the program over the whole log."""
        want = self.replies(['watch', mode, self.log(text, 'whole.log')], 'take 1000000000\nsettle\n')[2:]
        self.assertEqual(self.replies(['query', self.store]), want)

    def test_a_writer_that_renames_its_files(self) -> None:
        text = repeated(900000)
        writer, steps = Writer(self.logs, text, 150000), random.Random(1)
        while writer.written < len(text):
            writer.write(steps.choice((1, 500, 40000, 90000)))
            status, _, said = self.keep('-m', 'continuous')
            self.assertEqual((status, said), (0, ''))
        writer.end()
        last = self.kept()
        self.assertEqual((last['bytes'], last['waiting'], last['gaps'], last['unseen']), (len(text), 0, [], []))
        self.assertEqual(last['stat'], json.loads(self.replies(['query', self.store])[0]))
        self.assertEqual(last['warnings'], json.loads(run('--store', self.store, 'stat', '--json').stdout)['warnings'])
        self.assertEqual(last['size'], self.store.stat().st_size)
        self.must_have(text, 'continuous')
        self.assertGreater(len(list(self.logs.iterdir())), 4)
        self.assertEqual(self.kept()['taken'], 0)
        self.assertEqual({it.name for it in self.folder.glob('host.store*')}, {'host.store', 'host.store.lock', 'host.store.state'})
        self.assertEqual({it.stat().st_mode & 0o77 for it in self.folder.glob('host.store*')}, {0})

    def test_a_log_whose_events_interleave_come_late_and_are_broken(self) -> None:
        """Whatever portions it is taken in, the store answers as one run, also which events were late."""
        text = subprocess.run([sys.executable, TOP / 'bench' / 'make_log.py', '1', '4000', '--mix'], capture_output=True, check=True).stdout
        writer, steps, portions = Writer(self.logs, text, 400000), random.Random(1), 0
        while writer.written < len(text):
            writer.write(steps.choice((3000, 70000, 120000)))
            portions += self.kept()['taken'] > 0
        writer.end()
        self.kept()
        self.assertGreater(portions, 1)
        self.must_have(text)

    def test_a_writer_at_the_same_time(self) -> None:
        text = repeated(900000)
        writer = Writer(self.logs, text, 100000)
        writer.write(1000)

        def write() -> None:
            while writer.written < len(text):
                writer.write(3000)
                time.sleep(0.01)

        thread = threading.Thread(target=write)
        thread.start()
        while thread.is_alive():
            self.assertEqual(self.keep()[0::2], (0, ''))
        thread.join()
        writer.end()
        self.assertEqual(self.kept()['bytes'], len(text))
        self.must_have(text)

    def test_runs_that_are_killed_lose_nothing(self) -> None:
        """Some are killed with the program that they started, and others without it."""
        text = repeated(600000 + 20000 * KILLS)
        writer, moments = Writer(self.logs, text, 200000), random.Random(2)
        begun = time.monotonic()
        writer.write(60000)
        self.assertEqual(self.keep()[0], 0)
        took, killed = time.monotonic() - begun, 0
        while killed < KILLS:
            writer.write(moments.choice((700, 20000, 60000)) if writer.written < len(text) - 60000 else 0)
            killed += self.killed(moments.random() * took, moments.random() < 0.5)
        writer.end()
        self.wait_for_lock_alone()
        self.assertEqual(self.kept()['bytes'], len(text))
        self.must_have(text)

    def test_runs_that_are_killed_at_each_step(self) -> None:
        """Before and after each call that changes the disk or starts the program, in the first run of a store and in a later one."""
        script = self.log(KILLS_ITSELF, 'kills itself')
        text = repeated(400000)
        middle = text.index(b'\n', 250000) + 1
        for before, after in itertools.product((b'', text[:middle]), ('before', 'after')):
            steps, status = 0, -signal.SIGKILL
            while status == -signal.SIGKILL:
                steps += 1
                for file in self.folder.glob('host.store*'):
                    file.unlink()
                if before:
                    self.put('audit.log', before)
                    self.assertEqual(self.keep()[0], 0)
                self.put('audit.log', text)
                words = [sys.executable, script, PACKAGE, str(steps), after, 'keep', self.store, '-if', self.logs]
                status = subprocess.run(words, stdout=subprocess.DEVNULL, env=environment(), check=False).returncode
                self.wait_for_lock_alone()
                with self.subTest(before=len(before), after=after, steps=steps):
                    self.assertEqual(self.kept()['bytes'], len(text))
                    self.must_have(text)
            self.assertEqual(status, 0)
            # The portion, twice the state with its folder, the program, and the portion's end.
            self.assertGreater(steps, 8)

    def start(self) -> subprocess.Popen[bytes]:
        return subprocess.Popen([AUTRAIL, 'keep', self.store, '-if', self.logs], stdout=subprocess.DEVNULL, stderr=subprocess.DEVNULL, env=environment())

    def killed(self, after: float, with_program: bool) -> bool:
        """Starts a run and kills it; whether it was at work then."""
        child = self.start()
        time.sleep(after)
        return self.kill(child, with_program)

    def kill(self, child: subprocess.Popen[bytes], with_program: bool) -> bool:
        try:
            programs = Path(f'/proc/{child.pid}/task/{child.pid}/children').read_text().split() if with_program else []
        except OSError:
            programs = []
        child.kill()
        for pid in programs:
            with contextlib.suppress(ProcessLookupError):
                os.kill(int(pid), signal.SIGKILL)
        return child.wait() < 0

    def test_a_portion_of_which_a_part_was_taken_goes_on(self) -> None:
        """The program is killed after its first commit, which comes after 4 MiB of the log."""
        text = repeated(9 << 20)
        self.put('audit.log', text)
        for _ in range(20):
            child = self.start()
            while child.poll() is None and not (self.store.exists() and self.store.read_bytes()[:1] == b'\xa5'):
                time.sleep(0.001)
            if self.kill(child, True):
                break
            for file in self.folder.glob('host.store*'):
                file.unlink()
        self.wait_for_lock_alone()
        there = json.loads(self.replies(['query', self.store])[0])['bytes']
        self.assertTrue(4 << 20 <= there < len(text), there)
        self.assertEqual(json.loads((self.folder / 'host.store.state').read_text())['coming']['bytes'], len(text))
        self.assertEqual(self.kept()['bytes'], len(text))
        self.must_have(text)

    def wait_for_lock_alone(self) -> None:
        """A program whose run was killed may still be at work, and holds the lock of the store."""
        with open(self.folder / 'host.store.lock', 'rb') as lock:
            fcntl.flock(lock, fcntl.LOCK_EX)

    def test_files_that_are_renamed_packed_and_copied_are_known(self) -> None:
        lines = repeated(400000).splitlines(keepends=True)
        parts = [b''.join(lines[len(lines) * it // 4:len(lines) * (it + 1) // 4]) for it in range(4)]
        self.put('audit.log', parts[0] + parts[1][:5000])
        self.keep()
        os.unlink(self.logs / 'audit.log')
        self.put('audit.log.2.gz', gzip.compress(parts[0] + parts[1]))
        self.put('audit.log.1.xz', lzma.compress(parts[2]))
        self.put('audit.log', parts[3])
        self.assertEqual(self.kept()['bytes'], len(b''.join(parts)))
        shutil.rmtree(self.logs)
        self.logs.mkdir()
        self.put('audit.log.1', parts[3])
        self.assertEqual(self.kept()['taken'], 0)
        self.must_have(b''.join(parts))

    def test_a_file_that_does_not_end_in_a_line_feed(self) -> None:
        first, second = lines_of((1000, 'SYSCALL EOE')), lines_of((9000, 'SYSCALL EOE'))
        self.put('audit.log.1', first[:-1])
        self.put('audit.log', second)
        self.assertEqual((self.kept()['bytes'], self.kept()['taken']), (len(first + second), 0))
        self.must_have(first + second)

    def test_a_missing_file_is_told_and_nothing_taken(self) -> None:
        parts = [call(serial, 0).encode() + call(serial + 1, 3).encode() for serial in (1, 11, 21, 31, 41)]
        self.put('audit.log', parts[0])
        self.assertEqual(self.kept()['last'], '1780992002.000:2')
        os.unlink(self.logs / 'audit.log')
        self.put('audit.log.3', parts[2])
        self.put('audit.log.1', parts[3])
        self.put('audit.log', parts[4])
        before = (self.folder / 'host.store.state').read_bytes()
        status, answer, said = self.keep()
        self.assertEqual((status, answer), (4, ''))
        self.assertEqual(said, 'autrail: files of the log are missing: between 2026-06-09 08:00:02.000 (serial 2) and 2026-06-09 08:00:21.000 (serial 21)\n'
                               'files of the log are missing: between 2026-06-09 08:00:22.000 (serial 22) and 2026-06-09 08:00:31.000 (serial 31)\n'
                               '  nothing was taken; put the files back, or take what is there by --over-gap\n')
        self.assertEqual((self.folder / 'host.store.state').read_bytes(), before)
        self.assertEqual(self.keep('--over-gap')[0], 0)
        self.assertEqual(self.kept()['gaps'], [['1780992002.000:2', '1780992021.000:21'], ['1780992022.000:22', '1780992031.000:31']])
        self.must_have(parts[0] + b''.join(parts[2:]))
        warnings = json.loads(run('--store', self.store, 'stat', '--json').stdout)['warnings']
        self.assertEqual([it.split(':')[0] for it in warnings], ['files of the log are missing'] * 2 + ['the log has no writes and no opens and no starts of processes and no starts of programs, so paths over them are missing'])
        self.assertIn('4 events of', run('--store', self.store, 'stat').stdout.decode().splitlines()[0].replace('8 events', '4 events'))

    def warnings(self, *told: str) -> None:
        """These, and no others, are the warnings of keep and of stat over the store."""
        self.assertEqual(self.kept()['warnings'], list(told))
        self.assertEqual(json.loads(run('--store', self.store, 'stat', '--json').stdout)['warnings'], list(told))

    def test_hosts_machines_and_times_are_noted(self) -> None:
        """Over two portions, of which each has lines of another host and another machine. The far time is that of a record that is no call."""
        first = opened_and(0, '"/a"', 7, 1) + opened_and(1, '"/b"', 8, 3, 'CREATE') + call(5, 57, exit=101) + call(6, 59, exit=0)
        second = call(9, 63, arch='c00000b7', node='node=web1 ') + 'type=CWD msg=audit(33000000000.000:10): cwd="/"\n'
        third = call(21, 63, arch='c00000b7', node='node=web\x9b ') + call(22, 3, arch='40000003')
        self.put('audit.log', first.encode('latin1'))
        self.warnings()
        self.put('audit.log', (first + second).encode('latin1'))
        hosts = 'the log has lines of {} hosts, and their process and file numbers are mixed up: ask about each host\'s log apart ({})'
        self.warnings("1 call of AArch64 isn't followed", "the log has the time 3015-09-24 10:40:00.000, more than a day ahead of this machine's clock",
                      hosts.format(2, 'no name, web1'))
        self.put('audit.log', (first + second + third).encode('latin1'))
        self.assertEqual([it for it in self.kept()['warnings'] if 'came late' not in it],
                         ["1 call of the 32-bit gate (i386) isn't followed", "2 calls of AArch64 aren't followed",
                          'the log goes back in time, from 3015-09-24 10:40:00.000 to 2026-06-09 08:00:21.000: if the first is a wrong time, later events may be torn, or have it in the answers',
                          hosts.format(3, 'no name, web1, web\\udc9b')])
        # Lines beside the store say the same, once.
        beside = json.loads(run('--store', self.store, '-if', self.logs, 'stat', '--json').stdout)['warnings']
        self.assertEqual(sorted(beside), sorted(self.kept()['warnings']))

    def test_signs_are_those_of_each_line(self) -> None:
        """Whatever stands in the text of a line. The bytes of a portion come after what was read before."""
        for text, want in (('type=EOE msg=audit(9.000:1): \n', signs.Signs(('a',), {'x': 2}, 9000)), ('', signs.Signs(('a',), {'x': 2}, 5000)),
                           ('type=CWD msg=audit(6.000:1): msg=audit(7.000:1): \ntype=CWD msg=audit(7.000:1): cwd="/"\n', signs.Signs(('a',), {'x': 2}, 7000)),
                           ('x type=CWD msg=audit(6.000:1): \n\ngarbage\n', signs.Signs(('a',), {'x': 2}, 5000)),
                           (call(1, 0, at=6, arch='x', node='node=b ') + call(1, 0, at=6) + call(1, 0, at=6), signs.Signs(('', 'a', 'b'), {'c000003e': 2, 'x': 3}, 6000)),
                           ('type=SECCOMP msg=audit(6.000:1): arch=y syscall=1\n', signs.Signs(('a',), {'x': 2}, 6000)),
                           (call(1, 0, at=9000, arch='x') + call(2, 0, at=5400, arch='x'), signs.Signs(('', 'a'), {'x': 4}, 9000000)),
                           (call(1, 0, at=9000, arch='x') + call(2, 0, at=5399, arch='x') + call(3, 0, at=9, arch='x'), signs.Signs(('', 'a'), {'x': 5}, 9000000, (9000000, 9000)))):
            self.assertEqual(signs.signs_of(str(self.log(text)), signs.Signs(('a',), {'x': 2}, 5000)), want, text)

    def test_rules_are_asked_for_unless_only_other_machines_were_seen(self) -> None:
        load = 'the log has no reads and no writes and no opens and no starts of processes and no starts of programs, so paths over them are missing: load the rules that "autrail rules" prints'
        self.put('audit.log', lines_of((1000, 'USER_LOGIN')))
        self.warnings(load)
        self.put('audit.log', lines_of((1000, 'USER_LOGIN')) + (call(1, 63, arch='c00000b7') + call(2, 64, arch='c00000b7')).encode())
        self.warnings("2 calls of AArch64 aren't followed")
        self.put('audit.log', lines_of((1000, 'USER_LOGIN')) + (call(1, 63, arch='c00000b7') + call(2, 64, arch='c00000b7') + call(3, 3)).encode())
        self.warnings(load, "2 calls of AArch64 aren't followed")

    def test_a_state_of_an_earlier_version_is_read(self) -> None:
        self.put('audit.log', call(1, 63, arch='c00000b7').encode())
        self.kept()
        state = self.folder / 'host.store.state'
        said = json.loads(state.read_text())
        del said['taken']['signs']
        state.write_text(json.dumps(said))
        self.put('audit.log', (call(1, 63, arch='c00000b7') + call(2, 63, arch='c00000b7')).encode())
        self.assertEqual(self.kept()['warnings'][-1], "1 call of AArch64 isn't followed")

    def test_a_run_waits_for_another_one(self) -> None:
        self.put('audit.log', repeated(1000))
        self.keep()
        before = (self.folder / 'host.store.state').read_bytes()
        self.put('audit.log', repeated(400000))
        with open(self.folder / 'host.store.lock', 'rb') as lock:
            fcntl.flock(lock, fcntl.LOCK_EX)
            child = subprocess.Popen([AUTRAIL, 'keep', self.store, '-if', self.logs, '--wait', '--json'], stdout=subprocess.PIPE, stderr=subprocess.PIPE, env=environment())
            for _ in range(100):
                if re.search(rf'-> FLOCK .* {child.pid} ', Path('/proc/locks').read_text()):
                    break
                time.sleep(0.05)
            self.assertIsNone(child.poll())
            self.assertEqual((self.folder / 'host.store.state').read_bytes(), before)
        out, err = child.communicate(timeout=60)
        self.assertEqual((child.returncode, err, json.loads(out)['bytes']), (0, b'', len(repeated(400000))))

    def test_a_portion_is_taken_although_its_files_are_gone(self) -> None:
        """The program is stopped at each of its calls; what it was to take stands beside the store."""
        text = repeated(300000)
        self.put('audit.log', text)
        for program in ("sh -c 'exit 6'", "sh -c 'kill -9 $$'"):
            self.assertIn(self.keep(AUDIT_CLI=program)[0], (6, 137))
        os.unlink(self.logs / 'audit.log')
        self.put('audit.log', lines_of((4000000000000, 'SYSCALL EOE')))
        self.assertEqual(self.keep()[0], 4)
        taken = json.loads((self.folder / 'host.store.state').read_text())['taken']
        self.assertEqual((taken['bytes'], taken['signs']['machines']), (len(text), {'c000003e': text.count(b'type=SYSCALL ')}))
        self.must_have(text)

    def with_small_portions(self) -> Path:
        """A copy of autrail that takes a log in small portions."""
        small = copy_of_autrail(self.folder / 'small')
        for module, large, little in (('portions', 'PORTION = 1 << 28', 'PORTION = 70000'), ('whole', 'WINDOW = 1 << 20', 'WINDOW = 8192')):
            file = small.parent / 'lib' / 'autrail' / f'{module}.py'
            text = file.read_text()
            self.assertEqual(text.count(large), 1)
            file.write_text(text.replace(large, little))
        return small

    def test_progress_is_shown_at_a_terminal_alone(self) -> None:
        small = self.with_small_portions()
        self.put('audit.log', repeated(3 << 20))
        for more, want in (((), True), (('-q',), False)):
            ours, theirs = os.openpty()
            with open(ours, 'rb') as terminal:
                done = subprocess.run([small, 'keep', self.folder / f'{want}.store', '-if', self.logs, *more], stdout=subprocess.PIPE, stderr=theirs, env=environment(), check=False)
                os.write(theirs, b'end')
                os.close(theirs)
                self.assertEqual((done.returncode, b' MB of the log taken' in os.read(terminal.fileno(), 100000)), (0, want))
                self.assertNotIn(b'\r', done.stdout)

    def test_a_long_log_is_taken_in_portions(self) -> None:
        """Each portion ends between two events."""
        small = self.with_small_portions()
        text = repeated(500000)
        self.put('audit.log.1.bz2', bz2.compress(text[:text.index(b'\n', 250000) + 1]))
        self.put('audit.log', text[text.index(b'\n', 250000) + 1:])
        done = subprocess.run([small, 'keep', self.store, '-if', self.logs], capture_output=True, env=environment(), check=False)
        self.assertEqual((done.returncode, done.stderr), (0, b''))
        self.must_have(text)

    def test_a_store_is_begun_after_another_one(self) -> None:
        first, second, third = (call(serial, 0).encode() + call(serial + 1, 3).encode() for serial in (1, 11, 21))
        self.put('audit.log', first)
        self.assertEqual(self.keep('-m', 'full')[0], 0)
        self.put('audit.log', first + second)
        other = self.folder / 'other.store'
        words = ('keep', other, '-if', self.logs, '--after', self.store, '--json')
        told = json.loads(run(*words).stdout)
        self.assertEqual((told['bytes'], told['first'], told['mode']), (len(second), '1780992011.000:11', 'full'))
        # From then on it is kept as any other one.
        self.put('audit.log', first + second + third)
        told = json.loads(run(*words).stdout)
        self.assertEqual((told['taken'], told['bytes']), (len(third), len(second + third)))
        self.store = other
        self.must_have(second + third, 'full')
        os.unlink(self.logs / 'audit.log')
        self.put('audit.log', third)
        self.assertEqual(run('keep', self.folder / 'last.store', '-if', self.logs, '--after', self.folder / 'host.store').returncode, 4)
        self.assertEqual(run('keep', self.folder / 'last.store', '-if', self.logs, '--after', EXAMPLE).returncode, 2)

    def test_a_store_is_begun_although_nothing_is_new(self) -> None:
        """What comes later belongs to it, also if the other store goes on."""
        first, second = (call(serial, 0).encode() + call(serial + 1, 3).encode() for serial in (1, 11))
        self.put('audit.log', first)
        self.keep()
        words = ('keep', self.folder / 'next.store', '-if', self.logs, '--json')
        self.assertEqual(json.loads(run(*words, '--after', self.store).stdout)['taken'], 0)
        self.put('audit.log', first + second)
        self.assertEqual(self.kept()['bytes'], len(first + second))
        self.assertEqual(json.loads(run(*words, '--after', self.store).stdout)['taken'], len(second))

    def test_what_it_writes_follows_no_link(self) -> None:
        self.put('audit.log', EXAMPLE.read_bytes())
        other = self.log('precious', 'other')
        for name in ('host.store.lock', 'host.store.portion', 'host.store.state.new'):
            (self.folder / name).symlink_to(other)
            self.assertEqual(self.keep()[0], 4, name)
            (self.folder / name).unlink()
        self.assertEqual(other.read_text(), 'precious')

    def test_times_are_those_of_records(self) -> None:
        """What a user wrote into a line isn't taken for a record."""
        line = lines_of((1000, 'USER_CMD')).replace(b'x=1', b'cmd="type=X msg=audit(9000000000.000:7): "')
        self.put('audit.log', line)
        self.assertEqual((self.kept()['first'], self.kept()['last']), ('1.000:1000', '1.000:1000'))

    def test_one_run_at_a_time(self) -> None:
        self.put('audit.log', repeated(1000))
        self.keep()
        with open(self.folder / 'host.store.lock', 'rb') as lock:
            fcntl.flock(lock, fcntl.LOCK_EX)
            self.assertEqual(self.keep(), (1, '', f'autrail: {self.store}: another run is at work on this store, so this one took nothing\n'))
        self.assertEqual(self.kept()['taken'], 0)

    def test_what_does_not_belong_together_is_refused(self) -> None:
        self.put('audit.log', EXAMPLE.read_bytes())
        reduced(EXAMPLE, self.store)
        self.assertEqual(self.keep()[:2], (2, ''))
        self.store.unlink()
        self.keep()
        state = self.folder / 'host.store.state'
        of_mode = self.keep('-m', 'full')
        self.assertEqual((of_mode[0], of_mode[2]), (2, f'autrail: {self.store} is kept in mode plain, and no other one\n'))
        # Something else has grown the store, so the bytes that it has aren't those that keep noted.
        reduced(EXAMPLE, self.store)
        self.put('audit.log', repeated(600000))
        self.assertEqual(self.keep()[0], 7)
        self.assertNotIn(' from ', run('--store', self.store, '-q', 'stat').stdout.decode().splitlines()[0])
        state.write_text('{}')
        self.assertEqual(self.keep()[0], 4)
        for words in (['-if', self.logs], ['--store', self.store], ['--order']):
            self.assertEqual(self.keep(*words)[0], 2, words)
        self.assertEqual(run('keep', self.folder / 'other.store', '-if', '-').returncode, 2)
        self.assertEqual(run('keep', self.folder / 'other.store', '-if', self.folder / 'none').returncode, 4)
        self.assertEqual(run('keep', self.folder / 'none' / 'other.store', '-if', self.logs).returncode, 4)

    def test_a_damaged_file_changes_nothing(self) -> None:
        self.put('audit.log.1.gz', gzip.compress(EXAMPLE.read_bytes())[:-20])
        self.put('audit.log', lines_of((4000000000000, 'SYSCALL EOE')))
        status, answer, said = self.keep()
        self.assertEqual((status, answer), (4, ''))
        self.assertIn('audit.log.1.gz: the file is damaged', said)
        self.assertFalse(self.store.exists())


def ordered(log: Path | str, *words: str, **more: str) -> tuple[int, str]:
    """The status and the answer over a log in the order of effects, without warnings."""
    done = by_default('-q', '--order', '-if', str(log), *words, **more)
    return done.returncode, done.stdout.decode()


def order_must_be_built(test: unittest.TestCase) -> None:
    if not os.access(ORDER, os.X_OK):
        test.skipTest('audit_order is not built (./audit_order </dev/null builds it)')


# What is said of that order before each answer.
OF_EFFECTS = 'autrail: in the order of effects\n'
PLAN_TO_COPY = ('why', '/home/alice/plan.txt', '/tmp/copy.txt', '--json')


class Ordered(Scratch):
    """Logs in the order of effects."""

    def setUp(self) -> None:
        super().setUp()
        order_must_be_built(self)

    def program(self, text: str) -> str:
        """A program in place of audit_order."""
        file = self.log('#!/bin/sh\n' + text + '\n', 'order program')
        file.chmod(0o755)
        return shlex.quote(str(file))

    def test_the_answers_are_those_of_the_two_programs(self) -> None:
        sorted_log = self.log(subprocess.run([ORDER], input=EXAMPLE.read_bytes(), stdout=subprocess.PIPE, check=True).stdout, 'ordered.log')
        for words in ('back 127.0.0.1:4445 --json', 'fore /home/alice/secret/customers.csv --tree', 'back /srv/evil/received.tar -a', 'find *'):
            with self.subTest(words):
                self.assertEqual(ordered(EXAMPLE, *words.split()), (0, asked(sorted_log, words)))
        counts = json.loads(ordered(EXAMPLE, 'stat', '--json')[1])
        by_hand = subprocess.run([*shlex.split(PROGRAM), 'watch', 'plain', sorted_log], input=b'take 1000000\nsettle\nstat\nend\n', stdout=subprocess.PIPE, check=True)
        self.assertEqual(json.loads(by_hand.stdout.splitlines()[2]), {it: counts[it] for it in counts if it not in ('order', 'torn', 'warnings', 'least', 'greatest', 'files')})
        self.assertEqual(counts['order'], 'effects')

    def test_a_read_that_waited_is_fed_by_the_write(self) -> None:
        """The write, serial 109, is at .308. The read was entered at .044, and its event is whole before that of the write."""
        for words in (('--no-order',), ('--order', '--no-order')):
            done = by_default('-q', *words, '-if', WAITED, *PLAN_TO_COPY)
            self.assertEqual((done.returncode, done.stdout), (1, b''))
            self.assertTrue(done.stderr.decode().startswith(OF_THE_LOG + 'autrail: no path in this log '), done.stderr)
        for words in ((), ('--order',), ('--no-order', '--order')):
            done = by_default('-q', *words, '-if', WAITED, *PLAN_TO_COPY)
            self.assertEqual((done.returncode, done.stderr.decode()), (0, OF_EFFECTS))
            self.assertEqual([(it['serial'], it['how'], it['at'], it.get('recorded_at')) for it in map(json.loads, done.stdout.splitlines())],
                             [(108, 'read', '1780992001.304', None), (109, 'write', '1780992001.308', None), (110, 'read', '1780992001.308', '1780992001.044'),
                              (112, 'write', '1780992001.316', None)])

    def test_all_commands_but_stat_are_in_the_order_of_effects_by_default(self) -> None:
        """In that order alone plan.txt has reached copy.txt."""
        for words in ('fore /home/alice/plan.txt --json', 'back /tmp/copy.txt', 'back /tmp/copy.txt --tree', 'show /tmp/copy.txt', 'find *copy*'):
            done = by_default('-q', '-if', WAITED, *words.split())
            self.assertEqual((done.returncode, done.stdout.decode(), done.stderr.decode()), (*ordered(WAITED, *words.split()), OF_EFFECTS), words)
            asked_of_both = by_default('-q', '-if', WAITED, 'ask', stdin=words)
            self.assertEqual((asked_of_both.stdout, asked_of_both.stderr.decode()), (done.stdout, OF_EFFECTS), words)
        labels = lambda *words: {json.loads(it)['label'] for it in by_default('-q', *words, '-if', WAITED, 'fore', 'plan.txt', '--json').stdout.splitlines()}
        self.assertEqual(labels() - labels('--no-order'), {'relay[501]', '/tmp/copy.txt'})

    def test_stat_is_about_the_log_as_it_is(self) -> None:
        """22 of 524 events of the example are late, and one when it is ordered: a fork stands before an event of its millisecond with a lesser serial number."""
        for words, order, late, said in (((), 'log', 22, ''), (('--no-order',), 'log', 22, ''), (('--order',), 'effects', 1, OF_EFFECTS)):
            told = by_default('-q', *words, '-if', EXAMPLE, 'stat', '--json')
            counts = json.loads(told.stdout)
            self.assertEqual((counts['late'], counts['order'], told.stderr.decode()), (late, order, said))
            warned = [it for it in counts['warnings'] if 'came late' in it]
            self.assertEqual(warned, ['22 of 524 events came late, so in the order of the log a path over them may be missing or have a later time'] * (order == 'log'))
            first = by_default('-q', *words, '-if', EXAMPLE, 'stat').stdout.decode().splitlines()[0]
            self.assertTrue(first.endswith(' UTC+0000, in the order of ' + ('effects' if order == 'effects' else 'the log')), first)
        # At the prompt it counts the log in the order of the other answers.
        at_the_prompt = by_default('-q', '-if', EXAMPLE, 'ask', stdin='stat --json\nstat\n').stdout.decode().splitlines()
        self.assertEqual((json.loads(at_the_prompt[0])['order'], json.loads(at_the_prompt[0])['late']), ('effects', 1))
        self.assertTrue(at_the_prompt[1].endswith(', in the order of effects'))

    def test_a_write_that_was_recorded_after_the_read_feeds_it(self) -> None:
        """As the write of serial 1148 in the example: it was entered before the read (at .000 of second 13), and returned after it."""
        name = '"/run/pipe"'
        text = opened_and(0, '"/in"', 7, 1, pid=200) + call(4, 257, 200, exit=4) + path(4, name, 9) + call(5, 257, 300, exit=4) + path(5, name, 9)
        text += ''.join(it + f'type=EOE msg=audit(17809920{second}.000:{serial}): \n' for serial, second, it in (
            (20, 14, call(20, 0, 300, at=1780992014, a0='4')), (21, 13, call(21, 1, 200, at=1780992013, a0='4'))))
        log = self.log(text)
        self.assertEqual(run('-q', '-if', log, 'why', '/in', 'pid:300').returncode, 1)
        status, answer = ordered(log, 'why', '/in', 'pid:300', '--json')
        self.assertEqual((status, [json.loads(it)['serial'] for it in answer.splitlines()]), (0, [2, 21, 20]))

    def test_the_lines_are_those_of_the_log(self) -> None:
        lines = WAITED.read_text().splitlines()
        of_the_log = ['      ' + it for serial in (108, 109, 110, 112) for it in lines if f':{serial})' in it]
        text = ordered(WAITED, 'why', '/home/alice/plan.txt', '/tmp/copy.txt', '--lines')[1]
        self.assertEqual([it for it in text.splitlines() if it.startswith(' ')], of_the_log)
        said = [it for it in text.splitlines() if 'recorded as' in it]
        self.assertEqual(said, ['2026-06-09 08:00:01.308       110  read   /run/relay  #6  →  relay[501]  #1  (recorded as 2026-06-09 08:00:01.044)'])

    def test_a_log_that_was_ordered_before_says_when_it_was_recorded(self) -> None:
        sorted_log = self.log(subprocess.run([ORDER], input=WAITED.read_bytes(), stdout=subprocess.PIPE, check=True).stdout, 'ordered.log')
        for more in (('--no-order',), ()):
            text = by_default('-q', *more, '-if', sorted_log, 'why', '/home/alice/plan.txt', '/tmp/copy.txt', '--lines').stdout.decode()
            self.assertEqual(text.count('(recorded as 2026-06-09 08:00:01.044)'), 1)
            self.assertEqual(text.count('audit(1780992001.308:110)'), 2)
            self.assertNotIn('WAS=', text)

    def test_the_order_is_told_before_an_answer(self) -> None:
        late = self.log(call(9, 0) + 'type=EOE msg=audit(1780992009.000:9): \n' + opened_and(0, '"/a"', 7, 1))
        for words, told in (((), OF_EFFECTS), (('--order',), OF_EFFECTS), (('--no-order',), OF_THE_LOG)):
            self.assertEqual(by_default('-q', *words, '-if', WAITED, 'find', 'plan.txt').stderr.decode(), told)
            # It stands after the warnings, of which this log has some.
            said = by_default(*words, '-if', late, 'find', '*').stderr.decode()
            self.assertTrue(said.startswith('autrail: warning: ') and said.endswith('\n' + told), said)
            dot = by_default('-q', *words, '-if', WAITED, 'back', '/tmp/copy.txt', '--dot').stdout.decode()
            self.assertIn('label="autrail back /tmp/copy.txt: ' + told.removeprefix('autrail: ').rstrip() + '; one path', dot)
        done = by_default('-q', '-if', WAITED, 'ask', stdin='why plan.txt copy.txt\nback x --order\nback x --no-order\n')
        self.assertEqual((done.returncode, done.stdout.count(b'recorded as'), done.stderr.count(b'stand before ask')), (0, 1, 2))

    def test_a_read_that_must_have_waited_is_told_unless_it_can(self) -> None:
        """The read was entered a second before the write, and its record arrived after it. What kind of file it is, the open's PATH record says by the mode."""
        for mode, told in (('', True), ('mode=010600', False), ('mode=020620', False)):
            opened = [call(serial, 257, pid, exit=4) + path(serial, '"/f"', 9).replace('mode=0100644', mode) for serial, pid in ((4, 100), (5, 300))]
            moved = [call(serial, number, pid, at=1780992000 + at, a0='4') + f'type=EOE msg=audit({1780992000 + at}.000:{serial}): \n'
                     for serial, number, pid, at in ((21, 1, 100, 13), (22, 0, 300, 12))]
            log = self.log(opened_and(0, '"/in"', 7, 1, pid=100) + ''.join(opened + moved))
            done = by_default('-q', '-if', log, 'why', '/in', 'pid:300', '--json')
            self.assertEqual((done.returncode, [json.loads(it)['serial'] for it in done.stdout.splitlines()]), (0, [2, 21, 22]), mode)
            note = 'autrail: serial 22 reads /f and was entered before serial 21, which feeds it: no read of a regular file waits so, '
            self.assertEqual(note in done.stderr.decode(), told, done.stderr)

    def test_a_time_far_ahead_is_told(self) -> None:
        """Reads after two events with it count at the end of the log, with what their process does then. After one event alone they don't."""
        false = [call(serial, 0, at=33000000000) for serial in (1, 6)]
        later = opened_and(0, '"/a"', 7, 2) + opened_and(1, '"/b"', 8, 4, 'CREATE')
        for log, steps in [(false[0] + later, [('1780992003.000', None), ('1780992005.000', None)]),
                           (false[0] + false[1] + later, [('33000000000.000', '1780992003.000'), ('33000000000.000', '1780992005.000')])]:
            done = by_default('-if', self.log(log), 'why', '/a', '/b', '--json')
            self.assertRegex(done.stderr, rb'warning: the log goes back in time, from 3015-.*: if the first is a wrong time, later reads may count at the end of ')
            self.assertEqual([(it['at'], it.get('recorded_at')) for it in map(json.loads, done.stdout.splitlines())], steps)

    def test_malformed_lines_are_numbered_as_ordered(self) -> None:
        self.assertIn('malformed lines, as they are numbered when ordered: ', ordered(self.log(WAITED.read_text() + 'garbage\n'), 'stat')[1])

    def test_a_long_log_goes_through_pipes(self) -> None:
        """Packed, in three files of which one has no line feed at its end, and longer than what the pipes hold."""
        text = subprocess.run([sys.executable, TOP / 'bench' / 'repeat_log.py', EXAMPLE, '6000000'], capture_output=True, check=True).stdout
        lines = text.splitlines(keepends=True)
        third = len(lines) // 3
        (self.folder / 'audit.log.2.gz').write_bytes(gzip.compress(b''.join(lines[:third])[:-1]))
        (self.folder / 'audit.log.1.xz').write_bytes(lzma.compress(b''.join(lines[third:2 * third])))
        (self.folder / 'audit.log').write_bytes(b''.join(lines[2 * third:]))
        copies = self.folder / 'copies'
        copies.mkdir()
        counts = json.loads(ordered(self.folder, 'stat', '--json', TMPDIR=str(copies))[1])
        self.assertGreaterEqual(counts['lines'], len(lines))
        # One event of each copy of the example comes after a fork of its millisecond that has a greater serial number.
        repeats = -(-len(lines) // len(EXAMPLE.read_bytes().splitlines()))
        self.assertEqual((counts['late'], counts['malformed']), (repeats, 0))
        self.assertFalse(list(copies.iterdir()))

    def test_a_program_that_fails_gives_no_answer(self) -> None:
        long = self.log(EXAMPLE.read_bytes() * 20, 'long.log')
        cases = [(EXAMPLE, 'cat; echo no room >&2; exit 3', 3, 'audit_order ended with status 3'), (long, 'head -c 1000; exit 5', 5, 'status 5'),
                 (EXAMPLE, 'kill -9 $$', 137, 'status -9'), (long, 'head -n 500', 4, 'ended with status 0 before it had ordered the log'),
                 (EXAMPLE, 'cat; exit 1', 4, 'ended with status 1')]
        for log, text, status, want in cases:
            for words in (('stat', '--json'), ('why', '/customers.csv', '/tmp/.loot.tar')):
                with self.subTest(text):
                    done = by_default('-q', *('--order',) * (words[0] == 'stat'), '-if', log, *words, AUDIT_ORDER=self.program(text))
                    self.assertEqual((done.returncode, done.stdout), (status, b''), done.stderr)
                    self.assertIn(want, done.stderr.decode())
                    self.assertIn('so nothing is answered; --no-order asks in the order of the log\n', done.stderr.decode())
        self.assertIn('audit_order says: no room', run('--order', '-if', EXAMPLE, 'stat', AUDIT_ORDER=self.program('echo no room >&2; exit 3')).stderr.decode())

    def test_if_it_fails_a_program_that_builds_itself_is_ended(self) -> None:
        begun = time.monotonic()
        done = by_default('-q', '-if', EXAMPLE, 'find', '*', AUDIT_CLI="sh -c 'exec sleep 300'", AUDIT_ORDER="sh -c 'exit 126'")
        self.assertEqual((done.returncode, done.stdout), (126, b''))
        self.assertIn(b'audit_order ended with status 126 before it had ordered the log', done.stderr)
        self.assertLess(time.monotonic() - begun, 60)

    def test_faults_of_the_log_and_of_the_program_behind_are_their_own(self) -> None:
        (self.folder / 'audit.log.1.gz').write_bytes(gzip.compress(EXAMPLE.read_bytes())[:-20])
        (self.folder / 'audit.log').write_bytes(EXAMPLE.read_bytes())
        done = run('-q', '--order', '-if', self.folder, 'stat')
        self.assertEqual((done.returncode, done.stdout), (4, b''))
        self.assertIn(b'audit.log.1.gz', done.stderr)
        done = run('-q', '--order', '-if', self.log(EXAMPLE.read_bytes() * 20, 'long.log'), 'stat', AUDIT_CLI="sh -c 'exit 9'")
        self.assertEqual((done.returncode, done.stdout), (9, b''))
        self.assertIn(b'the program ended with status 9', done.stderr)

    def test_both_programs_end_with_autrail(self) -> None:
        pids = self.folder / 'pids'
        waits = self.log(f'#!/bin/sh\necho $$ >>{shlex.quote(str(pids))}\nexec sleep 60\n', 'waits')
        waits.chmod(0o755)
        slow = shlex.quote(str(waits))
        child = subprocess.Popen([AUTRAIL, '--order', '-if', EXAMPLE, 'stat'], stderr=subprocess.DEVNULL, preexec_fn=lambda: signal.signal(signal.SIGINT, signal.SIG_DFL),
                                 env=environment(AUDIT_CLI=slow, AUDIT_ORDER=slow))
        for _ in range(200):
            if pids.exists() and len(pids.read_text().split()) == 2:
                break
            time.sleep(0.05)
        time.sleep(0.5)
        child.send_signal(signal.SIGINT)
        self.assertEqual(child.wait(30), 130)
        for pid in pids.read_text().split():
            with self.assertRaises(ProcessLookupError):
                os.kill(int(pid), 0)


def with_address(serial: int, number: int, pid: int, saddr: str, **more: int | str) -> str:
    """A call with the record of an address."""
    return call(serial, number, pid, **more) + f'type=SOCKADDR msg=audit({1780992000 + serial}.000:{serial}): saddr={saddr}\n' + f'type=EOE msg=audit({1780992000 + serial}.000:{serial}): \n'


def of_family_1(name: str) -> str:
    """The record of a socket's path, or of a name that audit_order gives a connection."""
    return ('\1\0' + name).encode().hex().upper()


SOCKET, ACCEPT, CONNECT, BIND = 41, 43, 42, 49
PORT_4445, PORT_9 = '0200115D7F0000010000000000000000', '020000097F0000010000000000000000'


class Connections(Scratch):
    """Names of connections, each an object of its own as audit_order writes them: where it goes to, and the time and the serial number of its connect."""

    def setUp(self) -> None:
        super().setUp()
        # Process 100 read /in and sent it over two connections to port 4445, over one to a socket with a path, and over one with an abstract name.
        self.text = opened_and(0, '"/in"', 7, 1)
        for serial, place in ((10, '127.0.0.1:4445'), (20, '127.0.0.1:4445'), (30, '/run/x.sock'), (40, '\0there'), (50, '[0000:0000:0000:0000:0000:0000:0000:0001]:80')):
            self.text += call(serial, SOCKET, exit=5) + with_address(serial + 1, CONNECT, 100, of_family_1(f'{place}#{1780992001 + serial}000:{serial + 1}'), exit=0, a0='5')
            self.text += call(serial + 2, 1, a0='5')
        # One to the same port and one to port 9 stay addresses, since another machine answers. The socket's own file was made readable for all.
        for serial, address in ((60, PORT_4445), (70, PORT_9)):
            self.text += call(serial, SOCKET, exit=6) + with_address(serial + 1, CONNECT, 100, address, exit=0, a0='6') + call(serial + 2, 1, a0='6')
        self.text += call(80, 90, exit=0) + path(80, '"/run/x.sock"', 90).replace('0100644', '0140666')
        self.file = self.log(self.text)

    def found(self, what: str, **more: str) -> list[str]:
        done = by_default('-q', '-if', self.file, 'find', what, '--json', AUDIT_ORDER='cat', **more)
        return [json.loads(it)['label'] for it in done.stdout.splitlines()]

    FIRST, SECOND = '127.0.0.1:4445#1780992011000:11', '127.0.0.1:4445#1780992021000:21'
    PATH, ABSTRACT, SIXTH = 'unix:/run/x.sock#1780992031000:31', 'unix:@there#1780992041000:41', '[0000:0000:0000:0000:0000:0000:0000:0001]:80#1780992051000:51'

    def test_they_are_found_by_what_they_go_to(self) -> None:
        to_the_port = [self.FIRST, self.SECOND, '127.0.0.1:4445']
        for what, want in (('127.0.0.1:4445', to_the_port), (':4445', to_the_port), ('127.0.0.1', [*to_the_port, '127.0.0.1:9']), (':9', ['127.0.0.1:9']), ('*:4445', to_the_port),
                           ('127.*#*', [self.FIRST, self.SECOND]), (self.FIRST, [self.FIRST]), ('unix:' + self.FIRST, [self.FIRST]), ('name:' + self.FIRST, [self.FIRST]),
                           ('name:127.0.0.1:4445', ['127.0.0.1:4445']), (':11', []), (':80', [self.SIXTH]), ('[::1]:80', [self.SIXTH]), ('::1', [self.SIXTH]),
                           ('/run/x.sock', [self.PATH, '/run/x.sock']), ('unix:/run/x.sock', [self.PATH]), ('x.sock', [self.PATH, '/run/x.sock']), (self.PATH, [self.PATH]),
                           ('name:/run/x.sock', ['/run/x.sock']), ('@there', [self.ABSTRACT]), ('unix:@there', [self.ABSTRACT]), (':31', [])):
            self.assertEqual(self.found(what), want, what)
        # Nothing of this depends on the order, except that a path alone is that of a file in the order of the log.
        self.assertEqual([json.loads(it)['label'] for it in run('-q', '-if', self.file, 'find', '127.0.0.1:4445', '--json').stdout.splitlines()], to_the_port)

    def test_several_to_one_place_are_objects_of_one_name(self) -> None:
        for what in ('127.0.0.1:4445', ':4445'):
            done = by_default('-q', '-if', self.file, 'back', what, AUDIT_ORDER='cat')
            self.assertEqual(done.stdout.decode().splitlines()[0], '127.0.0.1:4445  #7  can have come from:')
            self.assertEqual(done.stderr.decode(), f'{OF_EFFECTS}autrail: {what} is the name of 3 objects: #2 {self.FIRST} (address unix:{self.FIRST}), '
                             f'#3 {self.SECOND} (address unix:{self.SECOND}), #7 127.0.0.1:4445 (address 127.0.0.1:4445); the last is taken, --each takes all\n')
            each = by_default('-q', '-if', self.file, 'back', what, '--each', AUDIT_ORDER='cat').stdout.decode()
            self.assertEqual(re.findall(r'#(\d+)  can have come from', each), ['2', '3', '7'])
        done = by_default('-q', '-if', self.file, 'back', '127.0.0.1', AUDIT_ORDER='cat')
        self.assertEqual(done.returncode, 2)
        self.assertIn(b'127.0.0.1 may mean 4 objects', done.stderr)
        shown = by_default('-q', '-if', self.file, 'fore', '/in', '--hide', '*:4445', AUDIT_ORDER='cat').stdout.decode()
        self.assertEqual((shown.count(':4445'), '3 objects hidden by --hide' in shown), (0, True))

    def test_a_path_to_any_of_them_is_shown(self) -> None:
        """Process 200 accepted the first connection, read from it, and wrote a file."""
        answered = call(12, SOCKET, 200, exit=4) + with_address(13, ACCEPT, 200, of_family_1(self.FIRST), exit=7, a0='4') + call(14, 0, 200, a0='7')
        log = self.log(self.text + answered.replace(':12)', ':92)').replace(':13)', ':93)').replace(':14)', ':94)').replace('178099201', '178099209')
                       + opened_and(1, '"/out"', 77, 95, 'CREATE', pid=200))
        done = by_default('-q', '-if', log, 'why', '127.0.0.1:4445', '/out', '--json', AUDIT_ORDER='cat')
        self.assertEqual((done.returncode, [json.loads(it)['from_label'] for it in done.stdout.splitlines()]), (0, [self.FIRST, 'p[200]']))
        self.assertIn('of 3 pairs of objects that of #2', done.stderr.decode())
        done = by_default('-q', '-if', log, 'why', '/in', '/out', '--json', AUDIT_ORDER='cat')
        self.assertEqual([json.loads(it)['to_label'] for it in done.stdout.splitlines()], ['p[100]', self.FIRST, 'p[200]', '/out'])

    def test_they_are_those_that_audit_order_makes(self) -> None:
        """Process 200 listens at port 4445, and process 100 calls it twice, and sends a file over each connection. Process 200 writes each into another file."""
        order_must_be_built(self)
        text = call(1, SOCKET, 200, exit=4) + with_address(2, BIND, 200, PORT_4445, exit=0, a0='4')
        for serial, client, served in ((10, '5', '7'), (20, '6', '8')):
            text += call(serial, SOCKET, exit=int(client)) + with_address(serial + 1, CONNECT, 100, PORT_4445, exit=0, a0=client)
            text += with_address(serial + 2, ACCEPT, 200, f'0200{40000 + serial:04X}7F0000010000000000000000', exit=int(served), a0='4')
            text += opened_and(0, f'"/in{serial}"', 70 + serial, serial + 3) + call(serial + 5, 1, a0=client) + call(serial + 6, 0, 200, a0=served)
            text += call(serial + 7, 257, 200, exit=9) + path(serial + 7, f'"/out{serial}"', 170 + serial, 'CREATE') + call(serial + 8, 1, 200, a0='9')
        log = self.log(text)
        self.assertEqual([json.loads(it)['label'] for it in by_default('-q', '-if', log, 'find', ':4445', '--json').stdout.splitlines()], [self.FIRST, self.SECOND])
        path_of = lambda *words: [json.loads(it)['to_label'] for it in by_default('-q', '-if', log, 'why', *words, '--json').stdout.splitlines()]
        self.assertEqual(path_of('/in10', '/out10'), ['p[100]', self.FIRST, 'p[200]', '/out10'])
        self.assertEqual(path_of('/in20', '/out20'), ['p[100]', self.SECOND, 'p[200]', '/out20'])


class FindsOrder(Scratch):
    """Where autrail looks for audit_order."""

    def folder_with(self, *places: str) -> Path:
        """A copy of autrail without a program on the PATH, and programs at these places beside it."""
        top = self.folder / 'top'
        autrail = copy_of_autrail(top / 'bin')
        (self.folder / 'python3').symlink_to(sys.executable)
        for tool in ('env', 'sh', 'cat'):
            (self.folder / tool).symlink_to(shutil.which(tool))
        for place in places:
            (top / place).write_text('#!/bin/sh\necho from here >&2\nexit 7\n')
            (top / place).chmod(0o755)
        return autrail

    def asked(self, autrail: Path, *words: str) -> subprocess.CompletedProcess[bytes]:
        words = words or ('--order', '-if', str(EXAMPLE), 'stat')
        return subprocess.run([autrail, *words], capture_output=True, env=environment(AUDIT_ORDER='', PATH=str(self.folder)), check=False)

    def test_without_it_order_is_refused_and_says_how_to_build_it(self) -> None:
        done = self.asked(self.folder_with())
        self.assertEqual((done.returncode, done.stdout, done.stderr.count(b'\n')), (2, b'', 1))
        self.assertIn(b'"./audit_order </dev/null" builds it', done.stderr)

    def test_without_it_answers_are_in_the_order_of_the_log_and_say_so(self) -> None:
        autrail = self.folder_with()
        since = 'autrail: in the order of the log, since audit_order isn\'t there: in Kitrevasu\'s repository "./audit_order </dev/null" builds it and '
        for words in (('fore', 'plan.txt', '--json'), ('find', 'plan.txt')):
            done = self.asked(autrail, '-q', '-if', str(WAITED), *words)
            self.assertEqual((done.returncode, done.stdout, done.stderr.count(b'\n')), (0, run('-q', '-if', WAITED, *words).stdout, 1))
            self.assertTrue(done.stderr.decode().startswith(since), done.stderr)
        self.assertEqual(self.asked(autrail, '-q', '-if', str(WAITED), 'stat').stderr, b'')
        self.assertEqual(self.asked(autrail, '-q', '--no-order', '-if', str(WAITED), 'find', 'plan.txt').stderr.decode(), OF_THE_LOG)
        self.assertEqual(self.asked(autrail, '-q', '-if', str(WAITED), 'why', 'plan.txt', 'copy.txt').returncode, 1)

    def test_it_is_found_beside_autrail_or_above(self) -> None:
        for place in ('bin/audit_order', 'audit_order'):
            autrail = self.folder_with(place)
            for words in ((), ('-if', str(EXAMPLE), 'find', '*')):
                done = self.asked(autrail, *words)
                self.assertEqual((done.returncode, done.stdout), (7, b''))
                self.assertIn(b'audit_order says: from here', done.stderr)
            self.assertEqual(self.asked(autrail, '-if', str(EXAMPLE), 'stat').returncode, 0)
            shutil.rmtree(self.folder)
            self.folder.mkdir()

    def test_words_that_are_not_words(self) -> None:
        for words, want in (("'", b'correct AUDIT_ORDER'), ('/no/such', b"doesn't start")):
            for asked_words in (('--order', '-if', EXAMPLE, 'stat'), ('-if', EXAMPLE, 'find', '*')):
                done = by_default(*asked_words, AUDIT_ORDER=words)
                self.assertEqual((done.returncode, done.stdout), (2, b''))
                self.assertIn(want, done.stderr)


ZONES = {
    # 2026-06-09 08:01:00 in each zone, and words that are read on that day at 12:30:45.
    'UTC': {'06/09/2026 08:01:00': 1780992060, 'now': 1781008245, 'recent': 1781007645, 'today': 1780963200, 'yesterday': 1780876800, 'this-week': 1780790400,
            'week-ago': 1780358400, 'this-month': 1780272000, 'this-year': 1767225600, 'this-hour': 1781006400, 'yesterday 14:00': 1780927200, '14:00': 1781013600,
            '10 min ago': 1781007645, '2 days ago': 1780835445, '3 hours ago': 1780997445, '2026-06-09T08:01': 1780992060, '2026-06-09 08:01:00': 1780992060,
            '06/09/26 08:01:00': 1780992060, '6/9/26': 1780963200,
            '2026-06-09T08:01:00Z': 1780992060, '2026-06-09T08:01+02:00': 1780984860, '2026-06-09': 1780963200, '1780992060': 1780992060},
    'America/New_York': {'06/09/2026 08:01:00': 1781006460, 'today': 1780977600, 'this-month': 1780286400, 'this-year': 1767243600, 'this-week': 1780804800, '2026-06-09T08:01:00Z': 1780992060,
                         # the clocks went forward on 8 March at 2:00 and go back on 1 November at 2:00
                         '03/08/2026': 1772946000, '03/09/2026': 1773028800, '03/08/2026 03:00': 1772953200, '11/01/2026': 1793505600, '11/02/2026': 1793595600},
    'Europe/Berlin': {'06/09/2026 08:01:00': 1780984860, 'today': 1780956000, 'this-year': 1767222000, '03/29/2026': 1774738800, '03/30/2026': 1774821600,
                      '2026-03-29 03:00': 1774746000, '10/26/2026': 1792969200, '10/25/2026 03:00': 1792893600, '2026-10-25T02:30+01:00': 1792891800},
}
NO_TIMES = ('next tuesday', '06/31/2026', '25:00', '2026-13-01', '12', 'today today', '', '5 moons ago', '-1', '99999999999999999', '08:60', '2026-06-09T08:01:99')


class Words(Scratch):
    """TIME words, and what isn't understood."""

    def in_zone(self, zone: str) -> None:
        before = os.environ.get('TZ')
        self.addCleanup(lambda: (os.environ.update(TZ=before) if before else os.environ.pop('TZ', None), time.tzset()))
        os.environ['TZ'] = zone
        time.tzset()

    def test_time_words_in_three_zones(self) -> None:
        if not Path('/usr/share/zoneinfo/Europe/Berlin').exists():
            self.skipTest('no time zones (tzdata) on this machine')
        for zone, table in ZONES.items():
            self.in_zone(zone)
            for words, seconds in table.items():
                with self.subTest(zone=zone, words=words):
                    self.assertEqual(times.moment(words, datetime(2026, 6, 9, 12, 30, 45)), seconds * 1000)

    def test_parts_of_a_second(self) -> None:
        self.in_zone('UTC')
        for words, at in {'1780992064.4': 1780992064400, '1.000': 1000, '1780992064.4567': 1780992064456, '2026-06-09 08:01:04.25': 1780992064250, '06/09/26 08:01:04.424': 1780992064424}.items():
            self.assertEqual(times.moment(words), at, words)
        self.assertEqual(times.spelled(1001), '1.001')
        self.assertEqual(times.spelled(1780992064400), '1780992064.400')

    def test_each_word_for_a_time_is_told(self) -> None:
        told = [(HERE.parent / it).read_text().replace('\\-', '-') for it in ('autrail.1.scd', 'autrail.bash', '_autrail')] + [run('--help', COLUMNS='1000').stdout.decode()]
        for word in ('now', 'recent', 'this-hour', 'boot', 'today', 'yesterday', 'this-week', 'week-ago', 'this-month', 'this-year'):
            self.assertGreater(times.moment(word), 0)
            for text in told:
                self.assertRegex(text, rf'[ (*\'\\]{word}\b')

    def test_the_start_of_the_machine_is_a_time(self) -> None:
        with unittest.mock.patch.object(Path, 'read_text', return_value='cpu 1 2\nctxt 5\nbtime 1780900001\nprocesses 7\n'):
            self.assertEqual(times.moment('boot'), 1780900001000)

    def test_days_are_on_the_clock_and_spans_are_not(self) -> None:
        if not Path('/usr/share/zoneinfo/Europe/Berlin').exists():
            self.skipTest('no time zones (tzdata) on this machine')
        self.in_zone('Europe/Berlin')
        after = datetime(2026, 3, 29, 12, 0)
        self.assertEqual(times.moment('yesterday 12:00', after), 1774695600000)
        self.assertEqual(times.moment('1 day ago', after), 1774692000000)

    def test_a_time_that_the_clock_skips_or_shows_twice_is_refused(self) -> None:
        if not Path('/usr/share/zoneinfo/Europe/Berlin').exists():
            self.skipTest('no time zones (tzdata) on this machine')
        self.in_zone('Europe/Berlin')
        for words, want in (('03/29/2026 02:30', 'is passed over'), ('2026-10-25T02:30', 'comes twice'), ('10/25/2026 02:30:00', '2026-10-25T02:30:00+01:00')):
            with self.assertRaises(basics.Refused) as refused:
                times.moment(words)
            self.assertIn(want, str(refused.exception))

    def test_what_is_no_time_is_refused(self) -> None:
        for words in NO_TIMES:
            with self.subTest(words), self.assertRaises(basics.Refused):
                times.spelled(times.moment(words))

    def test_wrong_words_give_one_line(self) -> None:
        wrong = ['', 'frob', 'back', 'fore', 'why a', 'find', 'show', 'stat x', 'ask x', 'rules x', 'keep', 'keep x y', 'back x y', 'back x --at', 'back x --at soon', 'fore x --since 25:00',
                 'back x --since today', 'back x --tree --dot', 'back x --svg x.png', 'back x --png x.svg', '-m fast stat', '--no-such stat', '-if', 'why a b --at never',
                 '-if - ask', 'back x --paths 0', 'back x --paths many', '--order', '--order=1 stat', 'rules --order=1', 'show x --frob', 'find x --tree', 'rules --json']
        for words in wrong:
            with self.subTest(words), self.assertRaises(basics.Refused) as refused:
                autrail_main.run(shlex.split(words))
            self.assertEqual(refused.exception.status, 2)
            self.assertRegex(str(refused.exception), r'^[^\n]{10,}$')
        done = run('back', 'x', 'y')
        self.assertEqual((done.returncode, done.stdout, done.stderr), (2, b'', b'autrail: unrecognized arguments: y; "autrail --help" says more\n'))

    def test_faults_of_the_log_and_the_program(self) -> None:
        empty = self.log('')
        cases = [(['-if', self.folder / 'none', 'stat'], {}, 4, 'no such log'), (['-if', empty, 'stat'], {'AUDIT_CLI': '/no/such'}, 2, "doesn't start"),
                 (['-if', empty, 'stat'], {'AUDIT_CLI': "'"}, 2, "can't be split into words"),
                 (['-if', empty, 'stat'], {'AUDIT_CLI': "sh -c 'echo full >&2; exit 9'"}, 9, 'the program says: full'),
                 (['-if', EXAMPLE, 'find', 'nosuch.c'], {}, 1, 'nothing in the log is called nosuch.c'), (['-if', EXAMPLE, 'show', '#99'], {}, 1, 'no object'),
                 (['-if', EXAMPLE, 'find', 'customers'], {}, 1, 'there is /customers.csv')]
        for words, more, status, want in cases:
            with self.subTest(words=words, more=more):
                done = run('-q', *words, **more)
                self.assertEqual((done.returncode, done.stdout), (status, b''))
                self.assertIn(want, done.stderr.decode())

    def test_a_program_that_does_not_know_a_question(self) -> None:
        counts = {it: 0 for it in ('lines', 'used', 'other', 'blank', 'malformed', 'events', 'late', 'unmapped', 'excess', 'flows', 'kept', 'known')}
        older = self.log(f'''#!{sys.executable}
import sys
for line in sys.stdin:
    reply = {{'take': '{{"take":0}}', 'settle': '{{"settle":0}}', 'stat': """{json.dumps(counts)}"""}}.get(line.split()[0], '{{"error":"BadQuestion"}}')
    print(reply, flush=True)
''', 'older')
        older.chmod(0o755)
        done = run('-q', '-if', self.log(''), 'find', '/a', AUDIT_CLI=shlex.quote(str(older)))
        self.assertEqual((done.returncode, done.stdout, done.stderr.decode()),
                         (2, b'', f"{OF_THE_LOG}autrail: this program doesn't answer 'find'; autrail {basics.VERSION} needs a later one\n"))

    def test_replies_that_are_none_end_in_one_line(self) -> None:
        """Status 1 would say that the log was asked."""
        for reply, want in (('garbage', 'JSONDecodeError'), ('{}', 'KeyError'), ('[]', 'AttributeError'), ('{"take":"x\\u001b"}', 'KeyError')):
            program = self.log(f'#!/bin/sh\nwhile read -r line; do printf "%s\\n" {shlex.quote(reply)}; done\n', 'garbage')
            program.chmod(0o755)
            for command, stdin in (('stat', ''), ('ask', 'stat\n')):
                done = run('-q', '-if', EXAMPLE, command, stdin=stdin, AUDIT_CLI=shlex.quote(str(program)))
                said = done.stderr.decode().removeprefix(OF_THE_LOG)
                self.assertEqual((done.returncode, done.stdout, said.count('\n')), (4, b'', 1), said)
                self.assertTrue(said.startswith("autrail: autrail can't go on; "), said)
                self.assertIn(want, said)

    def test_a_reply_that_is_none_ends_the_prompt(self) -> None:
        counts = {it: 0 for it in ('lines', 'bytes', 'events', 'late', 'excess', 'known')}
        replies = '{"take":0} {"settle":0} ' + json.dumps(counts, separators=(',', ':')) + ' garbage garbage'
        program = self.log(f'#!/bin/sh\nfor reply in {" ".join(map(shlex.quote, replies.split()))}; do read -r line; printf "%s\\n" "$reply"; done\n', 'garbage')
        program.chmod(0o755)
        done = run('-q', '-if', EXAMPLE, 'ask', stdin="find /a\nfind /b\n", AUDIT_CLI=shlex.quote(str(program)))
        self.assertEqual((done.returncode, done.stdout, done.stderr.count(b'\n')), (4, b'', 2), done.stderr)
        done = run('-q', '-if', EXAMPLE, 'ask', stdin="find 'a\nfind /customers.csv\n")
        self.assertEqual(done.stderr.decode(), OF_THE_LOG + 'autrail: No closing quotation\n')

    def test_lines_in_words(self) -> None:
        ausearch = self.log("#!/bin/sh\nsed 's/^/in words: /; 1i----'\n", 'ausearch')
        ausearch.chmod(0o755)
        there = f'{self.folder}:{os.environ["PATH"]}'
        done = run('-q', '-if', EXAMPLE, 'why', '/customers.csv', '/tmp/.loot.tar', '-i', PATH=there)
        self.assertEqual((done.returncode, done.stderr.decode()), (0, OF_THE_LOG))
        self.assertEqual(done.stdout.count(b'      in words: type=SYSCALL'), 2)
        self.assertNotIn(b'----', done.stdout)
        if not shutil.which('ausearch', path=ADMIN_FOLDERS):
            done = run('-q', '-if', EXAMPLE, 'why', '/customers.csv', '/tmp/.loot.tar', '--interpret')
            self.assertEqual(done.returncode, 0)
            self.assertIn(b"ausearch isn't on this machine", done.stderr)
            self.assertEqual(done.stdout.count(b'      type=SYSCALL'), 2)

    def test_a_folder_that_may_not_be_read(self) -> None:
        with unittest.mock.patch('os.listdir', side_effect=PermissionError), self.assertRaises(basics.Refused) as refused:
            autrail_logs.logs_of([str(self.folder / 'audit.log')], contextlib.ExitStack())
        self.assertEqual(refused.exception.status, 4)
        self.assertIn('run autrail by sudo', str(refused.exception))

    def test_help_and_version(self) -> None:
        self.assertEqual(run('--version').stdout, f'autrail {basics.VERSION}\n'.encode())
        for command in ([], ['back'], ['fore'], ['why'], ['find'], ['show'], ['stat'], ['ask'], ['keep'], ['rules']):
            self.assertEqual(run(*command, '--help').returncode, 0)

    def test_a_full_device_and_a_closed_pipe(self) -> None:
        with open('/dev/full', 'wb') as full:
            done = subprocess.run([AUTRAIL, '-q', '-if', EXAMPLE, 'stat'], stdout=full, stderr=subprocess.PIPE, env=environment(), check=False)
        self.assertEqual((done.returncode, done.stderr.count(b'\n')), (5, 1))
        words = ' '.join(shlex.quote(str(it)) for it in (AUTRAIL, '-q', '--no-order', '-if', EXAMPLE, 'back', '/tmp/x.sh', '-a'))
        done = subprocess.run(['bash', '-c', f'{words} | true; echo ${{PIPESTATUS[0]}}'], capture_output=True, env=environment(), check=False)
        self.assertIn(done.stdout, (b'141\n', b'0\n'))
        self.assertEqual(done.stderr.decode(), OF_THE_LOG)

    def shell(self, command: str, **more: str) -> tuple[str, str]:
        """What a command of bash's writes, in which $autrail is autrail with a log."""
        words = ' '.join(shlex.quote(str(it)) for it in (AUTRAIL, '-q', '--no-order', '-if', EXAMPLE))
        done = subprocess.run(['bash', '-c', f'autrail() {{ {words} "$@"; }}; {command}'], capture_output=True, env=environment(**more), check=False)
        return done.stdout.decode(), done.stderr.decode()

    def test_standard_streams_that_are_closed(self) -> None:
        """No other file takes their numbers, no note goes into the answer, and status 1 would say that the log was asked."""
        found = '#47     file     /customers.csv   file fe:00 19130 0\n'
        for closed, out, err in (('<&-', found + '0', OF_THE_LOG), ('2>&-', found + '0', ''), ('2>/dev/full', found + '0', ''), ('<&- 2>&-', found + '0', ''),
                                 ('>&-', '5', OF_THE_LOG + "autrail: the answer can't be written (Bad file descriptor)\n"), ('<&- >&- 2>&-', '5', '')):
            self.assertEqual(self.shell(f'autrail find /customers.csv {closed}; echo $?'), (out + '\n', err), closed)
        self.assertEqual(self.shell('autrail ask <&-; echo $?'), ('0\n', OF_THE_LOG))

    def test_help_and_version_need_room_too(self) -> None:
        for unbuffered in ('', '1'):
            for word in ('--help', '--version'):
                self.assertEqual(self.shell(f'autrail {word} >/dev/full; echo $?', PYTHONUNBUFFERED=unbuffered), ('5\n', "autrail: the answer can't be written (No space left on device)\n"))

    def test_what_cannot_be_copied_is_said(self) -> None:
        """A limit of one block, as bash counts them, stands for a full disk."""
        log = self.log(repeated(300000))
        store = shlex.quote(str(self.folder / 'host.store'))
        out, err = self.shell(f'ulimit -f 1; {{ {shlex.quote(str(AUTRAIL))} keep {store} -if {shlex.quote(str(log))}; echo $?; }} 2>&1 | cat')
        self.assertEqual((out, err), (f"autrail: {self.folder}/host.store.portion: it can't be written (File too large); nothing is lost, and the next run goes on\n5\n", ''))
        out, err = self.shell(f'ulimit -f 1; {{ {shlex.quote(str(AUTRAIL))} -if - stat <{shlex.quote(str(log))}; echo $?; }} 2>&1 | cat')
        self.assertEqual((out, err), ('autrail: the log comes through a pipe, and no copy of it can be made (File too large): set TMPDIR to a folder that has room for it\n5\n', ''))

    def test_a_log_that_fails_when_it_is_read_is_a_read_fault(self) -> None:
        with unittest.mock.patch('builtins.open', side_effect=OSError(5, 'Input/output error')), self.assertRaises(basics.Refused) as refused:
            autrail_logs.logs_of([str(EXAMPLE)], contextlib.ExitStack())
        self.assertEqual((refused.exception.status, str(refused.exception)), (4, f"{EXAMPLE}: the file can't be read (Input/output error)"))

    def test_a_time_that_took_the_other_words_is_said(self) -> None:
        for words in (('back', '--at', 'today', 'x'), ('fore', '--since', 'today', 'x'), ('why', '--at', 'today', 'x', 'y')):
            done = run(*words)
            self.assertEqual((done.returncode, done.stderr.count(b'\n')), (2, 1))
            self.assertIn(b'a time is all words up to the next option, so it stands after what is asked about', done.stderr)
        self.assertNotIn(b'a time is', run('back').stderr)

    def test_nothing_is_no_name(self) -> None:
        for words in (('find', ''), ('back', ''), ('why', '', '/customers.csv')):
            self.assertEqual(run('-q', '-if', EXAMPLE, *words).returncode, 2, words)

    def test_the_prompt_helps(self) -> None:
        self.assertEqual(asked(EXAMPLE, 'help\n?\n'), 2 * f'{prompt.HELP}\n')

    def test_an_interrupt_ends_the_program_too(self) -> None:
        fifo = self.folder / 'pid'
        slow = self.log(f'#!/bin/sh\necho $$ >{shlex.quote(str(fifo))}\nexec sleep 60\n', 'slow')
        slow.chmod(0o755)
        # A shell that runs the tests in the background may ignore interrupts, and a child would inherit that.
        heeds = lambda: signal.signal(signal.SIGINT, signal.SIG_DFL)
        child = subprocess.Popen([AUTRAIL, '-if', EXAMPLE, 'stat'], stderr=subprocess.PIPE, preexec_fn=heeds,
                                 env=environment(AUDIT_CLI=shlex.quote(str(slow))))
        for _ in range(200):
            if fifo.exists() and fifo.read_text().strip():
                break
            time.sleep(0.05)
        time.sleep(0.5)
        child.send_signal(signal.SIGINT)
        self.assertEqual(child.wait(30), 130)
        child.stderr.close()
        with self.assertRaises(ProcessLookupError):
            os.kill(int(fifo.read_text()), 0)


class Pictures(Scratch):
    def test_graphs_are_drawn_where_graphviz_is(self) -> None:
        if not shutil.which('dot'):
            self.skipTest('graphviz (dot) is not on this machine')
        text = ''.join(opened_and(0, name.hex(), 50 + place, 10 + 10 * place) for place, name in enumerate([*HOSTILE.values(), b'/tmp/<b>&amp;']))
        hostile = self.log(text + opened_and(1, HOSTILE['slash'].hex(), 90, 300, 'CREATE'))
        for log, what, shapes in ((EXAMPLE, '127.0.0.1:4445', 15), (hostile, 'inode:08:01:90', 2 + len(HOSTILE) + 1)):
            svg, png = self.folder / 'a b.svg', self.folder / 'a b.png'
            for option, file in (('--svg', svg), ('--png', png)):
                done = run('-q', '-if', log, 'back', what, option, file)
                self.assertEqual(done.returncode, 0, done.stderr)
            self.assertEqual(svg.read_text().count('class="node"'), shapes)
            # What stands at the shapes is what the lines of JSON say.
            texts = {html.unescape(it).replace('\xa0', ' ') for it in re.findall(r'<text [^>]*>(.*?)</text>', svg.read_text())}
            objects = [json.loads(it) for it in asked(log, f'back {what} --json').splitlines()]
            self.assertLessEqual({f'{it["label"]}  #{it["id"]}' for it in objects if not it['hidden']}, texts)
            # In a PNG the width and the height follow the magic and the head of the first part.
            self.assertTrue(png.read_bytes().startswith(b'\x89PNG\r\n\x1a\n'))
            self.assertGreater(min(struct.unpack('>II', png.read_bytes()[16:24])), 100)
            self.assertIsNone(RAW.search(svg.read_bytes()))

    def test_a_long_branch_goes_from_top_to_bottom(self) -> None:
        for processes, direction in ((7, 'LR'), (8, 'TB')):
            log = self.log(''.join(call(it, 57, pid=1000 + it, exit=1001 + it) for it in range(1, processes)))
            self.assertIn(f'  rankdir={direction}; ', asked(log, f'back pid:{1000 + processes} --dot'))

    def test_without_graphviz_it_says_what_to_install(self) -> None:
        for name, file in {'python3': sys.executable, 'sh': shutil.which('sh'), 'bash': shutil.which('bash')}.items():
            if file:
                (self.folder / name).symlink_to(file)
        done = run('-q', '-if', EXAMPLE, 'back', '/tmp/x.sh', '--svg', self.folder / 'x.svg', PATH=str(self.folder))
        self.assertEqual((done.returncode, done.stdout), (2, b''))
        self.assertIn(b'apt install graphviz', done.stderr)

    def test_each_object_that_is_shown_is_a_node(self) -> None:
        dot = asked(EXAMPLE, 'back 127.0.0.1:4445 --dot')
        objects = map(json.loads, asked(EXAMPLE, 'back 127.0.0.1:4445 --json').splitlines())
        self.assertEqual({int(it) for it in re.findall(r'^  n(\d+) \[', dot, re.M)}, {it['id'] for it in objects if not it['hidden']})


class Terminal(Scratch):
    """What is seen at a terminal of 110 columns and 40 lines."""

    def setUp(self) -> None:
        super().setUp()
        if not shutil.which('tmux'):
            self.skipTest('tmux is not on this machine')
        # Each test has a server of its own, since a server that was told to end takes a while.
        self.tmux = ['tmux', '-L', f'autrail-{os.getpid()}-{self._testMethodName}', '-f', '/dev/null']

    def start(self, *words: str | Path, **more: str) -> None:
        """Starts autrail at the terminal. Its status is shown when it ends."""
        variables = {'AUDIT_CLI': PROGRAM, 'TZ': 'UTC', 'LC_ALL': 'C.UTF-8', 'PYTHONDONTWRITEBYTECODE': '1', **more}
        line = ' '.join(shlex.quote(str(it)) for it in ('env', *(f'{key}={value}' for key, value in variables.items()), AUTRAIL, '--no-order', *words))
        subprocess.run([*self.tmux, '-u', 'new-session', '-d', '-x', '110', '-y', '40', f'trap : INT; {line}; echo status $?; sleep 60'], check=True, cwd=TOP)
        self.addCleanup(subprocess.run, [*self.tmux, 'kill-server'], check=False)

    def keys(self, *words: str) -> None:
        subprocess.run([*self.tmux, 'send-keys', *words], check=True)

    def screen(self) -> str:
        return subprocess.run([*self.tmux, 'capture-pane', '-p'], capture_output=True, check=True).stdout.decode()

    def wait_for(self, want: str) -> str:
        for _ in range(600):
            screen = self.screen()
            if re.search(want, screen):
                return screen
            time.sleep(0.05)
        self.fail(f'{want!r} did not come:\n{self.screen()}')

    def test_a_session_at_a_terminal(self) -> None:
        self.start('-if', EXAMPLE, 'ask')
        self.wait_for('autrail>')
        self.keys('fore /cust', 'Tab', ' --tree', 'Enter')
        self.wait_for('└─ write 2026-06-09 08:01:56.184:1148  127.0.0.1:4445  #49')
        self.keys('frob', 'Enter')
        self.wait_for("invalid choice: 'frob'")
        self.keys('C-d')
        self.wait_for('status 0')

    def test_a_completed_name_with_a_blank_is_found(self) -> None:
        self.start('-q', '-if', self.log(opened_and(0, HOSTILE['blank'].hex(), 7, 1)), 'ask')
        self.wait_for('autrail>')
        self.keys('find /tmp/a', 'Tab')
        self.wait_for("autrail> find '/tmp/a b'")
        self.keys('Enter')
        self.wait_for('#0 +file +/tmp/a b +file 08:01 7 0')
        self.keys('C-d')
        self.wait_for('status 0')

    def test_a_store_at_a_terminal(self) -> None:
        store = self.folder / 'host.store'
        reduced(EXAMPLE, store)
        self.start('--store', store, '-if', EXAMPLE, 'ask')
        self.wait_for('autrail>')
        self.keys('fore /cust', 'Tab', ' --tree', 'Enter')
        screen = self.wait_for('└─ write 2026-06-09 08:01:56.184:1148  127.0.0.1:4445  #49')
        self.assertIn('tar -cf /tmp/.loot.tar', self.wait_for('one path for each of 4 objects'), screen)
        self.keys('C-d')
        self.wait_for('status 0')

    def test_progress_and_an_interrupt_over_a_long_log(self) -> None:
        long = self.folder / 'long.log'
        with open(long, 'wb') as file:
            subprocess.run([sys.executable, TOP / 'bench' / 'repeat_log.py', EXAMPLE, '42000000'], stdout=file, check=True)
        # A program that takes its time, so that the interrupt comes while the log is read.
        pids = self.folder / 'pids'
        slow = self.log(f'''#!{sys.executable}
import os, sys, time
print(os.getpid(), file=open({str(pids)!r}, 'w'), flush=True)
log = open(sys.argv[3], 'rb')
for line in sys.stdin:
    taken = len(log.read(int(line.split()[1])))
    time.sleep(1)
    print('{{"take":%d}}' % taken, flush=True)
''', 'slow')
        slow.chmod(0o755)
        self.start('-if', long, 'stat', AUDIT_CLI=shlex.quote(str(slow)))
        self.wait_for(r'\d MB of the log read')
        self.keys('C-c')
        self.wait_for('status 130')
        with self.assertRaises(ProcessLookupError):
            os.kill(int(pids.read_text()), 0)

    def test_long_answers_go_through_a_pager(self) -> None:
        text = ''.join(opened_and(0, f'"/tmp/f{it}"', 50 + it, 10 * it) for it in range(1, 61)) + opened_and(1, '"/tmp/out"', 9, 900, 'CREATE')
        log, noted = self.log(text), self.folder / 'noted'
        pager = self.log(f'#!/bin/sh\nhead -n 1 >{shlex.quote(str(noted))}\necho the pager is closed\n', 'pager')
        pager.chmod(0o755)
        self.start('-q', '-if', log, 'back', '/tmp/out', PAGER=shlex.quote(str(pager)))
        self.wait_for('the pager is closed\nstatus 0')
        self.assertEqual(noted.read_text(), '/tmp/out  #61  can have come from:\n')

    def test_short_answers_do_not(self) -> None:
        self.start('-q', '-if', EXAMPLE, 'find', '/customers.csv', PAGER='false')
        self.wait_for('#47     file     /customers.csv   file fe:00 19130 0\nstatus 0')

    def test_less_shows_a_long_answer(self) -> None:
        if not shutil.which('less'):
            self.skipTest('less is not on this machine')
        text = ''.join(opened_and(0, f'"/tmp/f{it}"', 50 + it, 10 * it) for it in range(1, 61)) + opened_and(1, '"/tmp/out"', 9, 900, 'CREATE')
        self.start('-q', '-if', self.log(text), 'back', '/tmp/out', PAGER='less -FRX')
        self.wait_for('/tmp/f30\n')
        # An interrupt is for the pager, which stays. It may drop keys that follow at once.
        self.keys('C-c')
        for _ in range(20):
            self.keys('q')
            time.sleep(0.3)
            if 'status' in self.screen():
                break
        self.wait_for('status 0')


class Rules(unittest.TestCase):
    def test_the_command_prints_the_file(self) -> None:
        self.assertEqual(run('rules').stdout, (HERE.parent / 'kitrevasu.rules').read_bytes())

    def test_auditctl_takes_each_rule(self) -> None:
        """Within a user namespace of its own the kernel takes no rule, so that none is loaded; auditctl parses them all the same."""
        auditctl = shutil.which('auditctl', path=ADMIN_FOLDERS)
        alone = ['unshare', '--user', '--map-root-user']
        if not auditctl or subprocess.run([*alone, 'true'], capture_output=True, check=False).returncode:
            self.skipTest('auditctl (package auditd) or unshare is not on this machine')

        def said(rule: str) -> list[str]:
            lines_said = subprocess.run([*alone, auditctl, *shlex.split(rule)], capture_output=True, text=True, check=False).stderr.splitlines()
            # What a kernel doesn't have is no fault of the rule. Some lines come twice.
            return sorted({it for it in lines_said if it != 'Field option not supported by kernel: exe'})

        good = {'-a': '-a always,exit -F arch=b64 -S read -k x', '-b': '-b 1', '--backlog_wait_time': '--backlog_wait_time 1'}
        said_of_good = {it: said(rule) for it, rule in good.items()}
        for wrong in ('-a always,exit -F arch=b64 -S nosuchcall -k x', '-a always,exit -F arch=b64 -F nosuch=1', '-b x', '--backlog_wait_time x', '--nosuch 1'):
            self.assertRegex('\n'.join(said(wrong)), 'unknown|must be a numeric|is invalid')
        # Those that stand as a choice too.
        rules = [it.removeprefix('#') for it in run('rules').stdout.decode().splitlines() if it and not it.startswith('#') or it.startswith('#-a')]
        self.assertEqual((len(rules), {it.split()[0] for it in rules}), (22, set(good)))
        self.assertEqual(sum('-a never' in it for it in rules), 2)
        for rule in rules:
            self.assertEqual(said(rule), said_of_good[rule.split()[0]], rule)


RT = """#!/bin/sh
# Stands for the kit's command: says what it was asked, and builds a program that says its words and ends with status 3.
echo "$(basename "$PWD"): $*" >>"$ASKED"
[ "$1" = all ] && { echo '== a_crate'; sleep 1; exit "${PROVED:-0}"; }
name=$(basename "$PWD")
mkdir -p out
printf '#!/bin/sh\\necho %s: "$@"\\nexit 3\\n' "$name" >"out/$name"
chmod +x "out/$name"
"""


class Scripts(Scratch):
    """The scripts that build a program and run it, in a copy of the repository without its code, and a command in place of the kit's."""

    def setUp(self) -> None:
        super().setUp()
        self.top, self.said = self.folder / 'top', self.folder / 'said'
        for name in ('audit_cli', 'audit_order'):
            (self.top / 'crates' / name).mkdir(parents=True)
            shutil.copy(TOP / name, self.top / name)
        (self.top / '.ci').mkdir()
        (self.top / 'companion').mkdir()
        shutil.copytree(TOP / 'companion' / 'words', self.top / 'companion' / 'words')
        for name in ('.ci/state', '.ci/built_program', 'crates.txt', 'HANDLES'):
            shutil.copy(TOP / name, self.top / name)
        (self.folder / 'rt').write_text(RT)
        (self.folder / 'rt').chmod(0o755)

    def start(self, *words: str, **more: str) -> subprocess.Popen[bytes]:
        there = {'PATH': f'{self.folder}:{os.environ["PATH"]}', 'ASKED': str(self.said), **more}
        return subprocess.Popen([self.top / words[0], *words[1:]], stdin=subprocess.DEVNULL, stdout=subprocess.PIPE, stderr=subprocess.PIPE, env={**os.environ, **there})

    def ended(self, child: subprocess.Popen[bytes]) -> tuple[int, str, list[str]]:
        out, err = (it.decode() for it in child.communicate(timeout=60))
        return child.returncode, out, err.splitlines()

    def asked(self) -> list[str]:
        return re.sub(r'--jobs \d+', '--jobs N', self.said.read_text()).splitlines()

    def test_a_program_is_built_once_until_the_code_changes(self) -> None:
        status, out, err = self.ended(self.start('audit_cli', 'back', '2'))
        self.assertEqual((status, out), (3, 'audit_cli: back 2\n'))
        self.assertIn('proving and building the program', err[0])
        self.assertRegex(err[2], r'^audit_cli: a_crate is done after \d+ seconds, 1 of \d+ parts$')
        self.assertEqual(self.asked(), ['top: all check --jobs N', 'audit_cli: run -- back 0'])
        self.assertEqual(self.ended(self.start('audit_cli', 'x y')), (3, 'audit_cli: x y\n', []))
        self.assertEqual(len(self.asked()), 2)
        (self.top / 'crates' / 'audit_cli' / 'code').write_text('changed')
        self.assertEqual(self.ended(self.start('audit_cli'))[:2], (3, 'audit_cli:\n'))
        self.assertEqual(len(self.asked()), 4)

    def test_while_nothing_is_done_it_says_that_it_is_at_work(self) -> None:
        script = self.top / '.ci' / 'built_program'
        script.write_text(script.read_text().replace('read -r -t 5', 'read -r -t 1').replace('-ge 60 ]', '-ge 1 ]'))
        # The first line comes in two halves, and the time is up in between.
        (self.folder / 'rt').write_text(RT.replace("echo '== a_crate'; sleep 1;", "printf '== a_'; sleep 3; echo crate; sleep 3;"))
        status, _, err = self.ended(self.start('audit_cli'))
        said = [re.sub(r'\d+ (seconds|of)', r'N \1', it) for it in err[2:]]
        parts = len([it for it in (TOP / 'crates.txt').read_text().splitlines() if it and not it.startswith('#')])
        self.assertEqual(status, 3)
        self.assertEqual(list(dict.fromkeys(said)), [f'audit_cli: at work for N seconds, N of {parts} parts are done', f'audit_cli: a_crate is done after N seconds, N of {parts} parts'])
        self.assertIn(f', 0 of {parts} parts are done', err[2])
        self.assertIn(f', 1 of {parts} parts are done', err[-1])

    def test_the_forms_of_words_are_told_without_building(self) -> None:
        for name in ('audit_cli', 'audit_order'):
            forms = (HERE.parent / 'words' / name).read_text().splitlines()
            self.assertEqual(forms[0], f'{name} of Kitrevasu {basics.VERSION}')
            for word, want in (('--help', forms), ('-h', forms), ('--version', forms[:1])):
                self.assertEqual(self.ended(self.start(name, word)), (2, '', want))
        self.assertFalse(self.said.exists())

    def test_the_newest_version_of_the_changelog_is_that_of_the_programs(self) -> None:
        heads = re.findall(r'^## \[(.*?)\](.*)$', (TOP / 'CHANGELOG.md').read_text(), re.M)
        self.assertEqual(heads[0], ('Unreleased', ''))
        self.assertEqual(heads[1][0], basics.VERSION)
        for number, date in heads[1:]:
            self.assertRegex(number, r'^\d+\.\d+\.\d+$')
            datetime.strptime(date, ' - %Y-%m-%d')
        self.assertEqual(heads[1:], sorted(heads[1:], key=lambda it: [int(part) for part in it[0].split('.')], reverse=True))

    def test_two_programs_are_built_one_after_the_other(self) -> None:
        if not shutil.which('flock'):
            self.skipTest('flock (util-linux) is not on this machine')
        both = [self.start(it) for it in ('audit_cli', 'audit_order')]
        self.assertEqual([self.ended(it)[:2] for it in both], [(3, 'audit_cli:\n'), (3, 'audit_order:\n')])
        self.assertIn(self.asked(), [[*one, *other] for one, other in itertools.permutations(
            (['top: all check --jobs N', 'audit_cli: run -- back 0'], ['top: all check --jobs N', 'audit_order: run']))])

    def test_one_call_of_autrail_builds_both(self) -> None:
        """The command in place of the kit's makes a second program that changes nothing, and one that runs the program of these tests."""
        (self.folder / 'rt').write_text(RT.replace("echo %s: \"$@\"\\nexit 3\\n' \"$name\"", "exec %s\\n' \"$(eval echo '$RUNS_'$name)\""))
        autrail = copy_of_autrail(self.top / 'companion')
        done = subprocess.run([autrail, '-q', '-if', EXAMPLE, 'find', '/customers.csv'], stdin=subprocess.DEVNULL, capture_output=True, check=False, timeout=60, env=environment(
            AUDIT_CLI='', AUDIT_ORDER='', PATH=f'{self.folder}:{os.environ["PATH"]}', ASKED=str(self.said), RUNS_audit_cli=PROGRAM + ' "$@"', RUNS_audit_order='cat'))
        self.assertEqual((done.returncode, done.stdout), (0, b'#47     file     /customers.csv   file fe:00 19130 0\n'), done.stderr.decode())
        self.assertEqual({'audit_cli: run -- back 0', 'audit_order: run'}, set(self.asked()) - {'top: all check --jobs N'})
        for says in ('the program says: audit_cli: ', 'audit_order says: audit_order: '):
            self.assertIn(f'autrail: {says}proving and building the program', done.stderr.decode())
            self.assertRegex(done.stderr.decode(), rf'autrail: {says}a_crate is done after \d+ seconds, 1 of \d+ parts\n')
        self.assertTrue(done.stderr.decode().endswith(OF_EFFECTS))

    def test_what_is_not_proved_is_not_built(self) -> None:
        for name in ('audit_cli', 'audit_order'):
            status, out, err = self.ended(self.start(name, PROVED='1'))
            self.assertEqual((status, out), (126, ''))
            self.assertTrue(err[-1].startswith(f'{name}: the program was not proved, so it was not built; the whole log is in '), err)
            Path(err[-1].split()[-1]).unlink()

    def test_without_the_kit_it_says_so(self) -> None:
        tools = self.folder / 'tools'
        tools.mkdir()
        for tool in ('env', 'bash', 'dirname', 'find', 'sort', 'xargs', 'sha256sum'):
            (tools / tool).symlink_to(shutil.which(tool))
        for name in ('audit_cli', 'audit_order'):
            status, out, err = self.ended(self.start(name, PATH=str(tools)))
            self.assertEqual((status, out, err), (127, '', [f"{name}: the Rattle kit's command rt isn't on the PATH, and the program must be proved before it is built; README.md says what is needed"]))


class Gate(Scratch):
    """What the gate shows of the kit's own gate."""

    def shown(self, text: str) -> list[str]:
        done = subprocess.run([sys.executable, TOP / '.ci' / 'progress.py', self.folder], input=text, capture_output=True, text=True, cwd=TOP, check=True)
        return done.stdout.splitlines()

    def test_each_crate_has_a_line_with_seconds_and_a_log(self) -> None:
        text = ('rt: flow_base is kept: an earlier run\n== acts\nacts::one: proved\nrt: acts proved\n== acts: its tests\nacts::two: proved\n'
                'rt: acts: its tests are proved\nrt: crates/acts/must-fail/a.edit: refused\n2 passed, 0 failed\n')
        lines = self.shown(text)
        self.assertEqual([re.sub(r'^ +\d+ s  ', '', it) for it in lines],
                         ['flow_base is kept: an earlier run', 'acts proved', 'acts: its tests are proved', 'crates/acts/must-fail/a.edit: refused'])
        self.assertTrue(all(re.match(r' +\d+ s  ', it) for it in lines))
        logs = {it.name: it.read_text() for it in self.folder.glob('*.log')}
        self.assertEqual(logs, {'all.log': text, 'flow_base.log': 'rt: flow_base is kept: an earlier run\n',
                                'acts.log': ''.join(it + '\n' for it in text.splitlines()[1:-1])})

    def test_of_a_failure_the_last_20_lines_are_shown(self) -> None:
        lines = self.shown('== ingest\n' + ''.join(f'line {it}\n' for it in range(30)) + 'rt: ingest NOT PROVED\nrt: FAILED: ingest\n')
        self.assertEqual(lines[:20], [f'line {it}' for it in range(10, 30)])
        self.assertRegex(lines[20], r'^ +\d+ s  ingest NOT PROVED$')


# zsh with the folder's completion, in which some words and a tab are typed, and then a key that shows the line.
ZSH = r'''
zmodload zsh/zpty
zpty shell 'TERM=dumb zsh -f -i'
zpty -w shell "PROMPT='> '; fpath=(${(q)1} \$fpath); autoload -U compinit; compinit -u -D; bindkey '^I' complete-word"
zpty -w shell 'show() { print -r -- "LINE[$BUFFER]"; BUFFER=; zle accept-line }; zle -N show; bindkey "^X" show; print "READ""Y"'
zpty -r -m shell said '*READY*'
zpty -n -w shell "$2"$'\t\x18'
zpty -r -m shell said '*LINE\[*\]*'
print -r -- "$said"
'''


class Unit(Scratch):
    """The line that the service runs, as systemd hands it to the shell, with a month in place of that of the clock."""

    def setUp(self) -> None:
        super().setUp()
        self.tools, self.stores, self.logs = (self.folder / it for it in ('tools', 'stores', 'audit logs'))
        for folder in (self.tools, self.stores, self.logs):
            folder.mkdir()
        self.tool('date', 'echo "$MONTH"')
        self.tool('autrail', f'exec {shlex.quote(str(AUTRAIL))} -if {shlex.quote(str(self.logs))} "$@"')
        service = (HERE.parent / 'autrail-keep.service').read_text().replace('@PREFIX@/bin', str(self.tools)).replace('\\\n', ' ')
        self.line = re.search(r'^ExecStart=(.*)$', service, re.M)[1]
        self.parts = [call(serial, 0).encode() + call(serial + 1, 3).encode() for serial in (1, 11, 21, 31)]

    def tool(self, name: str, text: str) -> None:
        (self.tools / name).write_text(f'#!/bin/sh\n{text}\n')
        (self.tools / name).chmod(0o755)

    def keep(self, month: str, parts: int, **more: str) -> int:
        """The unit is started in a month, when this many parts of the log are there."""
        log = self.logs / 'audit.log'
        log.write_bytes(b''.join(self.parts[:parts]))
        os.utime(log, times=(time.time() - 60,) * 2)
        words = [it.replace('$$', '$').replace('%%', '%') for it in shlex.split(self.line)]
        self.assertEqual((words[:2], len(words)), (['/bin/sh', '-c'], 3))
        return subprocess.run(words, stdout=subprocess.DEVNULL, stderr=subprocess.DEVNULL, cwd=self.stores, check=False,
                              env=environment(PATH=f'{self.tools}:{os.environ["PATH"]}', MONTH=month, **more)).returncode

    def taken(self) -> dict[str, int]:
        """How many parts of the log each store has."""
        size = len(self.parts[1])
        self.assertEqual({len(it) for it in self.parts[1:]}, {size})
        return {it.name.removesuffix('.state'): round(json.loads(it.read_text())['taken']['bytes'] / size) for it in sorted(self.stores.glob('*.state'))}

    def test_each_month_has_a_store(self) -> None:
        self.assertEqual((self.keep('2026-06', 1), self.taken()), (0, {'host.2026-06.store': 1}))
        self.assertEqual((self.keep('2026-06', 1), self.taken()), (0, {'host.2026-06.store': 1}))
        self.assertEqual((self.keep('2026-07', 2), self.taken()), (0, {'host.2026-06.store': 2, 'host.2026-07.store': 0}))
        self.assertEqual((self.keep('2026-07', 3), self.taken()), (0, {'host.2026-06.store': 2, 'host.2026-07.store': 1}))
        # A month in which the host didn't run has none.
        self.assertEqual((self.keep('2026-11', 4), self.taken()), (0, {'host.2026-06.store': 2, 'host.2026-07.store': 2, 'host.2026-11.store': 0}))

    def test_it_goes_on_from_the_one_store_of_earlier_versions(self) -> None:
        (self.logs / 'audit.log').write_bytes(self.parts[0])
        run('keep', self.stores / 'host.store', '-if', self.logs, '-m', 'continuous')
        self.assertEqual((self.keep('2026-06', 2), self.keep('2026-06', 3)), (0, 0))
        self.assertEqual(self.taken(), {'host.2026-06.store': 1, 'host.store': 2})

    def test_a_run_that_was_stopped_at_the_end_of_a_month_is_ended_first(self) -> None:
        self.assertEqual(self.keep('2026-06', 1, AUDIT_CLI="sh -c 'exit 6'"), 6)
        self.assertEqual(self.keep('2026-07', 2, AUDIT_CLI="sh -c 'exit 6'"), 6)
        self.assertEqual(self.taken(), {'host.2026-06.store': 0})
        self.assertEqual((self.keep('2026-07', 2), self.keep('2026-07', 3)), (0, 0))
        self.assertEqual(self.taken(), {'host.2026-06.store': 2, 'host.2026-07.store': 1})


class Installed(Scratch):
    def test_make_install(self) -> None:
        if not shutil.which('make'):
            self.skipTest('make is not on this machine')
        program = self.log('#!/bin/sh\nexit 7\n', 'program')
        program.chmod(0o755)
        order = self.log('#!/bin/sh\nexit 8\n', 'order')
        order.chmod(0o755)
        of_both = {'bin/audit_cli', 'bin/autrail', 'lib/kitrevasu/audit_cli', 'lib/kitrevasu/audit_cli.words', 'lib/systemd/system/autrail-keep.service', 'lib/systemd/system/autrail-keep.timer', 'share/autrail/kitrevasu.rules', 'share/bash-completion/completions/autrail',
                   'share/man/man1/autrail.1', 'share/man/man1/audit_cli.1', 'share/zsh/site-functions/_autrail'}
        of_both |= {f'lib/kitrevasu/autrail/{it.name}' for it in (PACKAGE / 'autrail').glob('*.py')}
        of_both |= {'share/autrail/fleet/' + it for it in ('Snakefile', 'host.py', 'slurm/config.yaml', 'slurm/job_state')}
        for second, more in ((self.folder / 'none', set()), (order, {'bin/audit_order', 'lib/kitrevasu/audit_order', 'lib/kitrevasu/audit_order.words', 'share/man/man1/audit_order.1'})):
            done = subprocess.run(['make', '-s', 'install', f'PREFIX={self.folder}/usr', f'PROGRAM={program}', f'ORDER={second}'], cwd=TOP, capture_output=True, check=False)
            self.assertEqual(done.returncode, 0, done.stderr)
            self.assertEqual(b'./audit_order </dev/null builds it' in done.stdout, not more)
            there = {str(it.relative_to(self.folder / 'usr')) for it in (self.folder / 'usr').rglob('*') if it.is_file()}
            self.assertEqual(there, of_both | more)
        installed = self.folder / 'usr' / 'bin' / 'autrail'
        self.assertEqual(subprocess.run([installed, 'rules'], capture_output=True, check=False).stdout, (HERE.parent / 'kitrevasu.rules').read_bytes())
        self.assertEqual(subprocess.run([self.folder / 'usr' / 'bin' / 'audit_cli'], check=False).returncode, 7)
        told = subprocess.run([self.folder / 'usr' / 'bin' / 'audit_cli', '--help'], capture_output=True, check=False)
        self.assertEqual((told.returncode, told.stdout, told.stderr), (2, b'', (HERE.parent / 'words' / 'audit_cli').read_bytes()))
        service = (self.folder / 'usr' / 'lib' / 'systemd' / 'system' / 'autrail-keep.service').read_text()
        self.assertEqual(service.count(f'"{self.folder}/usr/bin/autrail" keep '), 3)
        self.assertEqual((self.folder / 'usr' / 'share' / 'man' / 'man1' / 'audit_cli.1').read_bytes(), (HERE.parent / 'man' / 'audit_cli.1').read_bytes())
        # The companion finds the second program beside itself.
        done = subprocess.run([installed, '--order', '-if', EXAMPLE, 'stat'], capture_output=True, env=environment(AUDIT_ORDER=''), check=False)
        self.assertEqual((done.returncode, done.stdout), (8, b''))

    def test_a_package_is_made_below_a_folder(self) -> None:
        """What is installed below DESTDIR names the places where it will be."""
        if not shutil.which('make'):
            self.skipTest('make is not on this machine')
        program = self.log('#!/bin/sh\nexit 7\n', 'program')
        program.chmod(0o755)
        subprocess.run(['make', '-s', 'install', f'DESTDIR={self.folder}/package', 'PREFIX=/usr', f'PROGRAM={program}', f'ORDER={program}'], cwd=TOP, stdout=subprocess.DEVNULL, check=True)
        service = (self.folder / 'package' / 'usr' / 'lib' / 'systemd' / 'system' / 'autrail-keep.service').read_text()
        self.assertEqual((service.count('"/usr/bin/autrail" keep '), service.count('@PREFIX@')), (3, 0))
        self.assertEqual([it.name for it in (self.folder / 'package').iterdir()], ['usr'])

    def test_systemd_takes_the_units(self) -> None:
        if not shutil.which('systemd-analyze'):
            self.skipTest('systemd-analyze is not on this machine')
        for name in ('autrail-keep.service', 'autrail-keep.timer'):
            (self.folder / name).write_text((HERE.parent / name).read_text().replace('@PREFIX@/bin/autrail', str(AUTRAIL)))
        done = subprocess.run(['systemd-analyze', '--man=no', 'verify', self.folder / 'autrail-keep.service', self.folder / 'autrail-keep.timer'], capture_output=True, text=True, check=False)
        self.assertEqual([it for it in done.stderr.splitlines() if 'autrail-keep' in it], [])

    def test_the_man_page_is_built_of_its_source(self) -> None:
        if not shutil.which('scdoc'):
            self.skipTest('scdoc is not on this machine')
        strip = lambda text: [it for it in text.decode().splitlines() if not it.startswith(('.\\"', '.TH'))]
        for name in ('autrail', 'audit_cli', 'audit_order'):
            built = subprocess.run(['scdoc'], input=(HERE.parent / f'{name}.1.scd').read_bytes(), capture_output=True, check=True).stdout
            self.assertEqual(strip(built), strip((HERE.parent / 'man' / f'{name}.1').read_bytes()), name)

    def test_the_pages_of_the_programs_name_each_form_of_words_and_each_status(self) -> None:
        readme = (TOP / 'README.md').read_text()
        # Status 0 has no row, since nothing is to be done.
        statuses = {0} | {int(it) for row in re.findall(r'^\| ([\d, ]+) \|', readme[readme.index('| Status of'):], re.M) for it in row.split(', ')}
        for name, ends in (('audit_cli', statuses), ('audit_order', {0, 2, 3, 4, 5})):
            page = (HERE.parent / f'{name}.1.scd').read_text()
            self.assertEqual({int(it) for it in re.findall(r'^\*(\d+)\*$', page, re.M)}, ends)
            synopsis = page[page.index('# SYNOPSIS'):page.index('# DESCRIPTION')]
            for form in re.findall(rf'^    ({name}.*?)(?:   .*)?$', (HERE.parent / 'words' / name).read_text(), re.M):
                self.assertTrue(set(re.findall('[a-z_]+|[A-Z]+', form)) <= set(re.findall('[a-z]+(?:_[a-z]+)*|[A-Z]+', synopsis)), form)

    def test_the_man_page_and_completions_name_each_command_and_option(self) -> None:
        helps = ''.join(run(*it, '--help').stdout.decode() for it in ([], ['back'], ['fore'], ['why'], ['keep']))
        options = set(re.findall(r'--[a-z-]+', helps)) - {'--input', '--help', '--version', '--mode', '--quiet', '--all'}
        for name in ('autrail.1.scd', 'autrail.bash', '_autrail'):
            text = (HERE.parent / name).read_text().replace('\\-', '-')
            for word in sorted(options) + ['back', 'fore', 'why', 'find', 'show', 'stat', 'ask', 'keep', 'rules']:
                self.assertIn(word, text, name)

    def test_zsh_completes(self) -> None:
        """At a terminal of zsh's own. The key ^X shows what stands on its line."""
        if not shutil.which('zsh'):
            self.skipTest('zsh is not on this machine')
        script = self.log(ZSH, 'completes.zsh')
        self.assertEqual(subprocess.run(['zsh', '-n', HERE.parent / '_autrail'], capture_output=True, check=False).stderr, b'')
        for words, want in (('ba', 'back '), ('keep x --ov', 'keep x --over-gap '), ('-m con', '-m continuous '), ('back x --tr', 'back x --tree '), ('back x --at yes', 'back x --at yesterday '),
                            ('why x y --int', 'why x y --interpret '), ('--ord', '--order '), ('keep x --af', 'keep x --after '), ('fore x --si', 'fore x --since '), ('stat --js', 'stat --json ')):
            done = subprocess.run(['zsh', '-f', script, HERE.parent, f'autrail {words}'], capture_output=True, text=True, timeout=60, check=False)
            self.assertIn(f'LINE[autrail {want}]', done.stdout, done.stderr)

    def test_bash_completes(self) -> None:
        if not shutil.which('bash'):
            self.skipTest('bash is not on this machine')
        script = 'source companion/autrail.bash; COMP_WORDS=(autrail "$@"); COMP_CWORD=$#; _autrail; printf "%s\\n" "${COMPREPLY[@]}"'
        for words, want in ((['ba'], ['back']), (['back', 'x', '--tr'], ['--tree']), (['-m', 'con'], ['continuous']), (['back', 'x', '--at', 'yes'], ['yesterday']), (['--or'], ['--order']), (['--sto'], ['--store']), (['ke'], ['keep']), (['keep', 'x', '--ov'], ['--over-gap'])):
            done = subprocess.run(['bash', '-c', script, 'bash', *words], capture_output=True, text=True, cwd=TOP, check=False)
            self.assertEqual(done.stdout.split(), want, words)


def main() -> int:
    global KILLS, PROGRAM
    words = argparse.ArgumentParser(description=__doc__.splitlines()[0])
    words.add_argument('--program', default=PROGRAM)
    words.add_argument('--kills', type=int, default=KILLS, help='how many runs of keep are killed at random moments')
    words.add_argument('names', nargs='*')
    options = words.parse_args()
    KILLS = options.kills
    PROGRAM = options.program
    subprocess.run([*shlex.split(PROGRAM), 'back', '0'], stdin=subprocess.DEVNULL, stdout=subprocess.DEVNULL, check=True)
    if PROGRAM == str(SCRIPT):
        PROGRAM = str(BUILT)
    start = time.monotonic()
    result = unittest.main(argv=['run.py', *options.names], exit=False, verbosity=1).result
    for test, why in result.skipped:
        print(f'skipped: {test.id().split(".", 1)[1]}: {why}')
    print(f'the companion: {result.testsRun - len(result.skipped)} tests run, {len(result.skipped)} skipped, '
          f'{len(result.failures) + len(result.errors)} failed, {time.monotonic() - start:.0f} seconds')
    return 0 if result.wasSuccessful() else 1


if __name__ == '__main__':
    sys.exit(main())
