#!/usr/bin/env python3
"""The tests of the fleet: stores of several hosts by Snakemake, on this machine's processors and through a Slurm of one node.

    companion/fleet/test.py [--program WORDS] [--long] [NAME..]

WORDS is the program (what ./audit_cli at the top has built). --long times 50 hosts of 20 MB. Without Snakemake nothing is tested, without Slurm
(packages slurm-wlm and munge) nothing through it, and both are said. The Slurm has a configuration of the test's own, and is ended with it.
"""
from __future__ import annotations

import argparse
import contextlib
import gzip
import json
import os
import shlex
import shutil
import signal
import socket
import subprocess
import sys
import tempfile
import time
import unittest
from pathlib import Path

HERE = Path(__file__).resolve().parent
TOP = HERE.parent.parent
AUTRAIL = HERE.parent / 'autrail'
EXAMPLE = TOP / 'examples' / 'web1_sample.log'
PROGRAM = str(TOP / 'audit_cli')
BUILT = TOP / 'crates' / 'audit_cli' / 'out' / 'audit_cli'
ADMIN_PATH = os.environ['PATH'] + ':/usr/sbin:/sbin'
SLURM = ('munged', 'slurmctld', 'slurmd', 'sbatch', 'scontrol', 'scancel')
LONG = False
# A log that takes the program so long that it can be killed between its first commit and its last.
LARGE = 64 << 20


def environment(**more: str) -> dict[str, str]:
    return {**os.environ, 'AUDIT_CLI': PROGRAM, 'PATH': ADMIN_PATH, 'TZ': 'UTC', 'LC_ALL': 'C.UTF-8', 'PYTHONDONTWRITEBYTECODE': '1', **more}


def call(serial: int, number: int, pid: int, exit: int = 5) -> str:
    return (f'type=SYSCALL msg=audit({1780992000 + serial}.000:{serial}): arch=c000003e syscall={number} success=yes exit={exit} a0=3 a1=0 a2=0 a3=0 items=1 '
            f'ppid=1 pid={pid} auid=0 uid=0 gid=0 tty=pts0 ses=1 comm="p" exe="/usr/bin/p"\n')


def opened_and(move: int, name: str, inode: int, serial: int, pid: int) -> str:
    """A process opens a file as descriptor 3, and reads (0) or writes (1) it."""
    opened = f'type=PATH msg=audit({1780992000 + serial}.000:{serial}): item=0 name={name} inode={inode} dev=08:01 mode=0100644 nametype=NORMAL\n'
    return call(serial, 257, pid, exit=3) + opened + call(serial + 1, move, pid)


def repeated(size: int) -> bytes:
    return subprocess.run([sys.executable, TOP / 'bench' / 'repeat_log.py', EXAMPLE, str(size)], capture_output=True, check=True).stdout


def wait_until(holds, what: str) -> None:
    end = time.monotonic() + 60
    while time.monotonic() < end:
        if holds():
            return
        time.sleep(0.001)
    raise AssertionError(f'{what} did not come')


class Hosts(unittest.TestCase):
    """Hosts with logs in a folder of the test's own, and Snakemake over them."""

    def setUp(self) -> None:
        self.folder = Path(tempfile.mkdtemp(prefix='fleet test '))
        self.addCleanup(shutil.rmtree, self.folder)
        # munged's socket is to be reached by all.
        self.folder.chmod(0o711)
        self.hosts, self.stores = self.folder / 'the hosts', self.folder / 'the stores'
        self.hosts.mkdir()

    def put(self, host: str, data: bytes | str, name: str = 'audit.log') -> None:
        folder = self.hosts / host
        folder.mkdir(exist_ok=True)
        (folder / name).write_bytes(data.encode() if isinstance(data, str) else data)
        os.utime(folder / name, times=(time.time() - 60,) * 2)

    def words(self, *words: str | Path, **config: str) -> list[str | Path]:
        given = {'hosts': self.hosts, 'stores': self.stores, **config}
        return ['snakemake', *words, '-s', HERE / 'Snakefile', '--nocolor', '--keep-going', '--config', *(f'{key}={value}' for key, value in given.items())]

    def snakemake(self, *words: str | Path, status: int = 0, **config: str) -> str:
        """What Snakemake says."""
        done = subprocess.run(self.words(*words, **config), stdout=subprocess.PIPE, stderr=subprocess.STDOUT, text=True, cwd=self.folder, env=environment(), check=False)
        self.assertEqual(done.returncode, status, done.stdout)
        return done.stdout

    def table(self) -> dict[str, list[str]]:
        """The table's cells by host, without the last column."""
        return {line.split()[0]: line.split()[1:] for line in (self.stores / 'table.txt').read_text().splitlines()[1:]}

    def mistrust(self, host: str) -> str:
        place = (self.stores / 'table.txt').read_text().splitlines()[0].index('to mistrust')
        return next(it for it in (self.stores / 'table.txt').read_text().splitlines() if it.split()[0] == host)[place:]

    def replies(self, words: list[str | Path], before: str = '') -> list[bytes]:
        questions = before + 'stat\n' + ''.join(f'{way} {of}\n' for of in range(0, 120, 7) for way in ('back', 'fore', 'show'))
        return subprocess.run([*shlex.split(PROGRAM), *words], input=questions.encode(), stdout=subprocess.PIPE, check=True).stdout.splitlines()

    def must_have(self, host: str, text: bytes) -> None:
        """The host's store answers as one run of the program over its whole log."""
        log = self.folder / 'whole.log'
        log.write_bytes(text)
        want = self.replies(['watch', 'continuous', log], 'take 1000000000\nsettle\n')[2:]
        self.assertEqual(self.replies(['query', self.stores / f'{host}.store']), want)

    def kill_when_half_taken(self, host: str) -> None:
        """Kills autrail and the program at work on a host's store, when the store has its first batch."""
        store, state = self.stores / f'{host}.store', self.stores / f'{host}.store.state'
        wait_until(lambda: begins_with_an_open_gate(store), 'the first batch')
        # The name of the store is a word of the programs that are at work on it.
        for pid in processes_with(str(store)):
            with contextlib.suppress(ProcessLookupError):
                os.kill(pid, signal.SIGKILL)
        self.assertIsNotNone(json.loads(state.read_text())['coming'], 'the portion was taken before it could be killed')


class Local(Hosts):
    """On this machine's processors."""

    def test_stores_are_kept_and_asked(self) -> None:
        """Counts and answers are those that follow from the lines: on web1 a file was copied, on web2 it wasn't."""
        copied = opened_and(0, '"/srv/plan"', 7, 10, 100) + opened_and(1, '"/tmp/copy"', 8, 20, 100)
        other = opened_and(0, '"/srv/plan"', 7, 10, 300)
        self.put('web1', gzip.compress(copied[:copied.index('type', 400)].encode()), 'audit.log.1.gz')
        self.put('web1', copied[copied.index('type', 400):])
        self.put('web2', other)
        self.put('not\x1b[31m good', copied)
        said = self.snakemake('-j', '2')
        self.assertEqual(said.count('rule keep:'), 2)
        self.assertIn('3 hosts, 1 of them with a failure: not\\x1b[31m good', said)
        self.assertEqual(self.table()['web1'][:6], [f'{len(copied):,}', '2026-06-09T08:00:10Z', '2026-06-09T08:00:21Z', '4', '2', '3'])
        self.assertEqual(self.table()['web2'][:6], [f'{len(other):,}', '2026-06-09T08:00:10Z', '2026-06-09T08:00:11Z', '2', '1', '2'])
        self.assertIn('the log has no writes and no starts of processes', self.mistrust('web2'))
        self.assertNotIn('\x1b', (self.stores / 'table.txt').read_text())
        self.snakemake('ask', '-j', '2', question='fore /srv/plan')
        lines = [json.loads(it) for it in (self.stores / 'answers.jsonl').read_text().splitlines()]
        self.assertEqual([it['host'] for it in lines], ['not\x1b[31m good', 'web1', 'web2'])
        self.assertEqual([it['status'] for it in lines], [None, 0, 0])
        self.assertEqual([[thing['label'] for thing in it['answer']] for it in lines], [[], ['/srv/plan', 'p[100]', '/tmp/copy'], ['/srv/plan', 'p[300]']])
        self.snakemake('ask', '-j', '2', question='find /tmp/copy')
        lines = [json.loads(it) for it in (self.stores / 'answers.jsonl').read_text().splitlines()]
        self.assertEqual([it['status'] for it in lines], [None, 0, 1])
        self.assertEqual(lines[2]['said'], ['nothing in the store is called /tmp/copy'])
        self.assertEqual({it.stat().st_mode & 0o77 for it in self.stores.iterdir() if it.is_file()}, {0})

    def test_only_hosts_with_new_logs_are_taken_up(self) -> None:
        first, then = opened_and(0, '"/a"', 7, 10, 100), opened_and(1, '"/b"', 8, 20, 100)
        for host in ('a', 'b', 'c'):
            self.put(host, first)
        self.assertEqual(self.snakemake('-j', '2').count('rule keep:'), 3)
        self.assertEqual(self.snakemake('-j', '2').count('rule keep:'), 0)
        # auditd renamed the file and began a new one; another host's log was copied again as it was.
        os.rename(self.hosts / 'b' / 'audit.log', self.hosts / 'b' / 'audit.log.1')
        self.put('b', then)
        said = self.snakemake('-j', '2')
        self.assertEqual((said.count('rule keep:'), said.count('wildcards: host=b')), (1, 1))
        self.assertEqual([self.table()[it][0] for it in 'abc'], [str(len(first)), str(len(first + then)), str(len(first))])
        # The end of an event waits, and is asked for again in the next run.
        with open(self.hosts / 'c' / 'audit.log', 'a', encoding='ascii') as log:
            log.write(then)
        # However long this machine takes, the log is still being written.
        os.utime(self.hosts / 'c' / 'audit.log', times=(time.time() + 3600,) * 2)
        self.snakemake('-j', '2')
        self.assertIn('bytes wait for the end of an event', self.mistrust('c'))
        os.utime(self.hosts / 'c' / 'audit.log', times=(time.time() - 60,) * 2)
        self.assertEqual(self.snakemake('-j', '2').count('rule keep:'), 1)
        self.assertEqual(self.table()['c'][0], str(len(first + then)))

    def test_a_broken_store_does_not_stop_the_others(self) -> None:
        first = opened_and(0, '"/a"', 7, 10, 100)
        for host in ('a', 'b', 'c'):
            self.put(host, first)
        self.snakemake('-j', '2')
        store = self.stores / 'b.store'
        whole = store.read_bytes()
        store.write_bytes(b'\xa5' + bytes(30))
        then = opened_and(1, '"/b"', 8, 20, 100)
        for host in ('a', 'b', 'c'):
            self.put(host, first + then)
        said = self.snakemake('-j', '2')
        self.assertIn('3 hosts, 1 of them with a failure: b', said)
        self.assertEqual([self.table()[it][0] for it in 'ac'], [str(len(first + then))] * 2)
        self.assertTrue(self.mistrust('b').startswith('status 7: '), self.mistrust('b'))
        self.snakemake('ask', '-j', '2', question='find /b')
        self.assertEqual([json.loads(it)['status'] for it in (self.stores / 'answers.jsonl').read_text().splitlines()], [0, 7, 0])
        # It is taken up again in each run, though its logs are as they were.
        store.write_bytes(whole)
        self.assertEqual(self.snakemake('-j', '2').count('rule keep:'), 1)
        self.assertEqual(self.table()['b'][0], str(len(first + then)))

    def test_a_job_that_is_killed_goes_on(self) -> None:
        text = repeated(LARGE)
        self.put('big', text)
        self.put('small', EXAMPLE.read_bytes())
        run = subprocess.Popen(self.words('-j', '1', '--restart-times', '2'), stdout=subprocess.PIPE, stderr=subprocess.STDOUT, text=True, cwd=self.folder, env=environment())
        self.kill_when_half_taken('big')
        said = run.communicate(timeout=600)[0]
        self.assertEqual(run.returncode, 0, said)
        self.assertIn('Trying to restart job', said)
        self.assertEqual([self.table()[it][0] for it in ('big', 'small')], [f'{len(text):,}', '284,340'])
        self.must_have('big', text)


def begins_with_an_open_gate(store: Path) -> bool:
    if not store.exists():
        return False
    with open(store, 'rb') as file:
        return file.read(1) == b'\xa5'


def processes_with(word: str) -> list[int]:
    found = []
    for file in Path('/proc').glob('[0-9]*/cmdline'):
        with contextlib.suppress(OSError):
            if word.encode() in file.read_bytes().split(b'\0') and int(file.parent.name) != os.getpid():
                found.append(int(file.parent.name))
    return found


CONFIGURATION = '''ClusterName=test
SlurmctldHost={host}(127.0.0.1)
SlurmUser={user}
SlurmdUser={user}
AuthType=auth/munge
AuthInfo=socket={folder}/munge.socket
SlurmctldPort={ports[0]}
SlurmdPort={ports[1]}
StateSaveLocation={folder}/state
SlurmdSpoolDir={folder}/spool
SlurmctldPidFile={folder}/slurmctld.pid
SlurmdPidFile={folder}/slurmd.pid
ProctrackType=proctrack/linuxproc
TaskPlugin=task/none
JobAcctGatherType=jobacct_gather/none
AccountingStorageType=accounting_storage/none
MpiDefault=none
SwitchType=switch/none
MailProg=/bin/true
ReturnToService=2
SelectType=select/cons_tres
SelectTypeParameters=CR_Core
SchedulerParameters=batch_sched_delay=0,sched_min_interval=0
NodeName={host} NodeAddr=127.0.0.1 CPUs={processors} RealMemory={memory} State=UNKNOWN
PartitionName=all Nodes=ALL Default=YES MaxTime=INFINITE State=UP
'''


def free_ports() -> list[int]:
    with contextlib.ExitStack() as ends:
        sockets = [ends.enter_context(socket.socket()) for _ in range(2)]
        for it in sockets:
            it.bind(('127.0.0.1', 0))
        return [it.getsockname()[1] for it in sockets]


class WithSlurm(Hosts):
    """A Slurm of one node, and the profile in the folder."""

    def setUp(self) -> None:
        missing = [it for it in SLURM if not shutil.which(it, path=ADMIN_PATH)]
        if missing:
            self.skipTest(f'{", ".join(missing)} (packages slurm-wlm and munge) not on this machine')
        super().setUp()
        # Its name has no blank, since Slurm's configuration takes none, and munged's socket is to be reached by all.
        self.slurm = Path(tempfile.mkdtemp(prefix='fleet-slurm-'))
        self.addCleanup(shutil.rmtree, self.slurm)
        self.slurm.chmod(0o711)
        for name in ('state', 'spool'):
            (self.slurm / name).mkdir()
        self.start_slurm()

    def start_slurm(self) -> None:
        user = subprocess.run(['id', '-un'], capture_output=True, text=True, check=True).stdout.strip()
        memory = int(Path('/proc/meminfo').read_text().split()[1]) // 1024
        (self.slurm / 'slurm.conf').write_text(CONFIGURATION.format(
            host=socket.gethostname().split('.')[0], user=user, folder=self.slurm, ports=free_ports(), processors=os.cpu_count(), memory=memory))
        (self.slurm / 'key').write_bytes(os.urandom(1024))
        (self.slurm / 'key').chmod(0o400)
        os.environ['SLURM_CONF'] = str(self.slurm / 'slurm.conf')
        self.addCleanup(os.environ.pop, 'SLURM_CONF')
        files = [f'--{name}={self.slurm}/{file}' for name, file in (('socket', 'munge.socket'), ('key-file', 'key'), ('pid-file', 'munged.pid'), ('log-file', 'munged.log'), ('seed-file', 'seed'))]
        self.daemon('munged', '--foreground', *files)
        wait_until((self.slurm / 'munge.socket').exists, 'the socket of munged')
        self.daemon('slurmctld', '-D', '-f', str(self.slurm / 'slurm.conf'))
        self.daemon('slurmd', '-D', '-f', str(self.slurm / 'slurm.conf'))
        wait_until(lambda: 'State=IDLE' in self.slurm_says('scontrol', 'show', 'node'), 'the node')

    def daemon(self, *words: str) -> None:
        """A daemon that is ended, by its process id, when the test ends."""
        with open(self.slurm / f'{words[0]}.out', 'wb') as out:
            child = subprocess.Popen(words, stdin=subprocess.DEVNULL, stdout=out, stderr=out, env=environment())
        self.addCleanup(child.wait)
        self.addCleanup(child.terminate)

    def slurm_says(self, *words: str) -> str:
        return subprocess.run(words, capture_output=True, text=True, env=environment(), check=False).stdout

    def cluster(self, *words: str) -> tuple[str, ...]:
        return ('--profile', str(HERE / 'slurm'), *words)


class Cluster(WithSlurm):
    """Through Slurm."""

    def test_the_same_through_slurm_and_a_job_is_killed(self) -> None:
        text = repeated(LARGE)
        self.put('big', text)
        self.put('broken', EXAMPLE.read_bytes())
        self.stores.mkdir()
        (self.stores / 'broken.store').write_bytes(b'\xa5' + bytes(30))
        for host in ('web1', 'web2'):
            self.put(host, EXAMPLE.read_bytes())
        run = subprocess.Popen(self.words(*self.cluster('--group-components', 'keep=1')), stdout=subprocess.PIPE, stderr=subprocess.STDOUT, text=True, cwd=self.folder, env=environment())
        self.kill_when_half_taken('big')
        said = run.communicate(timeout=900)[0]
        self.assertEqual(run.returncode, 0, said)
        self.assertIn('Submitted group job', said)
        self.assertIn('4 hosts, 1 of them with a failure: broken', said)
        self.assertEqual([self.table()[it][0] for it in ('big', 'web1', 'web2')], [f'{len(text):,}', '284,340', '284,340'])
        self.must_have('big', text)
        self.snakemake('ask', *self.cluster(), question='find /customers.csv')
        self.assertEqual([json.loads(it)['status'] for it in (self.stores / 'answers.jsonl').read_text().splitlines()], [0, 7, 0, 0])


class Timed(WithSlurm):
    """50 hosts of 20 MB: one after the other, on four processors, and through Slurm."""

    def setUp(self) -> None:
        if not LONG:
            self.skipTest('asked for by --long alone')
        super().setUp()

    def fill(self, hosts: int, size: int) -> None:
        lines = repeated(size).splitlines(keepends=True)
        parts = [b''.join(lines[len(lines) * it // 3:len(lines) * (it + 1) // 3]) for it in range(3)]
        packed = gzip.compress(parts[0], 6)
        for host in range(hosts):
            self.put(f'host{host}', packed, 'audit.log.2.gz')
            self.put(f'host{host}', parts[1], 'audit.log.1')
            self.put(f'host{host}', parts[2])

    def timed(self, what: str, action) -> float:
        shutil.rmtree(self.stores, ignore_errors=True)
        self.stores.mkdir()
        begun = time.monotonic()
        action()
        took = time.monotonic() - begun
        print(f'{what}: {took:.1f} s', flush=True)
        return took

    def one_after_the_other(self) -> None:
        for host in sorted(self.hosts.iterdir()):
            subprocess.run([AUTRAIL, 'keep', self.stores / f'{host.name}.store', '-if', host, '-m', 'continuous'], stdout=subprocess.DEVNULL, env=environment(), check=True)

    def test_fifty_hosts(self) -> None:
        self.fill(50, 20_000_000)
        self.timed('autrail keep, one host after the other', self.one_after_the_other)
        self.timed('snakemake -j 1', lambda: self.snakemake('-j', '1'))
        self.timed('snakemake through Slurm, 4 processors', lambda: self.snakemake(*self.cluster()))
        self.timed('snakemake -j 4', lambda: self.snakemake('-j', '4'))
        begun = time.monotonic()
        self.assertEqual(self.snakemake('-j', '4').count('rule keep:'), 0)
        print(f'snakemake -j 4 with nothing new: {time.monotonic() - begun:.1f} s')
        begun = time.monotonic()
        self.snakemake('ask', '-j', '4', question='fore customers.csv --each')
        print(f'a question to all of them, snakemake -j 4: {time.monotonic() - begun:.1f} s')
        lines = [json.loads(it) for it in (self.stores / 'answers.jsonl').read_text().splitlines()]
        self.assertEqual([it['status'] for it in lines], [0] * 50)


def main() -> int:
    global LONG, PROGRAM
    words = argparse.ArgumentParser(description=__doc__.splitlines()[0])
    words.add_argument('--program', default=PROGRAM)
    words.add_argument('--long', action='store_true', help='time 50 hosts of 20 MB')
    words.add_argument('names', nargs='*')
    options = words.parse_args()
    if not shutil.which('snakemake'):
        print('skipped: the fleet, since snakemake (package snakemake) is not on this machine')
        return 0
    subprocess.run([*shlex.split(options.program), 'back', '0'], stdin=subprocess.DEVNULL, stdout=subprocess.DEVNULL, check=True)
    LONG, PROGRAM = options.long, str(BUILT) if options.program == PROGRAM else options.program
    start = time.monotonic()
    result = unittest.main(argv=['test.py', *options.names], exit=False, verbosity=1).result
    for test, why in result.skipped:
        print(f'skipped: {test.id().split(".", 1)[1]}: {why}')
    print(f'the fleet: {result.testsRun - len(result.skipped)} tests run, {len(result.skipped)} skipped, '
          f'{len(result.failures) + len(result.errors)} failed, {time.monotonic() - start:.0f} seconds')
    return 0 if result.wasSuccessful() else 1


if __name__ == '__main__':
    sys.exit(main())
