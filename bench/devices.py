#!/usr/bin/env python3
"""Whether the program does at devices that aren't plain files what docs/DEVICES.md says.

    bench/devices.py [--program ./crates/audit_cli/out/audit_cli] [--only WORD]

Logs that grow, are cut, renamed, removed or come over a pipe, the mode of a store's file, files of /proc, streams that aren't ready, a reader of the replies that
goes away, bounds on memory, and a program that is stopped and goes on. Prints what is wrong, and ends with status 1 if something is.
"""
import argparse
import fcntl
import json
import os
import resource
import signal
import subprocess
import sys
import tempfile
import threading
from pathlib import Path

from runs import MODES, PROGRAM, TOP, made_log, run

TWO_FLOWS = (TOP / 'examples/two_flows.log').read_bytes()
FORK, WRITE = TWO_FLOWS.splitlines(keepends=True)
SECONDS = 30
MEGABYTE = 1 << 20
STACK = 1 << 18


class Dialogue:
    """A run of `watch` over pipes."""

    def __init__(self, here, log, *words, **how):
        self.child = subprocess.Popen([here.program, 'watch', 'plain', log, *words], stdin=subprocess.PIPE, stdout=subprocess.PIPE, stderr=subprocess.PIPE,
                                      bufsize=0, **how)
        self.guard = threading.Timer(SECONDS, self.child.kill)
        self.guard.start()

    def ask(self, question):
        self.child.stdin.write(question.encode() + b'\n')
        return self.child.stdout.readline().decode().rstrip('\n')

    def end(self):
        """The status, and what standard error says."""
        self.child.stdin.close()
        text = self.child.stderr.read().decode()
        status = self.child.wait()
        self.guard.cancel()
        return status, text


class Devices:
    """The program, a folder, and what was wrong."""

    def __init__(self, folder, program):
        self.folder, self.program, self.faults = folder, program, []

    def file(self, name, content=b''):
        path = self.folder / name
        path.write_bytes(content)
        return path

    def want(self, what, got, wanted):
        if got != wanted:
            self.faults.append(f'{what}: {got!r}, wanted {wanted!r}')


def a_log_that_grows(here):
    log = here.file('log', FORK)
    talk = Dialogue(here, log)
    here.want('the log', talk.ask('take 1000'), '{"take":140}')
    here.want('its end', talk.ask('take 1000'), '{"take":0}')
    with log.open('ab') as file:
        file.write(WRITE)
    here.want('what came', talk.ask('take 1000'), '{"take":139}')
    here.want('settle', talk.ask('settle'), '{"settle":2}')
    here.want('the answer', talk.ask('back 2'), '{"back":2,"ids":[0,1,2]}')
    here.want('the end', talk.end(), (0, ''))


def a_log_that_changes(here, change, text):
    """After its first line a log is changed: then it is at its end, and has a line again once this text is appended to the file that was opened."""
    log = here.file('log', FORK)
    with log.open('ab') as file:
        talk = Dialogue(here, log)
        here.want('the log', talk.ask('take 1000'), '{"take":140}')
        change(log)
        here.want('after the change', talk.ask('take 1000'), '{"take":0}')
        file.write(text)
        file.flush()
        here.want('the line', talk.ask('take 1000'), '{"take":139}')
        here.want('settle', talk.ask('settle'), '{"settle":2}')
        here.want('the end', talk.end(), (0, ''))
    log.unlink()


def a_log_that_is_cut(here):
    a_log_that_changes(here, lambda log: os.truncate(log, 0), b'\n' * 140 + WRITE)


def a_log_that_is_renamed_or_removed(here):
    """A new file gets its name, and isn't read."""
    for away in (lambda log: log.rename(here.folder / 'log.1'), Path.unlink):
        def change(log, away=away):
            away(log)
            here.file('log', b'\n' * 1000)
        a_log_that_changes(here, change, WRITE)


def a_settle_within_a_line(here):
    ran = run(['watch', 'plain', here.file('log', TWO_FLOWS)], b'take 200\nsettle\ntake 1000\nstat\n', here.program)
    stat = json.loads(ran.out.splitlines()[-1])
    here.want('lines and malformed ones', (ran.status, stat['lines'], stat['malformed']), (0, 3, 2))


def a_pipe_as_the_log(here):
    """The program waits for the writer, and the log ends when the writer goes."""
    fifo = here.folder / 'fifo'
    os.mkfifo(fifo)
    talk = Dialogue(here, fifo)
    try:
        talk.child.wait(0.3)
        here.faults.append('without a writer the program ended')
    except subprocess.TimeoutExpired:
        pass
    with open(fifo, 'wb') as writer:
        writer.write(FORK + WRITE[:50])
        writer.flush()
        here.want('what came', talk.ask('take 190'), '{"take":190}')
        writer.write(WRITE[50:])
    here.want('the rest', talk.ask('take 1000'), '{"take":89}')
    here.want('after the writer', talk.ask('take 1'), '{"take":0}')
    here.want('settle', talk.ask('settle'), '{"settle":2}')
    here.want('the end', talk.end(), (0, ''))
    # without a name of its own, as the shell's <(..) hands it over
    with subprocess.Popen(['cat', here.file('log', TWO_FLOWS)], stdout=subprocess.PIPE) as cat:
        talk = Dialogue(here, f'/dev/fd/{cat.stdout.fileno()}', pass_fds=[cat.stdout.fileno()])
        here.want('an open pipe', talk.ask('take 1000'), '{"take":279}')
        here.want('the end', talk.end(), (0, ''))


def a_pipe_as_the_log_of_a_store(here):
    store, stat = here.folder / 'store', None
    for words in ([], ['--resume']):
        with subprocess.Popen(['cat', here.file('log', TWO_FLOWS)], stdout=subprocess.PIPE) as cat:
            descriptor = cat.stdout.fileno()
            ended = subprocess.run([here.program, 'reduce', 'plain', f'/dev/fd/{descriptor}', store, *words], pass_fds=[descriptor], capture_output=True)
        here.want(f'reduce {words}', (ended.returncode, ended.stderr), (0, b''))
        stat = stat or ended.stdout
        here.want(f'the counts of {words}', ended.stdout, stat)
    fifo = here.folder / 'fifo'
    os.mkfifo(fifo)
    for words in (['query', fifo], ['reduce', 'plain', here.folder / 'log', fifo]):
        ran = run(words, program=here.program)
        here.want(f'{words[0]} of a pipe as the store', (ran.status, ran.text), (6, 'store fault'))


def a_store_that_keeps_its_mode(here):
    """A store that the program makes is for its owner alone; one that is there keeps its mode."""
    log, store = here.file('log', TWO_FLOWS), here.folder / 'store'
    for mode in (0o600, 0o640):
        here.want('the status', run(['reduce', 'plain', log, store], program=here.program).status, 0)
        here.want('the mode', store.stat().st_mode & 0o7777, mode)
        store.chmod(0o640)


def files_of_proc(here):
    version = Path('/proc/version')
    ran = run(['watch', 'plain', version], b'take 1000000\nsettle\nstat\n', here.program)
    here.want('/proc/version', (ran.status, json.loads(ran.out.splitlines()[0])), (0, {'take': len(version.read_bytes())}))
    here.want('its lines', [json.loads(ran.out.splitlines()[2])[key] for key in ('lines', 'malformed')], [1, 1])
    ran = run(['watch', 'plain', '/proc/self/mem'], b'take 0\ntake 1\n', here.program)
    here.want('/proc/self/mem', (ran.status, ran.out, ran.text), (4, b'{"take":0}\n', 'read fault'))
    ran = run(['reduce', 'plain', here.file('log', TWO_FLOWS), version], program=here.program, as_nobody=True)
    here.want('/proc/version as a store', (ran.status, ran.out, ran.text), (6, b'', 'store fault'))


def streams_that_are_not_ready(here):
    log = here.file('log', TWO_FLOWS)
    for name, status, text in (('stdin', 4, b'audit_cli: read fault\n'), ('stdout', 5, b'audit_cli: write fault\n')):
        begin, end = os.pipe()
        own, given = (end, begin) if name == 'stdin' else (begin, end)
        fcntl.fcntl(given, fcntl.F_SETFL, os.O_NONBLOCK)
        if name == 'stdout':
            fill(given)
        streams = {'stdin': subprocess.PIPE, 'stdout': subprocess.PIPE, 'stderr': subprocess.PIPE, name: given}
        with subprocess.Popen([here.program, 'watch', 'plain', log], **streams) as child:
            os.close(given)
            _, said = child.communicate(None if name == 'stdin' else b'take 1\n', timeout=SECONDS)
        here.want(f'{name} that is not ready', (child.returncode, said), (status, text))
        os.close(own)


def fill(descriptor):
    """Writes into a pipe until it takes no more."""
    try:
        while True:
            os.write(descriptor, bytes(4096))
    except BlockingIOError:
        pass


def a_reader_that_goes_away(here):
    """As `| head -1` does: the replies that it didn't take are lost, and the run ends with the status of a write fault."""
    log, questions = here.file('log', TWO_FLOWS), here.file('questions', b'take 1000\nsettle\n' + b'back 2\n' * 100_000)
    for words in (['watch', 'plain', log], ['watch', 'full', log, here.folder / 'store']):
        with open(questions, 'rb') as asked:
            child = subprocess.Popen([here.program, *words], stdin=asked, stdout=subprocess.PIPE, stderr=subprocess.PIPE)
        head = subprocess.run(['head', '-1'], stdin=child.stdout, capture_output=True)
        child.stdout.close()
        text = child.stderr.read()
        child.stderr.close()
        here.want(f'{words[1]}: {len(words)} words', (head.stdout, child.wait(SECONDS), text), (b'{"take":279}\n', 5, b'audit_cli: write fault\n'))
    ran = run(['query', here.folder / 'store'], b'back 2\n', here.program)
    here.want('the store', (ran.status, ran.out), (0, b'{"back":2,"ids":[0,1,2]}\n'))


def a_closed_standard_error(here):
    ran = subprocess.run([here.program, 'back', 'x'], stdin=subprocess.DEVNULL, preexec_fn=lambda: os.close(2))
    here.want('the status', ran.returncode, 2)


def a_store_with_closed_streams(here):
    """Whichever of standard output and error is closed, no reply gets into the store."""
    log = here.file('log', TWO_FLOWS)
    jobs = [(['reduce', 'plain'], b''), (['watch', 'plain'], b'take 1000\nsettle\nstat\nend\n')]
    for words, questions in jobs:
        for closed, wanted in (('>&-', 5), ('2>&-', 0)):
            store = here.folder / 'store'
            line = f'exec "$0" "$@" {closed}'
            ran = subprocess.run(['sh', '-c', line, here.program, *words, log, store], input=questions, capture_output=True, timeout=60)
            here.want(f'{words[0]} {closed}', ran.returncode, wanted)
            here.want(f'{words[0]} {closed}, a reply in the store', b'"' in store.read_bytes(), False)
            here.want(f'{words[0]} {closed}, resumed', run(['reduce', 'plain', log, store, '--resume'], program=here.program).status, 0)
            here.want(f'{words[0]} {closed}, asked', run(['query', store], b'back 2\n', here.program).out, b'{"back":2,"ids":[0,1,2]}\n')
            store.unlink()


def a_small_stack(here):
    """The buffers of reads are in memory that can be refused, so a small stack suffices."""
    log, store = here.file('log', TWO_FLOWS), here.folder / 'store'
    questions = b'take 1000\nsettle\nback 2\nend\n'
    small = {'preexec_fn': lambda: resource.setrlimit(resource.RLIMIT_STACK, (STACK, STACK)), 'capture_output': True, 'timeout': 60}
    for words in (['watch', 'plain', log], ['reduce', 'plain', log, store], ['query', store]):
        ran = subprocess.run([here.program, *words], input=questions, **small)
        here.want(words[0], (ran.returncode, ran.stderr), (0, b''))
        here.want(f'{words[0]}, its replies', ran.stdout, run(words if words[0] != 'reduce' else [*words, '--resume'], questions, here.program).out)


def a_program_that_is_stopped_goes_on(here):
    talk = Dialogue(here, here.file('log', TWO_FLOWS))
    here.want('before', talk.ask('take 100'), '{"take":100}')
    for _ in range(3):
        talk.child.send_signal(signal.SIGSTOP)
        os.waitid(os.P_PID, talk.child.pid, os.WSTOPPED)
        talk.child.send_signal(signal.SIGCONT)
    here.want('after', talk.ask('take 1000'), '{"take":179}')
    here.want('the end', talk.end(), (0, ''))


def bounds_on_memory(here):
    """With less and less memory each run ends with status 3, or with 0 and the same replies; what it wrote is a prefix of these, and a store goes on."""
    log = made_log(here.folder / 'log', 5, 6_000)
    questions = b'take 99999999\nsettle\nstat\nback 100\nfore 0\nend\n'
    statuses = set()
    for mode in MODES:
        whole = run(['watch', mode, log], questions, here.program)
        counts = run(['reduce', mode, log, here.folder / f'{mode}.whole'], program=here.program).out
        wanted = run(['query', here.folder / f'{mode}.whole'], questions, here.program).out
        for size in (1, 3, 6, 12, 256):
            ran = bounded(here, ['watch', mode, log], questions, size)
            statuses.add(ran.returncode)
            said = {0: whole.out, 3: whole.out[:len(ran.stdout)]}.get(ran.returncode)
            here.want(f'{mode}, {size} MB', (ran.stdout, ran.stderr), (said, b'audit_cli: no memory\n' if ran.returncode else b''))
            store = here.file('store')
            ran = bounded(here, ['reduce', mode, log, store], b'', size)
            here.want(f'reduce {mode}, {size} MB', (ran.returncode in (0, 3), ran.stdout), (True, counts if ran.returncode == 0 else b''))
            here.want(f'then resumed {mode}, {size} MB', run(['reduce', mode, log, store, '--resume'], program=here.program).status, 0)
            here.want(f'query {mode}, {size} MB', run(['query', store], questions, here.program).out, wanted)
    here.want('the statuses', statuses, {0, 3})


def bounded(here, words, questions, size):
    """A run that has as much memory more than an empty one as this, in MB."""
    limit = here.least + size * MEGABYTE
    return subprocess.run([here.program, *words], input=questions, capture_output=True, timeout=60,
                          preexec_fn=lambda: resource.setrlimit(resource.RLIMIT_AS, (limit, limit)))


def least_memory(program):
    """About as many bytes as a run needs that takes no log."""
    for size in range(1, 400):
        limit = size * MEGABYTE
        ran = subprocess.run([program, 'back', '0'], stdin=subprocess.DEVNULL, capture_output=True,
                             preexec_fn=lambda: resource.setrlimit(resource.RLIMIT_AS, (limit, limit)))
        if ran.returncode == 0:
            return limit
    raise SystemExit('a run without a log needs more than 400 MB')


KINDS = [a_log_that_grows, a_log_that_is_cut, a_log_that_is_renamed_or_removed, a_settle_within_a_line, a_pipe_as_the_log, a_pipe_as_the_log_of_a_store,
         a_store_that_keeps_its_mode, files_of_proc, streams_that_are_not_ready, a_reader_that_goes_away, a_closed_standard_error,
         a_store_with_closed_streams, a_program_that_is_stopped_goes_on, a_small_stack, bounds_on_memory]


def main():
    parser = argparse.ArgumentParser(description=__doc__, formatter_class=argparse.RawDescriptionHelpFormatter)
    parser.add_argument('--program', default=PROGRAM)
    parser.add_argument('--only', default='')
    options = parser.parse_args()
    faults = []
    for kind in (kind for kind in KINDS if options.only in kind.__name__):
        with tempfile.TemporaryDirectory() as folder:
            here = Devices(Path(folder), os.path.abspath(options.program))
            if kind is bounds_on_memory:
                here.least = least_memory(here.program)
            kind(here)
        faults += [f'{kind.__name__.replace("_", " ")}: {fault}' for fault in here.faults]
    print(''.join(f'{fault}\n' for fault in faults[:20]), end='')
    return 1 if faults else 0


if __name__ == '__main__':
    sys.exit(main())
