#!/usr/bin/env python3
"""Times `companion/autrail --no-order back NAME --tree` over long logs, beside the program alone on the same log.

    bench/time_autrail.py [--megabytes 42] [--runs 3] [--program ./crates/audit_cli/out/audit_cli]

Two logs are made: examples/web1_sample.log repeated by repeat_log.py, asked about a file that came from the network; and one by make_log.py from
seed 1, asked about the file that was written to last. The program alone takes the log, settles, finds the name, and answers `back`. Printed are the
fastest of the runs of each, the most memory that autrail and the program had together, and how many lines the tree has.
On a machine that does other work too the seconds of the processor say more; autrail and the program work side by side.
"""
import argparse
import json
import os
import re
import resource
import subprocess
import sys
import tempfile
import threading
import time

HERE = os.path.dirname(os.path.abspath(__file__))
AUTRAIL = os.path.join(HERE, '..', 'companion', 'autrail')
SAMPLE = os.path.join(HERE, '..', 'examples', 'web1_sample.log')
BYTES_OF_AN_EVENT = 430


def made(log, *words):
    with open(log, 'wb') as file:
        subprocess.run([sys.executable, *words], stdout=file, check=True)
    return log


def resident(pid):
    """The memory of a process and of all that it started, in MB."""
    found = 0
    try:
        with open(f'/proc/{pid}/status', encoding='ascii') as file:
            found = next((int(it.split()[1]) for it in file if it.startswith('VmRSS')), 0) / 1024
        with open(f'/proc/{pid}/task/{pid}/children', encoding='ascii') as file:
            children = file.read().split()
    except OSError:
        return found
    return found + sum(resident(int(it)) for it in children)


def timed(words, questions, runs):
    """The seconds of the fastest run and those of the processor, the most memory of any run, and the output of the last."""
    best, least, peak, out = float('inf'), float('inf'), 0, b''
    for _ in range(runs):
        begun, before = time.perf_counter(), resource.getrusage(resource.RUSAGE_CHILDREN)
        child = subprocess.Popen(words, stdin=subprocess.PIPE, stdout=subprocess.PIPE, stderr=subprocess.DEVNULL)
        seen, ended = [0], threading.Event()

        def watch():
            while not ended.wait(0.01):
                seen.append(resident(child.pid))

        watching = threading.Thread(target=watch)
        watching.start()
        out, _ = child.communicate(questions)
        best, after = min(best, time.perf_counter() - begun), resource.getrusage(resource.RUSAGE_CHILDREN)
        least = min(least, after.ru_utime + after.ru_stime - before.ru_utime - before.ru_stime)
        ended.set()
        watching.join()
        peak = max(peak, *seen)
        if child.returncode:
            sys.exit(f'status {child.returncode} of {" ".join(words)}')
    return f'{best:.2f} s ({least:.2f} s of the processor), {peak:.0f} MB', out


def main():
    parser = argparse.ArgumentParser(description=__doc__.splitlines()[0])
    parser.add_argument('--megabytes', type=int, default=42)
    parser.add_argument('--runs', type=int, default=3)
    parser.add_argument('--program', default=os.path.join(HERE, '..', 'crates', 'audit_cli', 'out', 'audit_cli'))
    options = parser.parse_args()
    program, size = os.path.abspath(options.program), options.megabytes * 1_000_000
    with tempfile.TemporaryDirectory() as folder:
        real = made(os.path.join(folder, 'real'), os.path.join(HERE, 'repeat_log.py'), SAMPLE, str(size))
        generated = made(os.path.join(folder, 'made'), os.path.join(HERE, 'make_log.py'), '1', str(size // BYTES_OF_AN_EVENT))
        with open(generated, 'rb') as file:
            last = re.findall(rb'name="([^"]+)" inode=\d+ dev=\S+ mode=\d+ ouid=0 ogid=0 rdev=00:00 nametype=CREATE', file.read())[-1].decode()
        for log, name in ((real, '/tmp/x.sh'), (generated, '/srv/app/' + last)):
            found = subprocess.run([program, 'watch', 'plain', log], input=f'take 999999999\nsettle\nfind {name}\nend\n'.encode(), stdout=subprocess.PIPE, check=True)
            number = json.loads(found.stdout.splitlines()[2])['ids'][-1]
            questions = f'take 999999999\nsettle\nfind {name}\nback {number}\nend\n'.encode()
            alone, out = timed([program, 'watch', 'plain', log], questions, options.runs)
            objects = len(json.loads(out.splitlines()[3])['ids'])
            whole, tree = timed([sys.executable, AUTRAIL, '-q', '--no-order', '--program', program, '-if', log, 'back', name, '--tree'], b'', options.runs)
            lines = tree.split(b'processes (')[0].count(b'\n')
            print(f'{os.path.getsize(log) / 1e6:.1f} MB, {name}: the program alone {alone}, {objects:,} objects; autrail {whole} '
                  f'with the program, a tree of {lines:,} lines', flush=True)


if __name__ == '__main__':
    main()
