#!/usr/bin/env python3
"""Counts the events that companion/kitrevasu.rules would make a kernel record, for some commands or for one of yours.

    bench/rules_cost.py [COMMAND..]

No rule is loaded: strace (of the package of that name) lists the calls of the command and of all that it starts, and the rules' own fields (success,
exit, a1) choose among them. Printed for each command are all of its calls, the events of part 3 of the rules (descriptors, processes and files) and of
part 4 (reads, writes and what goes over sockets), the bytes of log that as many events take in examples/web1_sample.log on average, and the seconds
that the command takes without strace.
"""
import re
import shlex
import subprocess
import sys
import tempfile
import time
from pathlib import Path

TOP = Path(__file__).resolve().parent.parent
RULES = TOP / 'companion' / 'kitrevasu.rules'
SAMPLE = TOP / 'examples' / 'web1_sample.log'
COMMANDS = (
    'true',
    'ls -l /usr/bin',
    'git log -n 20 --stat',
    'python3 -c "import json"',
    "sh -c 'tar -c docs crates | gzip -1'",
)
# The rules have the names of auditctl, and strace those of the kernel.
NAMES = {'pread64': 'pread', 'pwrite64': 'pwrite'}
CALL = re.compile(r'(?P<name>\w+)\((?P<arguments>.*)\) += (?P<answer>-?\d+|0x[0-9a-f]+|\?)')


def rules():
    """Each rule of 64-bit calls: the part of the file that it stands in, its calls, and its tests."""
    found, part = [], 0
    for line in RULES.read_text().splitlines():
        if title := re.match(r'# ---- (\d)', line):
            part = int(title[1])
        if line.startswith('-a always,exit') and 'arch=b64' in line:
            words = shlex.split(line)
            names = [name for at, word in enumerate(words) if word == '-S' for name in words[at + 1].split(',')]
            tests = [word for at, word in enumerate(words) if words[at - 1] == '-F' and not word.startswith('arch=')]
            found.append((part, set(names), tests))
    return found


def holds(test, answer, arguments):
    field, how, value = re.fullmatch(r'(\w+)(>=|=|>)(.*)', test).groups()
    if field == 'success':
        return answer is not None and (answer >= 0) == (value == '1')
    if field == 'exit':
        return answer is not None and (answer > int(value) if how == '>' else answer == int(value))
    return len(arguments) > 1 and field == 'a1' and arguments[1] == int(value)


def number(text):
    try:
        return int(text, 0)
    except ValueError:
        return None


def calls(trace):
    """The calls that strace lists: name, answer and numbers among the arguments. A call that another process interrupts has two lines."""
    begun = {}
    for line in trace.splitlines():
        pid, said = line.split(None, 1)
        if said.endswith('<unfinished ...>'):
            begun[pid] = said.removesuffix('<unfinished ...>').rstrip()
            continue
        if resumed := re.match(r'<\.\.\. \w+ resumed>', said):
            said = begun.pop(pid, '') + said[resumed.end():]
        if call := CALL.match(said):
            error = re.search(r'= -1 E\w+ ', said + ' ')
            answer = -115 if error and 'EINPROGRESS' in error[0] else number(call['answer'])
            yield NAMES.get(call['name'], call['name']), answer, [number(it) for it in call['arguments'].split(', ')]


def traced(words):
    """What strace lists of a command: numbers in place of names of flags, and no texts."""
    with tempfile.NamedTemporaryFile() as out:
        subprocess.run(['strace', '-f', '-qq', '-X', 'raw', '-s', '0', '-o', out.name, *words], cwd=TOP, stdout=subprocess.DEVNULL, stderr=subprocess.DEVNULL, check=False)
        return Path(out.name).read_text(encoding='utf-8', errors='replace')


def counted(words):
    """All calls, the events of part 3, and those of part 4."""
    table, made = rules(), [0, 0, 0]
    for name, answer, arguments in calls(traced(words)):
        made[0] += 1
        part = next((part for part, names, tests in table if name in names and all(holds(it, answer, arguments) for it in tests)), 0)
        if part in (3, 4):
            made[part - 2] += 1
    return made


def bytes_of_an_event():
    text = SAMPLE.read_text(encoding='utf-8', errors='replace')
    return len(text) / len(set(re.findall(r'msg=audit\(([^)]*)\)', text)))


def seconds(words):
    begun = time.perf_counter()
    subprocess.run(words, cwd=TOP, stdout=subprocess.DEVNULL, stderr=subprocess.DEVNULL, check=False)
    return time.perf_counter() - begun


def main():
    chosen = [sys.argv[1:]] if len(sys.argv) > 1 else [shlex.split(it) for it in COMMANDS]
    size = bytes_of_an_event()
    print(f'{"calls":>9} {"part 3":>9} {"part 4":>9} {"kB of log":>10} {"seconds":>9}  command')
    for words in chosen:
        every, things, moves = counted(words)
        print(f'{every:9,} {things:9,} {moves:9,} {(things + moves) * size / 1000:10,.0f} {min(seconds(words) for _ in range(3)):9.3f}  {shlex.join(words)}')


if __name__ == '__main__':
    main()
