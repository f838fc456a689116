#!/usr/bin/env python3
"""The steps of the Snakefile beside it.

    host.py keep HOSTS STORES HOST MODE     takes what is new of a host's logs into its store, and writes a report
    host.py ask STORES HOST QUESTION        asks a host's store, and writes the answer
    host.py table HOSTS STORES              writes the table of all hosts, of their reports
    host.py answers HOSTS STORES            writes a line of JSON for each host, of their answers

What autrail says of a host, also that it can't be done, is the result of a step, so no host stops the others. A step that is killed has none,
and Snakemake starts it again.
"""
from __future__ import annotations

import json
import os
import re
import shlex
import subprocess
import sys
from datetime import datetime, timezone
from pathlib import Path

BESIDE = Path(__file__).resolve().parent.parent / 'autrail'
AUTRAIL = os.environ.get('AUTRAIL') or (str(BESIDE) if BESIDE.is_file() else 'autrail')
# As in the Snakefile.
NAME = r'[A-Za-z0-9][A-Za-z0-9._-]*'
COLUMNS = ('host', 'bytes of logs', 'from', 'to', 'events', 'rows', 'objects', 'store', 'to mistrust')
ASKED = ('back', 'fore', 'why', 'find', 'show', 'stat')


def autrail(*words: str) -> tuple[int, list[dict], list[str]]:
    """The status of autrail, its lines of JSON, and what it said."""
    done = subprocess.run([AUTRAIL, *words], stdin=subprocess.DEVNULL, stdout=subprocess.PIPE, stderr=subprocess.PIPE, check=False)
    if done.returncode < 0:
        sys.exit(f'autrail was ended by signal {-done.returncode}')
    said = [it.removeprefix('autrail: ') for it in done.stderr.decode('utf-8', 'replace').splitlines()]
    return done.returncode, [json.loads(it) for it in done.stdout.splitlines()] if done.returncode == 0 else [], said


def write(file: Path, result: dict) -> None:
    file.parent.mkdir(parents=True, exist_ok=True)
    beside = file.with_name(file.name + '.new')
    beside.write_text(json.dumps(result) + '\n')
    beside.replace(file)


def read(file: Path) -> dict | None:
    return json.loads(file.read_text()) if file.exists() else None


def keep(hosts: Path, stores: Path, host: str, mode: str) -> None:
    stores.mkdir(parents=True, exist_ok=True, mode=0o700)
    store = str(stores / f'{host}.store')
    status, kept, said = autrail('keep', store, '-if', str(hosts / host), '-m', mode, '--wait', '--json')
    result = {'host': host, 'status': status, 'said': said, **(kept[0] if kept else {})}
    result['done'] = status == 0 and not result['waiting']
    if status:
        # What the store has is told also if nothing could be taken into it now.
        counts = autrail('--store', store, 'stat', '--json')[1]
        result |= {'stat': counts[0], 'warnings': counts[0]['warnings']} if counts else {}
    write(stores / 'reports' / f'{host}.json', result)


def ask(stores: Path, host: str, question: str) -> None:
    words = shlex.split(question)
    if not words or words[0] not in ASKED:
        sys.exit('the question begins with one of ' + ', '.join(ASKED))
    status, answer, said = autrail('-q', '--store', str(stores / f'{host}.store'), *words, '--json')
    write(stores / 'answers' / f'{host}.json', {'host': host, 'status': status, 'answer': answer, 'said': said})


def folders(hosts: Path) -> list[str]:
    return sorted(it.name for it in hosts.iterdir() if it.is_dir())


def row(host: str, report: dict | None, size: int) -> list[str]:
    """What a store holds, and what to mistrust. A host without a report is one whose step didn't end, or whose name isn't taken."""
    if report is None:
        why = 'look at what Snakemake said' if re.fullmatch(NAME, host) else 'a host\'s name has letters, digits, points, _ and - alone'
        return [host] + ['-'] * 7 + [f'nothing was taken: {why}']
    stat = report.get('stat') or {}
    failed = [f'status {report["status"]}: ' + ' / '.join(report['said'])] if report['status'] else []
    waits = [f'{report["waiting"]} bytes wait for the end of an event'] if report.get('waiting') else []
    counts = [f'{stat[it]:,}' if it in stat else '-' for it in ('bytes', 'events', 'kept', 'known')]
    times = [time_of(it) for it in (report.get('first'), report.get('last'))]
    return [host, counts[0], *times, *counts[1:], f'{size:,}', '; '.join(failed + report.get('warnings', []) + waits) or 'nothing']


def time_of(record: str | None) -> str:
    """The time of a record, in UTC, since the hosts may lie in several zones."""
    if not record:
        return '-'
    seconds = record.split('.')[0]
    try:
        return datetime.fromtimestamp(int(seconds), timezone.utc).strftime('%Y-%m-%dT%H:%M:%SZ')
    except (ValueError, OverflowError, OSError):
        return seconds


def table(hosts: Path, stores: Path) -> None:
    rows = [list(COLUMNS)]
    for host in folders(hosts):
        store = stores / f'{host}.store'
        rows.append(row(shown(host), read(stores / 'reports' / f'{host}.json'), store.stat().st_size if store.exists() else 0))
    widths = [max(map(len, column)) for column in zip(*rows)]
    lines = ['  '.join([cells[0].ljust(widths[0]), *(it.rjust(width) for it, width in zip(cells[1:-1], widths[1:-1])), cells[-1]]) for cells in rows]
    (stores / 'table.txt').write_text('\n'.join(lines) + '\n')
    broken = [cells[0] for cells in rows[1:] if cells[-1].startswith(('status', 'nothing was taken'))]
    print(f'{stores / "table.txt"}: {len(rows) - 1} hosts, {len(broken)} of them with a failure' + (': ' + ', '.join(broken[:10]) if broken else ''), file=sys.stderr)


def shown(name: str) -> str:
    """A name as it may reach a terminal."""
    return ''.join(it if it.isprintable() else f'\\x{ord(it):02x}' for it in name)


def answers(hosts: Path, stores: Path) -> None:
    found = [read(stores / 'answers' / f'{host}.json') or {'host': host, 'status': None, 'answer': [], 'said': ['was not asked']} for host in folders(hosts)]
    (stores / 'answers.jsonl').write_text(''.join(json.dumps(it) + '\n' for it in found))
    some = [it['host'] for it in found if it['status'] == 0]
    print(f'{stores / "answers.jsonl"}: {len(found)} hosts, {len(some)} with an answer', file=sys.stderr)


def main() -> None:
    # What is written has names and times of the logs.
    os.umask(0o077)
    command, *words = sys.argv[1:]
    if command == 'ask':
        ask(Path(words[0]), words[1], words[2])
    elif command == 'keep':
        keep(Path(words[0]), Path(words[1]), words[2], words[3])
    else:
        {'table': table, 'answers': answers}[command](Path(words[0]), Path(words[1]))


if __name__ == '__main__':
    main()
