"""Whether the table of calls of call_acts is that of bench/plain_reading.py, and docs/FORMATS.md names the same calls.

The definitions of call_acts read the table that the code has, so no proof sees a wrong number, kind or place of flags. bench/plain_reading.py has
the table once more, written apart from the program. Compared are each call's number, its name, its kind and where its flags are.
Prints what differs, and ends with status 1 if anything does.
"""
import re
import sys
from pathlib import Path

sys.path.insert(0, 'bench')
from plain_reading import TABLE  # noqa: E402

ROW = re.compile(r' *Row \{ number: ([0-9]+), call: Call::(\w+), flags: Flags::(\w+) \}, // (\w+)')
LENGTH = re.compile(r'static ROWS: \[Row; ([0-9]+)\] = \[')
PLACES = {'Absent': None, 'Truncate': '0x200', 'A0': 'a0', 'A1': 'a1', 'A2': 'a2', 'A3': 'a3'}


def rows_of(text):
    """The rows of the code's table, which has to have as many as it says."""
    rows = [ROW.fullmatch(line) for line in text.splitlines()]
    rows = [row.groups() for row in rows if row]
    assert len(rows) == int(LENGTH.search(text)[1]), f'{len(rows)} rows have the form that is read here, and the table has more or fewer'
    return {int(number): (name, kind, PLACES[place]) for number, kind, place, name in rows}


def named_in(text):
    """The calls that the first column of the table of docs/FORMATS.md names."""
    section = text.partition('## What an event means')[2].partition('\n## ')[0]
    cells = [line.split('|')[1] for line in section.splitlines() if line.startswith('| ')]
    return {int(number): name for cell in cells for name, number in re.findall(r'(\w+) ([0-9]+)', re.sub(r'\([^)]*\)', '', cell))}


def differences(what, left, right):
    for number in sorted(left.keys() | right.keys()):
        if left.get(number) != right.get(number):
            yield f'{what}: call {number} is {left.get(number)} in call_acts, and {right.get(number)} there'


def main():
    rows = rows_of(Path('crates/call_acts/src/calls.rt').read_text(encoding='utf-8'))
    named = named_in(Path('docs/FORMATS.md').read_text(encoding='utf-8'))
    found = [*differences('bench/plain_reading.py', rows, TABLE),
             *differences('docs/FORMATS.md', {number: name for number, (name, _, _) in rows.items()}, named)]
    print('\n'.join(found) or f'{len(rows)} calls, the same in all three')
    return 1 if found else 0


if __name__ == '__main__':
    sys.exit(main())
