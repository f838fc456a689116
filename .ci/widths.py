"""Whether as many clauses are wider than 100 columns as the number in .ci/wide-clauses says, which is 0.

Prints the widest ones if there are more, and ends with status 1 then, or if the number is too large.
"""
import re
import sys
from pathlib import Path

WIDEST = 100
CLAUSE = re.compile(r' *(ensures|requires|invariant)\b')


def wide_clauses():
    """The widths and places of the clauses that are too wide, widest first."""
    found = []
    for source in sorted(Path('crates').glob('*/src/**/*.rt')):
        for number, line in enumerate(source.read_text(encoding='utf-8').splitlines(), 1):
            if len(line) > WIDEST and CLAUSE.match(line):
                found.append((len(line), f'{source}:{number}'))
    return sorted(found, reverse=True)


def main():
    allowed = int(Path('.ci/wide-clauses').read_text(encoding='utf-8'))
    found = wide_clauses()
    if len(found) == allowed:
        return 0
    print(f'{len(found)} clauses are wider than {WIDEST} columns, and .ci/wide-clauses says {allowed}')
    for width, place in found[:10] if len(found) > allowed else []:
        print(f'{width} {place}')
    return 1


if __name__ == '__main__':
    sys.exit(main())
