"""Whether the sessions that the documents show are what the program says.

    .ci/sessions.py DOCUMENT..

A session is an indented line that begins with `$ `, a command, and the indented lines after it, which are its output.
Each command is run by bash at the top of the repository, with the clock of UTC. Prints each session that differs, and ends with status 1 if there is one.
"""
import os
import subprocess
import sys
from pathlib import Path

INDENT = '    '


def sessions_of(text):
    """The pairs of a command and the lines that are shown as its output."""
    command, shown = None, []
    for line in [*text.splitlines(), '']:
        inside = line.startswith(INDENT)
        if command is not None and (not inside or line.startswith(INDENT + '$ ')):
            yield command, shown
            command = None
        if line.startswith(INDENT + '$ '):
            command, shown = line[len(INDENT) + 2:], []
        elif command is not None:
            shown.append(line[len(INDENT):])


def main(documents):
    faults = count = 0
    for document in documents:
        for command, shown in sessions_of(Path(document).read_text(encoding='utf-8')):
            ran = subprocess.run(['bash', '-c', command], env={**os.environ, 'TZ': 'UTC'}, stdin=subprocess.DEVNULL, stdout=subprocess.PIPE, text=True, errors='replace')
            count += 1
            if ran.stdout.splitlines() != shown:
                faults += 1
                print(f'{document}: {command}\nis shown to print\n' + '\n'.join(shown) + f'\nand prints\n{ran.stdout}')
    if not count:
        print('no session in', *documents)
    return 1 if faults or not count else 0


if __name__ == '__main__':
    sys.exit(main(sys.argv[1:]))
