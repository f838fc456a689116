"""Shows how rt ci goes on: reads what it prints, keeps it in a folder, and prints a line for each crate, its tests, and each wrong body.

    rt ci | .ci/progress.py FOLDER

FOLDER/all.log gets everything, and FOLDER/CRATE.log what is said of that crate. Each line that is printed has the seconds since the start, not those
of the crate. Of a crate or of tests that aren't proved, or that fail, the last 20 lines are printed too, and no lines of another crate.
"""
import re
import sys
import time
from pathlib import Path

SHOWN = 20
HEAD = re.compile(r'== (\w+)(?:: its tests)?\n')
END = re.compile(r'rt: .*\b(?:proved|NOT PROVED)\n')
ABOUT = re.compile(r'rt: (?:crates/)?(\w+)[ :/]')


class Kept:
    """The logs in a folder."""

    def __init__(self, folder):
        self.folder = folder
        self.all = open(folder / 'all.log', 'w', encoding='utf-8')  # pylint: disable=consider-using-with

    def keep(self, line, crate):
        self.all.write(line)
        self.all.flush()
        if crate and Path('crates', crate).is_dir():
            with open(self.folder / f'{crate}.log', 'a', encoding='utf-8') as log:
                log.write(line)


def main(folder):
    started, kept, crate, block = time.monotonic(), Kept(folder), None, []
    for line in sys.stdin:
        if head := HEAD.fullmatch(line):
            crate, block = head[1], []
        about = ABOUT.match(line)
        kept.keep(line, crate or about and about[1])
        if line.startswith('rt: '):
            if END.fullmatch(line) and 'NOT' in line or 'FAILED' in line:
                print(''.join(block[-SHOWN:]), end='')
            print(f'{time.monotonic() - started:6.0f} s  {line[len("rt: "):]}', end='', flush=True)
        block.append(line)
        # Outside the lines of a crate each such line ends what is said of one thing: of a wrong body, or of tests that were run.
        if END.fullmatch(line) or crate is None and line.startswith('rt: '):
            crate, block = None, []


if __name__ == '__main__':
    sys.stdin.reconfigure(errors='replace')
    main(Path(sys.argv[1]))
