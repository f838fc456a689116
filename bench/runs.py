"""What the scripts about stores share: runs of the built program, its statuses, logs, and questions."""
import os
import resource
import signal
import subprocess
import sys
from pathlib import Path

TOP = Path(__file__).resolve().parent.parent
PROGRAM = TOP / 'crates/audit_cli/out/audit_cli'
MODES = ['plain', 'continuous', 'full', 'source']
# Each status and what standard error begins with after the program's name; README.md, How a run ends.
STATUSES = {0: '', 2: 'bad words', 3: 'no memory', 4: 'read fault', 5: 'write fault', 6: 'store fault', 7: 'bad store at ',
            8: 'wrong mode: kept ', 9: 'full: ', 10: 'short log: taken '}
SECONDS = 60
NOBODY = 65534


class Ran:
    """How a run ended: its status, what it wrote, and the text about its end without the program's name."""

    def __init__(self, status, out, text):
        self.status, self.out, self.text = status, out, text

    def fault(self):
        """What no run may do, or None: end with another status, or say another text of it."""
        if self.status is None:
            return f'no end after {SECONDS} seconds'
        known = STATUSES.get(self.status)
        if known is None or not self.text.startswith(known) or (not known and self.text):
            return f'status {self.status}, {self.text!r}'
        return None


def before(file_size, as_nobody):
    """What a run does before the program begins, or None."""
    def prepare():
        signal.signal(signal.SIGXFSZ, signal.SIG_IGN)
        if file_size is not None:
            resource.setrlimit(resource.RLIMIT_FSIZE, (file_size, file_size))
        if as_nobody and os.getuid() == 0:
            os.setgid(NOBODY)
            os.setuid(NOBODY)
    return prepare if as_nobody or file_size is not None else None


def run(words, questions=b'', program=PROGRAM, file_size=None, as_nobody=False):
    """Runs the program with these words over these questions."""
    try:
        ended = subprocess.run([program, *words], input=questions, capture_output=True, timeout=SECONDS, preexec_fn=before(file_size, as_nobody))
    except subprocess.TimeoutExpired:
        return Ran(None, b'', '')
    text = ended.stderr.decode('utf-8', 'replace')
    return Ran(ended.returncode, ended.stdout, text.removeprefix('audit_cli: ').removesuffix('\n'))


def made_log(path, seed, events, *words):
    """Writes a generated log there."""
    with open(path, 'wb') as out:
        subprocess.run([sys.executable, TOP / 'bench/make_log.py', str(seed), str(events), *words], check=True, stdout=out)
    return path


def lines_of(questions):
    return ''.join(f'{question}\n' for question in questions).encode()
