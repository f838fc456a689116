"""Objects that nearly every process reads: the patterns of their names."""
from __future__ import annotations

import fnmatch
from pathlib import Path
from typing import Iterable

COMMON_FILE = '/etc/autrail/common'
# Objects that nearly every process reads. They are left out of what is shown, never out of what is asked.
COMMON = ('/usr/lib/*', '/usr/lib32/*', '/usr/lib64/*', '/lib/*', '/lib32/*', '/lib64/*', '/usr/share/locale/*', '/usr/bin/*',
          '/bin/*', '/usr/sbin/*', '/sbin/*', '/usr/libexec/*', '/etc/ld.so.cache', '/etc/nsswitch.conf', '/etc/localtime',
          '/etc/pam.d/*', '/etc/security/*', '/proc/*', '/sys/*', '/dev/null', '*.pyc')
NEVER_COMMON = ('/home/', '/root/', '/tmp/', '/var/tmp/', '/dev/shm/', '/srv/', '/opt/')


def common_patterns() -> tuple[str, ...]:
    """The patterns of common objects: one a line in a file of the administrator's, or those of autrail."""
    try:
        lines = Path(COMMON_FILE).read_text(encoding='utf-8', errors='surrogateescape').splitlines()
    except OSError:
        return COMMON
    return tuple(it.strip() for it in lines if it.strip() and not it.startswith('#'))


def matches(name: str, patterns: Iterable[str]) -> bool:
    return any(fnmatch.fnmatchcase(name, it) for it in patterns)
