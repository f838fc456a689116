"""Whether the wrong bodies of each crate are wrong bodies: each changes code in src/, and each crate with code has some.

An edit of a definition, a contract or a proof would be refused whatever it said, so it would show nothing.
A crate of laws or of tests alone has no code that could be wrong.
Prints what isn't so, and ends with status 1 if there is any.
"""
import re
import sys
from pathlib import Path

CLAUSE = re.compile(r'\s*(pub )?(requires|ensures|ghost)\b')
# A module that is read for tests alone.
TESTS = re.compile(r'#\[cfg\(test\)\]\nmod (\w+);')
# A law that is cited.
CITES = re.compile(r'\s*(\w+::)*\w+(::<[^>]*>)?\(\);')
ATTRIBUTE = re.compile(r'\s*#!?\[')
BODY = re.compile(r'\s*\{$|\s*(pub(\(crate\))? )?fn .*\{$|\s*\) .*\{$')


def code_of(text):
    """The lines of a source file without its comments and clauses."""
    code, depth = [], 0
    for line in text.splitlines():
        line = re.sub(r'//.*', '', line).rstrip()
        if depth or CLAUSE.match(line):
            depth += line.count('{') - line.count('}')
        elif line:
            code.append(line)
    return code


def deeds_of(text):
    """The lines of code that do something: neither attributes nor laws that are cited."""
    return [line for line in code_of(text) if not CITES.fullmatch(line) and not ATTRIBUTE.match(line)]


def pairs_of(edit):
    """The triples (file, old, new) of an edit."""
    name = old = None
    for line in edit.read_text(encoding='utf-8').splitlines():
        key, _, rest = line.partition(':')
        rest = rest.removeprefix(' ')
        if key == 'file':
            name = rest.strip()
        elif key == 'old':
            old = rest
        elif key == 'new':
            yield name, old, rest


def fault_of(crate, edit):
    """Why an edit is no wrong body, or None."""
    changed = {}
    for name, old, new in pairs_of(edit):
        if not name.startswith('src/'):
            return f'changes {name}, which is no code'
        text = changed.get(name) or (crate / name).read_text(encoding='utf-8')
        if text.count(old) != 1:
            return f'its old text stands {text.count(old)} times in {name}'
        changed[name] = text.replace(old, new)
    if all(deeds_of(text) == deeds_of((crate / name).read_text(encoding='utf-8')) for name, text in changed.items()):
        return 'changes no code'
    return None


def tests_of(crate):
    """The files of a crate that are read for its tests alone."""
    found = set()
    for path in crate.glob('src/**/*.rt'):
        folder = path.parent if path.stem in ('lib', 'main') else path.with_suffix('')
        for name in TESTS.findall(path.read_text(encoding='utf-8')):
            found |= {folder / f'{name}.rt', *(folder / name).glob('**/*.rt')}
    return found


def has_code(crate):
    """Whether some function that isn't of tests does more than cite laws."""
    for path in set(crate.glob('src/**/*.rt')) - tests_of(crate):
        code = code_of(path.read_text(encoding='utf-8'))
        if any(BODY.match(line) and not CITES.fullmatch(after) for line, after in zip(code, [*code[1:], ''])):
            return True
    return False


def main():
    faults = []
    for crate in sorted(path for path in Path('crates').iterdir() if (path / 'src').is_dir()):
        edits = sorted(crate.glob('must-fail/*.edit'))
        if not edits and has_code(crate):
            faults.append(f'{crate}: has no wrong body')
        for edit in edits:
            fault = fault_of(crate, edit)
            if fault:
                faults.append(f'{edit}: {fault}')
    print('\n'.join(faults), end='\n' if faults else '')
    return 1 if faults else 0


if __name__ == '__main__':
    sys.exit(main())
