"""Whether the tables of fields of audit_lex are those of bench/plain_reading.py.

The definitions of audit_lex have the same tables as its code, so no proof sees a field that is wrong in both. bench/plain_reading.py has them once
more, written apart from the program. Compared are, for each kind of record, its fields in their order, what spells each, and whether it must be there.
Prints what differs, and ends with status 1 if anything does.
"""
import re
import sys
from pathlib import Path

sys.path.insert(0, 'bench')
import plain_reading  # noqa: E402

TABLE = re.compile(r'static (\w+): \[Rule; ([0-9]+)\] = \[(.*?)\];', re.S)
RULE = re.compile(r'Rule \{\s*field: Field::(\w+),\s*value: ValueKind::(\w+),\s*must: (true|false),?\s*\}', re.S)
# Which table a kind has, none if it has no field.
TABLE_OF = re.compile(r'Kind::(\w+) => &(\w+|\[\]),')
TYPE_OF = re.compile(r'is_name\(name, b"(\w+)"\) \{\s*Some\(Kind::(\w+)\)')
NAME_OF = re.compile(r'Field::(\w+) => b"(\w+)",')
# What the plain reading calls the reader of a value.
READERS = {'Dec32': 'dec32', 'Dec64': 'dec64', 'Signed': 'signed', 'Hex32': 'hex32', 'Hex64': 'hex64', 'Device': 'device', 'Handle': 'handle',
           'YesNo': 'yesno', 'Text': 'text', 'Bytes': 'coded', 'Word': 'word'}


def tables_of(text):
    """The fields of each type of record that the code reads, as the plain reading writes them."""
    names = dict(NAME_OF.findall(text))
    rows = {name: RULE.findall(body) for name, _, body in TABLE.findall(text)}
    for name, length, _ in TABLE.findall(text):
        assert len(rows[name]) == int(length), f'{name} has rows of a form that is not read here'
    types = {kind: name for name, kind in TYPE_OF.findall(text)}
    return {types[kind]: [(names[field], READERS[value], must == 'true') for field, value, must in rows.get(table, [])]
            for kind, table in TABLE_OF.findall(text) if kind in types}


def main():
    ours = tables_of(Path('crates/audit_lex/src/fields.rt').read_text(encoding='utf-8'))
    called = {getattr(plain_reading, name): name for name in READERS.values()}
    theirs = {kind: [(name, called[read], must) for name, read, must in fields] for kind, fields in plain_reading.FIELDS.items()}
    found = [f'{kind}: audit_lex has {ours.get(kind)}, and the plain reading {theirs.get(kind)}'
             for kind in sorted(ours.keys() | theirs.keys()) if ours.get(kind) != theirs.get(kind)]
    print('\n'.join(found) or f'{sum(map(len, ours.values()))} fields of {len(ours)} kinds of records, the same in both')
    return 1 if found else 0


if __name__ == '__main__':
    sys.exit(main())
