"""Whether what docs/GLOSSARY.md, docs/CLAIMS.md, docs/ARCHITECTURE.md and CONTRIBUTING.md name is there.

In GLOSSARY.md `CRATE:Module` is a file of the crate's specs/, and the names after it in its cell are defined in that file; those after the name
of a crate alone are defined in its specs/ or src/. A plain name elsewhere is a word of a definition or of code.
In CLAIMS.md `FUNCTION: CLAUSE, ..` is a function that has clauses of these names, the names after the word law or laws are public functions, and
a plain name is a word of a definition or of code.
In ARCHITECTURE.md and CONTRIBUTING.md, which say where to change what, a plain name is a word of a definition, of a proof or of code, or a file's,
and what has a slash or a suffix is a file or a folder of the repository.
Comments are neither definitions nor code. Prints each name that isn't there, and ends with status 1 if there is one.
"""
import re
import subprocess
import sys
from pathlib import Path

QUOTED = re.compile(r'`([^`]+)`')
MODULE = re.compile(r'([a-z_0-9]+):([A-Z]\w*)')
CLAUSES = re.compile(r'([\w:]+): ([a-z_]\w*(?:, [a-z_]\w*)*)')
NAME = re.compile(r'\w+(?:::\w+)*')
DOTTED = re.compile(r'\w+(?:\.\w+)*')
# The names that stand after the word law or laws, up to the next other word. What is in brackets are clauses.
LAWS = re.compile(r'\blaws?(?: are)?((?:(?:,| and)? `[^`]+`(?: \([^)]*\))?)+)')
SIGNATURE = re.compile(r'\bfn (\w+)')
PUBLIC = re.compile(r'\bpub fn (\w+)')
CLAUSE = re.compile(r'\s*(?:ensures|requires|ghost|pub|field)\s+\*?(\w+)')
# What a line of specs/ defines: a name at its start, constructors or fields; and what one of src/ defines.
DEFINED = re.compile(r'(?:(?:pub|abbrev|unfoldable|record|data) )*(?!use\b)(\w+)')
FIELDS = re.compile(r'\s+(?:pub )?((?:\w+ )+):')
ITEM = re.compile(r'\s*(?:pub(?:\([a-z]+\))? )?(?:fn|struct|enum|trait|type|const|static|mod|ghost) (\w+)')


def code_of(path):
    """The text of a file without its comments."""
    begun = {'.antt': '--', '.rt': '//', '.py': '#'}[path.suffix]
    return '\n'.join(line.partition(begun)[0] for line in path.read_text(encoding='utf-8').splitlines())


def texts_of(pattern):
    return [code_of(path) for path in sorted(Path('crates').glob(pattern)) if '/out/' not in str(path)]


def text_of(document):
    """The text of a document, each line of a table or else each paragraph in one line."""
    lines = Path(document).read_text(encoding='utf-8').splitlines()
    return re.sub(r'(?<!\n)\n(?![\n|])', ' ', '\n'.join(line if line.startswith('|') else line.strip() for line in lines))


def clauses_of(sources, specs):
    """For each function's name the names of the clauses of all functions of that name; records of specs have their fields."""
    found = {}
    for text in sources:
        function = None
        for line in text.splitlines():
            begun = SIGNATURE.search(line)
            if begun:
                function = found.setdefault(begun[1], set())
            clause = CLAUSE.match(line)
            if clause and function is not None:
                function.add(clause[1])
    for text in specs:
        record = None
        for line in text.splitlines():
            begun = re.match(r'(?:pub |unfoldable )*record (?:pub )?(\w+)', line)
            if begun:
                record = found.setdefault(begun[1], set())
            field = re.match(r'\s+pub (\w+) :', line)
            if field and record is not None:
                record.add(field[1])
    return found


def defined_in(paths):
    """The names that files of specs/ and src/ define."""
    found = set()
    for path in paths:
        for line in code_of(path).splitlines():
            if path.suffix == '.antt':
                found.update(*(it[1].split() for it in (DEFINED.match(line), FIELDS.match(line)) if it))
            else:
                found.update(it[1] for it in [ITEM.match(line)] if it)
    return found


def undefined_in(cell):
    """The names of a cell of the glossary that aren't defined in the module, or in the crate, that stands before them."""
    there, scope = None, None
    for name in QUOTED.findall(cell):
        module, crate = MODULE.fullmatch(name), Path('crates', name)
        if module:
            scope, there = name, defined_in([it for it in [Path(f'crates/{module[1]}/specs/{module[2]}.antt')] if it.is_file()])
        elif NAME.fullmatch(name) and crate.is_dir():
            scope, there = name, defined_in([*crate.glob('specs/*.antt'), *crate.glob('src/**/*.rt')])
        elif scope and DOTTED.fullmatch(name) and not set(name.split('.')) <= there:
            yield name, f'{scope} doesn\'t define it'


def faults_of(document, words, clauses):
    """The clauses and names of a document that no function has and that no definition and no code uses."""
    for name in QUOTED.findall(text_of(document)):
        module, claim = MODULE.fullmatch(name), CLAUSES.fullmatch(name)
        if module:
            if not Path(f'crates/{module[1]}/specs/{module[2]}.antt').is_file():
                yield name, 'no such module of specs'
        elif claim and claim[1] != 'FUNCTION':
            function = claim[1].rpartition('::')[2]
            missing = [it for it in claim[2].split(', ') if it not in clauses.get(function, ())]
            if function not in clauses:
                yield name, f'no function {function}'
            elif missing:
                yield name, f'{function} has no clause {", ".join(missing)}'
        elif NAME.fullmatch(name):
            missing = [it for it in name.split('::') if it not in words]
            if missing:
                yield name, 'no such word in code or definitions'


def faults_of_laws(document, laws):
    """The laws of a document that are no public function."""
    for names in LAWS.findall(text_of(document)):
        for name in QUOTED.findall(re.sub(r'\([^)]*\)', '', names)):
            if name.partition(':')[0] not in laws:
                yield name, 'no such law'


def faults_of_cells(document):
    for line in text_of(document).splitlines():
        if line.startswith('|'):
            yield from undefined_in(line.strip('|').rpartition('|')[2])


def paths():
    """Each file and folder of the repository, also without the suffix, with a slash at both ends."""
    files = subprocess.run(['git', 'ls-files'], capture_output=True, text=True, check=True).stdout.splitlines()
    found = {str(folder) for file in files for folder in Path(file).parents} | set(files) | {str(Path(file).with_suffix('')) for file in files}
    return [f'/{it}/' for it in found]


def places_of(document, words, places):
    """The names of a document that are neither words of code, definitions and proofs nor files."""
    for name in QUOTED.findall(text_of(document)):
        path = name.rstrip('/')
        if any(it.endswith(f'/{path}/') for it in places):
            continue
        if NAME.fullmatch(name) and not all(it in words for it in name.split('::')):
            yield name, 'no such word in code, definitions or proofs, and no such file'
        elif re.fullmatch(r'[\w.-]+(/[\w.-]*)+|[\w-]+\.(rt|antt|py|md|log|txt)', name):
            yield name, 'no such file'


def words_of(texts):
    return set(re.findall(r'\w+', '\n'.join(texts)))


def main():
    sources, specs = texts_of('*/src/**/*.rt'), texts_of('*/specs/**/*.antt')
    words = words_of([*sources, *specs, Path('crates.txt').read_text(encoding='utf-8')])
    clauses, laws = clauses_of(sources, specs), set(PUBLIC.findall('\n'.join(sources)))
    glossary, claims = 'docs/GLOSSARY.md', 'docs/CLAIMS.md'
    faults = [(document, *fault) for document in (glossary, claims) for fault in faults_of(document, words, clauses)]
    faults += [(glossary, *fault) for fault in faults_of_cells(glossary)] + [(claims, *fault) for fault in faults_of_laws(claims, laws)]
    words |= words_of(texts_of('*/proofs/**/*.antt') + [code_of(it) for it in Path('bench').glob('*.py')])
    there = paths()
    faults += [(document, *fault) for document in ('docs/ARCHITECTURE.md', 'CONTRIBUTING.md') for fault in places_of(document, words, there)]
    for document, name, why in faults:
        print(f'{document}: `{name}`: {why}')
    return 1 if faults else 0


if __name__ == '__main__':
    sys.exit(main())
