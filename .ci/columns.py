"""Whether no line of prose in the documents is wider than 100 columns.

Tables, indented code and sessions may be as wide as they are. Indented lines after an empty line are code; after a line of prose they go on with
it, as the lines of a list do. Prints each line that is too wide, and ends with status 1 if there is one.
"""
import sys
from pathlib import Path

WIDEST = 100
DOCUMENTS = [Path('README.md'), Path('CONTRIBUTING.md'), Path('CHANGELOG.md'), *sorted(Path('docs').glob('*.md'))]


def prose_of(text):
    """The numbers and the lines of prose."""
    begins, code = True, False
    for number, line in enumerate(text.splitlines(), 1):
        code = line.startswith('    ') and (begins or code)
        begins = not line.strip()
        if not code and not line.startswith('|'):
            yield number, line


def main():
    wide = [(document, number, len(line)) for document in DOCUMENTS for number, line in prose_of(document.read_text(encoding='utf-8')) if len(line) > WIDEST]
    for document, number, width in wide:
        print(f'{document}:{number} has {width} columns')
    return 1 if wide else 0


if __name__ == '__main__':
    sys.exit(main())
