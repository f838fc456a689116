"""A tree as a graph in graphviz's language, and as a picture."""
from __future__ import annotations

import os
import shutil
import subprocess
from typing import Iterable, Iterator

from .basics import Refused, WRITE_FAULT, bad_words, shown
from .processes import reading_of
from .session import Session
from .things import Step
from .times import clock
from .trees import Node, Tree

SHAPES = {'process': 'box', 'file': 'note', 'path': 'note', 'address': 'hexagon', 'made': 'ellipse', 'lost': 'ellipse'}


# A picture goes from left to right if no branch has more steps than this, and else from top to bottom: it would be too wide to be read.
MOST_ACROSS = 6


def quoted(text: str) -> str:
    """The text in graphviz's quotes, within which it also takes `&amp;` and the like for the characters that they name."""
    return '"' + text.replace('\\', '\\\\').replace('"', '\\"').replace('&', '&amp;') + '"'


def longest_branch(root: Node) -> int:
    """How many steps it has."""
    level, steps = [root], -1
    while level:
        level, steps = [child for node in level for child in node.children], steps + 1
    return steps


def day_of_all(steps: Iterable[Step]) -> str:
    """The day on which all steps were, or nothing."""
    days = {clock(it.at).rpartition(' ')[0] for it in steps}
    return days.pop() if len(days) == 1 else ''


def dot_lines(session: Session, tree: Tree, caption: str) -> Iterator[str]:
    """The tree as a graph in graphviz's language, each object and each flow once."""
    nodes = list(tree.root.walk())
    steps = sorted({it.step for it in nodes if it.step}, key=lambda it: (it.order, it.serial, it.source, it.target))
    day = day_of_all(steps)
    if day:
        caption += f'; all on {day}'
    yield 'digraph trail {'
    yield f'  rankdir={"LR" if longest_branch(tree.root) <= MOST_ACROSS else "TB"}; label={quoted(caption)}; fontname="sans"; fontsize=10;'
    yield '  node [fontname="sans", fontsize=10]; edge [fontname="sans", fontsize=8];'
    for thing in session.of(sorted({it.number for it in nodes})):
        fill = 'gold' if thing.number == tree.root.number else 'mistyrose' if thing.kind == 'address' else 'white'
        note = shown(thing.key) + ''.join(f'; {key} {text}' for key, text in reading_of(session, thing).items())
        yield (f'  n{thing.number} [label={quoted(f"{thing.label}  #{thing.number}")}, shape={SHAPES[thing.kind]}, style=filled, '
               f'fillcolor={fill}, tooltip={quoted(note)}];')
    for step in steps:
        time = clock(step.at).removeprefix(day + ' ')
        style = ', style=dashed' if step.through else ''
        label = quoted(f'{step.how} {time}').replace(' ', '\\n', 1)
        yield f'  n{step.source} -> n{step.target} [label={label}, tooltip={quoted(f"serial {step.serial}")}{style}];'
    yield '}'


def draw(lines: Iterable[str], picture: str) -> None:
    """The picture as a file, by graphviz."""
    if not shutil.which('dot'):
        bad_words('a picture needs graphviz (apt install graphviz, dnf install graphviz); --dot writes what dot would draw')
    form = os.path.splitext(picture)[1][1:]
    done = subprocess.run(['dot', f'-T{form}', '-o', picture], input='\n'.join(lines).encode(), stderr=subprocess.PIPE, check=False)
    if done.returncode:
        raise Refused(WRITE_FAULT, f'dot made no picture: {shown(done.stderr.decode("utf-8", "replace").strip())}')
