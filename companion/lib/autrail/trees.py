"""Trees: one path for each object of an answer, joined, and drawn with lines of text."""
from __future__ import annotations

import sys
from dataclasses import dataclass, field
from typing import Iterator, Sequence

from .basics import many
from .hidden import Hidden
from .session import Session
from .things import Step
from .times import clock

# The most paths that a tree is made of. For each path the program walks over everything from which the path's end can have come, so a tree out of many
# objects is made of fewer.
MOST_PATHS, MOST_OF_MANY, MANY = 300, 50, 3000
SOME_PATHS = 10


@dataclass
class Node:
    """An object in a tree, and the flow between it and the node above."""
    number: int
    step: Step | None = None
    children: list[Node] = field(default_factory=list)

    def walk(self) -> Iterator[Node]:
        """The node and all below it, each before those below it. A path can be longer than Python's calls go deep."""
        waiting = [self]
        while waiting:
            node = waiting.pop()
            yield node
            waiting += node.children


@dataclass
class Tree:
    """Paths between a root and the objects of an answer, with shared beginnings joined.

    There was no path to the objects `without` one, and `left_out` are those for which none was asked.
    """
    root: Node
    back: bool
    without: list[int]
    left_out: list[int]


def most_paths(objects: int) -> int:
    """Of how many paths a tree out of this many objects is made, unless --paths says it."""
    return MOST_OF_MANY if objects > MANY else MOST_PATHS


def tree_of(session: Session, root: int, numbers: Sequence[int], back: bool, bound: str, most: int) -> Tree:
    """The tree of paths that the program shows, until each object is in it, or this many paths are.

    What appeared first in the log is asked for first backward, and last forward: such a path is often long, and has others in it.
    If there may be too many paths, addresses are asked for before anything else.
    """
    tree = Tree(Node(root), back, [], [])
    placed = {root}
    since = int(bound.strip().replace('.', '') or 0)
    waiting = sorted(numbers, reverse=not back)
    if len(waiting) > most:
        waiting.sort(key=lambda it: session.thing(it).kind != 'address')
    while waiting and most:
        # Some paths are asked for at once, since it takes time until the program and autrail take turns.
        some, waiting = waiting[:min(most, SOME_PATHS)], waiting[min(most, SOME_PATHS):]
        for number, path in zip(some, session.paths([(it, root) if back else (root, it) for it in some], bound if back else '')):
            if number in placed:
                continue
            most -= 1
            if path is None or not back and path and path[0].order < since:
                tree.without.append(number)
            else:
                insert(tree, path[::-1] if back else path)
                placed |= {it.source if back else it.target for it in path}
        waiting = [it for it in waiting if it not in placed]
    tree.without = [it for it in tree.without if it not in placed]
    tree.left_out = waiting
    return tree


def insert(tree: Tree, path: Sequence[Step]) -> None:
    """Joins a path, from the root on, to the tree.

    Two flows between the same objects are joined if their times differ: backward the later one, forward the earlier one
    stays, so that times along each branch still go one way. With equal times their order isn't known, and both stay.
    """
    node = tree.root
    for step in path:
        number = step.source if tree.back else step.target
        child = next((it for it in node.children if it.number == number and may_join(it.step, step)), None)
        if child is None:
            child = Node(number, step)
            node.children.append(child)
        elif (step.order > child.step.order) == tree.back and step.order != child.step.order:
            child.step = step
        node = child


def may_join(one: Step, other: Step) -> bool:
    return one == other or one.order != other.order


def without_hidden(tree: Tree, hidden: Hidden) -> Node:
    """The tree without hidden objects. What is reached by way of them hangs from the next object that is shown."""
    pruned: dict[int, Node] = {}
    for node in reversed(list(tree.root.walk())):
        kept = pruned[id(node)] = Node(node.number, node.step)
        for child in node.children:
            below = pruned.pop(id(child))
            if child.number in hidden:
                kept.children += [Node(it.number, passing(it.step, child.step, tree.back), it.children) for it in below.children]
            else:
                kept.children.append(below)
    return pruned[id(tree.root)]


def passing(far: Step, near: Step, back: bool) -> Step:
    """Two steps joined into one, by way of a hidden object. It has the time of the step near the root."""
    source, target = (far.source, near.target) if back else (near.source, far.target)
    return Step(source, target, near.how, near.at, near.serial, far.through + 1)


def tree_lines(session: Session, root: Node, back: bool) -> Iterator[str]:
    bars = ('└─', '├─', '│  ') if can_draw() else ('`-', '|-', '|  ')
    waiting = [(child, '', last) for child, last in in_order(root, back)]
    while waiting:
        node, prefix, last = waiting.pop()
        through = f'  (by way of {many(node.step.through, "hidden object")})' if node.step.through else ''
        label = session.thing(node.number).label
        yield f'{prefix}{bars[0] if last else bars[1]} {node.step.how:5} {clock(node.step.at)}:{node.step.serial}  {label}  #{node.number}{through}'
        waiting += [(child, prefix + ('   ' if last else bars[2]), ends) for child, ends in in_order(node, back)]


def in_order(node: Node, back: bool) -> list[tuple[Node, bool]]:
    """The children of a node as a stack gives them, nearest in time first, and whether each is the last."""
    children = sorted(node.children, key=lambda it: (it.step.order, it.step.serial, it.number), reverse=not back)
    return [(it, place == 0) for place, it in enumerate(children)]


def can_draw() -> bool:
    try:
        '└├│→'.encode(sys.__stdout__.encoding or 'ascii')
    except UnicodeEncodeError:
        return False
    return True
