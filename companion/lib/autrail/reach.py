"""The commands `back` and `fore`: lists, trees and pictures."""
from __future__ import annotations

import argparse

from .basics import ANSWER, many, shown
from .hidden import Hidden
from .json_lines import as_json
from .naming import resolve
from .pictures import dot_lines, draw
from .processes import READ_FROM_LOG, process_lines, tell_processes
from .session import Session
from .things import Thing
from .times import bound_of
from .trees import most_paths, tree_lines, tree_of, without_hidden
from .trust import blind_spots, order_of

KINDS = {'process': 'processes', 'file': 'files', 'path': 'paths without a file number', 'address': 'addresses',
         'made': 'pipes and sockets', 'lost': 'descriptors that nobody was seen to open'}


def reach(session: Session, options: argparse.Namespace) -> int:
    """`back` and `fore`."""
    back = options.command == 'back'
    bound = bound_of(options.time, 'flows up to' if back else 'flows from')
    for root in resolve(session, options.what, options.each):
        things = session.of(session.reach(options.command, root.number, bound))
        hidden = Hidden.of(session, [it for it in things if it.number != root.number], options)
        if options.json:
            for thing in things:
                print(as_json(session, thing, of=root.number, hidden=thing.number in hidden))
        elif options.tree or options.dot or options.picture:
            show_tree(session, options, root, things, hidden, bound)
        else:
            show_groups(session, root, back, things, hidden)
    return ANSWER


def show_groups(session: Session, root: Thing, back: bool, things: list[Thing], hidden: Hidden) -> None:
    print(f'{root.label}  #{root.number}  {"can have come from" if back else "can have reached"}:')
    shown_things = [it for it in things if it.number not in hidden and it.number != root.number]
    for kind in ('address', 'file', 'path', 'process', 'made', 'lost'):
        some = [it for it in shown_things if it.kind == kind]
        if some:
            print(f'{KINDS[kind]}{f" ({READ_FROM_LOG})" if kind == "process" and session.has_lines else ""}:')
            for line in process_lines(session, some) if kind == 'process' else (f'  #{it.number:<6}{it.label}' for it in some):
                print(line)
    if not shown_things:
        print(nothing_else(session, hidden))
    for text in sources_alone(session, back) + hidden.texts():
        print(text)


def sources_alone(session: Session, back: bool) -> list[str]:
    """That the answer of one mode leaves out what lies between."""
    return ['only sources are listed, since the mode is source'] * (back and session.mode == 'source')


def nothing_else(session: Session, hidden: Hidden) -> str:
    return f'nothing else in this {session.holder}{" that is shown" if hidden.texts() else ""}\n{blind_spots(session)}'


def show_tree(session: Session, options: argparse.Namespace, root: Thing, things: list[Thing], hidden: Hidden, bound: str) -> None:
    back = options.command == 'back'
    visible = [it.number for it in things if it.number not in hidden and it.number != root.number]
    most = options.paths or most_paths(len(things))
    tree = tree_of(session, root.number, visible, back, bound, most)
    tree.root = without_hidden(tree, hidden)
    notes = [f'one path for each of {many(len(visible) - len(tree.left_out), "object")}', *sources_alone(session, back), *hidden.texts()]
    if tree.left_out:
        notes.append(f'{many(len(tree.left_out), "object")} of the answer left out, since {many(most, "path")} were asked for; --paths N asks for more')
    if tree.without:
        notes.append('in the answer, with no path shown: ' + ', '.join(f'#{it} {session.thing(it).label}' for it in tree.without))
    if options.tree:
        print(f'{root.label}  #{root.number}')
        for line in tree_lines(session, tree.root, back):
            print(line)
        if not visible:
            print(nothing_else(session, hidden))
        tell_processes(session, [it.number for it in tree.root.walk()])
        print('\n'.join(notes))
        return
    caption = f'autrail {options.command} {root.label}: ' + '; '.join([it for it in (order_of(session), *notes) if it])
    if options.dot:
        print('\n'.join(dot_lines(session, tree, caption)))
    else:
        draw(dot_lines(session, tree, caption), options.picture)
        print(f'{shown(options.picture)}: ' + '; '.join(notes))
