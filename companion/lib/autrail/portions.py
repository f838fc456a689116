"""Portions of a log: what several files have, as far as the program takes it at once."""
from __future__ import annotations

import lzma
from dataclasses import dataclass
from typing import BinaryIO, Iterator, Sequence

from .held import Held
from .logs import PIECE, bad_log

# The most bytes of a log that the program takes at once. Each time it opens the store, which takes longer as the store grows.
PORTION = 1 << 28


@dataclass
class Part:
    """What a portion has of one file: the bytes from `offset` on, which stand from `begin` on in the portion."""
    file: Held
    begin: int
    offset: int
    length: int = 0


def copied(files: Sequence[Held], offset: int, portion: BinaryIO) -> list[Part]:
    """Writes what the files have, from this byte of the first one on, as far as it fits into a portion. Each file but the last is ended by a line feed."""
    parts: list[Part] = []
    for file in files:
        part = Part(file, portion.tell(), offset)
        parts.append(part)
        last = b'\n'
        for piece in bytes_from(file, offset, PORTION - part.begin):
            portion.write(piece)
            part.length += len(piece)
            last = piece[-1:]
        if portion.tell() >= PORTION:
            break
        if last != b'\n' and file is not files[-1]:
            portion.write(b'\n')
        offset = 0
    return parts


def bytes_from(file: Held, offset: int, most: int) -> Iterator[bytes]:
    try:
        source = file.unpacked()
        if offset and (source.seek(offset - 1) != offset - 1 or len(source.read(1)) != 1):
            bad_log(file.path, f'it has fewer bytes than the {offset:,} that were taken of it')
        while piece := source.read(min(PIECE, most)):
            most -= len(piece)
            yield piece
    except (OSError, EOFError, lzma.LZMAError) as fault:
        bad_log(file.path, f'the file is damaged or can\'t be read ({fault})')
