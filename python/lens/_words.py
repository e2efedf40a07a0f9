"""A refusal in words, for a person: what it means, the node that it was met at, and the nodes from the root down to it."""
from typing import List

from ._kinds import KINDS
from ._records import records
from ._refusal import Refusal, TextRefusal

ENTERED = (40, 41)  # refusals of a node that could not be entered


def node(sheet: bytes, number: int) -> str:
    """A node with its kind and its record."""
    record = records(sheet)[number]
    return f'node {number}, {KINDS[record[0]][0]}: {record.hex(" ").upper()}'


def words(refusal: Refusal, sheet: bytes = b'', walking: bool = False) -> List[str]:
    """The lines that tell a refusal. `walking` says that it is one of a get or a put, which a walk may meet."""
    lines = [refusal.sentence()]
    if isinstance(refusal, TextRefusal):
        return lines + [f'{refusal.filename or "the text"}: {refusal.said()}', *refusal.shown()]
    if refusal.chain:
        return lines + way(refusal, sheet)
    if refusal.node is not None:
        return lines + [node(sheet, refusal.node)]
    return lines + (['met before any node was entered'] if walking else [])


def way(refusal: Refusal, sheet: bytes) -> List[str]:
    """The lines that tell where a refusal was met in the walk."""
    met = node(sheet, refusal.chain[-1])
    lines = [f'could not be entered, at depth {refusal.depth}: {met}' if refusal.number in ENTERED else f'met at depth {refusal.depth}, at {met}']
    if refusal.first_writer is not None:
        lines.append(f'written first by {node(sheet, refusal.first_writer)}')
    return lines + ['the way from the root:'] + [f'  {node(sheet, number)}' for number in refusal.chain]
