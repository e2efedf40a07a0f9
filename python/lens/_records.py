"""The records of a sheet."""
from typing import List

from ._kinds import KINDS

HEADER, SECTION = 0x01, 0x20


def records(sheet: bytes) -> List[bytes]:
    """The records of the nodes of a sheet that the archive could read."""
    nodes, at = [], KINDS[HEADER][1]
    while at < len(sheet):
        end = at + KINDS[sheet[at]][1]
        if sheet[at] != SECTION:
            nodes.append(sheet[at:end])
        at = end
    return nodes
