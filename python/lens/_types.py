"""Types, by which a sheet is checked before it is used."""
from typing import Any, List, Sequence, Tuple, Union

from ._records import records

# Type = Union[type, List['Type'], Tuple['Type', 'Type']]: bool, int, [Type] or (Type, Type), which not every checker of types takes.
Type = Union[type, List[Any], Tuple[Any, Any]]

ALLOWED = 'a type is bool, int, [type] for a list, or (type, type) for a pair'
LONGEST = 256


def write(kind: object, out: bytearray, most: int) -> bool:
    """Appends the bytes of a type; whether it was one, of at most so many bytes."""
    if kind is bool or kind is int:
        out.append(0x30 if kind is bool else 0x31)
        return len(out) <= most
    if isinstance(kind, list) and len(kind) == 1:
        out.append(0x32)
    elif isinstance(kind, tuple) and len(kind) == 2:
        out.append(0x33)
    else:
        return False
    return len(out) < most and all(write(part, out, most) for part in kind)


def append(kind: object, where: str, out: bytearray) -> None:
    if not write(kind, out, len(out) + LONGEST):
        raise ValueError(f'{where}: no type, or one of over {LONGEST} bytes: {ALLOWED}')


class Types:
    """The types beside a sheet: a truth is `bool`, a number `int`, a list of numbers `[int]`, a pair of a number and a truth `(int, bool)`.

    plan        one for each variable of the plan
    view        that of the list
    nodes       one for each node, in node order
    sections    for each section those of its two variables and of what it gives

    >>> bytes(Types(plan=[int], view=[int], nodes=[[int], int, [int]])).hex(' ')
    '31 32 31 32 31 31 32 31'
    """

    def __init__(self, plan: Sequence[Type], view: Type, nodes: Sequence[Type], sections: Sequence[Sequence[Type]] = ()) -> None:
        out = bytearray()
        for index, kind in enumerate(plan):
            append(kind, f'plan[{index}]', out)
        for index, section in enumerate(sections):
            if len(section) != 3:
                raise ValueError(f'sections[{index}]: a section has three types: its two variables and what it gives')
            for part, kind in enumerate(section):
                append(kind, f'sections[{index}][{part}]', out)
        append(view, 'view', out)
        for index, kind in enumerate(nodes):
            append(kind, f'nodes[{index}]', out)
        self._bytes = bytes(out)

    def __bytes__(self) -> bytes:
        return self._bytes


def first(data: bytes, at: int) -> int:
    """The place behind the type that begins at a place of well formed bytes."""
    owing = 1
    while owing:
        owing += {0x32: 0, 0x33: 1}.get(data[at], -1)
        at += 1
    return at


def split(data: bytes) -> List[bytes]:
    """The types that stand one behind the other."""
    types, at = [], 0
    while at < len(data):
        end = first(data, at)
        types.append(data[at:end])
        at = end
    return types


def named(kind: bytes) -> str:
    """A type in words.

    >>> named(bytes.fromhex('32 33 31 32 30'))
    'list of pair of number and (list of truth)'
    """
    if kind[0] == 0x32:
        return f'list of {named(kind[1:])}'
    if kind[0] == 0x33:
        end = first(kind, 1)
        parts = [named(part) for part in (kind[1:end], kind[end:])]
        return 'pair of ' + ' and '.join(f'({part})' if ' ' in part else part for part in parts)
    return 'truth' if kind[0] == 0x30 else 'number'


def words_of(sheet: bytes, types: bytes, node: int) -> str:
    """The type of a node in words. The types of the nodes are the last of those beside the sheet."""
    return named(split(types)[node - len(records(sheet))])
