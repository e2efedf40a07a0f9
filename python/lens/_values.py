"""Values: a bool, an int from 0 to 4,294,967,295, a list of values, or a tuple of two values, which is a pair; and their bytes."""
from struct import Struct
from typing import Any, List, Tuple, Union

from ._archive import VALUE_MAX

# Value = Union[bool, int, List['Value'], Tuple['Value', 'Value']], which not every checker of types takes.
Value = Union[bool, int, List[Any], Tuple[Any, Any]]
Bytes = Union[bytes, bytearray, memoryview]

NUMBER_MAX = 0xFFFFFFFF
SHORT_MAX = 0xFFFF
ALLOWED = 'a value is a bool, an int from 0 to 4,294,967,295, a list, or a tuple of two'
COUNTED = 'a truth has 1 byte, a number 3, above 65,535 it has 5, a pair 1 beside its parts, a list 1 and 1 more for each member'

short = Struct('>BH').pack
wide = Struct('>BI').pack
first_short = Struct('>BBH').pack


class Unfit(Exception):
    """Something that is no value, and the way to it: the last index first."""

    def __init__(self, what: str) -> None:
        super().__init__(what)
        self.what = what
        self.way: List[int] = []

    def error(self, where: str) -> ValueError:
        way = ''.join(f'[{index}]' for index in reversed(self.way))
        return ValueError(f'{where}{way}: {self.what}: {ALLOWED}')


class Long(Exception):
    """A value of over 256 bytes."""

    def error(self, where: str) -> ValueError:
        return ValueError(f'{where}: over {VALUE_MAX} bytes: {COUNTED}')


def described(value: object) -> str:
    """What is wrong with something that is no value."""
    kind = type(value).__name__
    if isinstance(value, int):
        return f'the number {value} is ' + ('negative' if value < 0 else 'over 4,294,967,295')
    if isinstance(value, tuple):
        return f'a tuple of {len(value)}: a pair is a tuple of two'
    if isinstance(value, str):
        return f'a {kind}, where a name is a list of numbers'
    return f'no value: {kind}'


def write(value: object, out: bytearray, most: int) -> None:
    """Appends the bytes of a value; Long where `out` gets over `most` bytes.

    Behind each member of a list stands at least one byte, and behind the first part of a pair. So such a part must end one byte earlier, and a
    value that nests without end is soon too long.
    """
    if len(out) >= most:
        raise Long
    if value is False or value is True:
        out.append(value)  # type: ignore[arg-type]
    elif isinstance(value, int) and 0 <= value <= NUMBER_MAX:
        out += short(0x04, value) if value <= SHORT_MAX else wide(0x06, value)
    elif isinstance(value, list):
        write_list(value, out, most)
    elif isinstance(value, tuple) and len(value) == 2:
        write_pair(value, out, most)
    else:
        raise Unfit(described(value))


def write_list(members: List[Any], out: bytearray, most: int) -> None:
    """Appends the bytes of a list. Small numbers, of which most lists are, are written here."""
    if 2 * len(members) > VALUE_MAX:
        raise Long
    index = 0
    try:
        for index, member in enumerate(members):
            if type(member) is int and 0 <= member <= SHORT_MAX:
                out += first_short(0x03, 0x04, member)
            else:
                out.append(0x03)
                write(member, out, most - 1)
    except Unfit as unfit:
        unfit.way.append(index)
        raise
    out.append(0x02)


def write_pair(pair: Tuple[Any, Any], out: bytearray, most: int) -> None:
    """Appends the bytes of a pair."""
    out.append(0x05)
    index = 0
    try:
        write(pair[0], out, most - 1)
        index = 1
        write(pair[1], out, most)
    except Unfit as unfit:
        unfit.way.append(index)
        raise


def append(value: object, out: bytearray) -> None:
    """Appends the bytes of a value, at most 256."""
    most = len(out) + VALUE_MAX
    write(value, out, most)
    if len(out) > most:
        raise Long


def encode(value: object, where: str = 'value') -> bytes:
    """The bytes of a value.

    >>> encode([12, (13, True)]).hex(' ')
    '03 04 00 0c 03 05 04 00 0d 01 02'
    >>> encode([1, (2, [0.5])], 'view')
    Traceback (most recent call last):
    ValueError: view[1][1][0]: no value: float: a value is a bool, an int from 0 to 4,294,967,295, a list, or a tuple of two
    """
    out = bytearray()
    try:
        append(value, out)
    except (Unfit, Long) as unfit:
        raise unfit.error(where) from None
    return bytes(out)


def encode_plan(plan: object, where: str = 'plan') -> bytes:
    """The bytes of a plan: a list of values, or bytes, which are taken as they are.

    >>> encode_plan([12, True]).hex(' ')
    '04 00 0c 01'
    """
    if not isinstance(plan, list):
        if isinstance(plan, (bytes, bytearray, memoryview)):
            return bytes(plan)
        raise ValueError(f'{where}: a plan is a list of values, or bytes: {described(plan)}')
    out = bytearray()
    index = 0
    try:
        for index, value in enumerate(plan):
            if type(value) is int and 0 <= value <= SHORT_MAX:
                out += short(0x04, value)
            else:
                append(value, out)
    except (Unfit, Long) as unfit:
        raise unfit.error(f'{where}[{index}]') from None
    return bytes(out)


def encode_view(view: object, where: str = 'view') -> bytes:
    """The bytes of a list that is sent back: a value, or bytes, which are taken as they are."""
    if isinstance(view, (bytes, bytearray, memoryview)):
        return bytes(view)
    return encode(view, where)


def read(data: bytes, at: int) -> Tuple[Value, int]:
    """The value that stands at a place of well formed bytes, and the place behind it."""
    kind = data[at]
    at += 1
    if kind == 0x04:
        return data[at] << 8 | data[at + 1], at + 2
    if kind == 0x03:
        return read_list(data, at)
    if kind == 0x05:
        left, at = read(data, at)
        right, at = read(data, at)
        return (left, right), at
    if kind == 0x06:
        return int.from_bytes(data[at:at + 4], 'big'), at + 4
    if kind == 0x02:
        return [], at
    if kind < 0x02:
        return kind == 0x01, at
    raise ValueError(f'there is no kind of value {kind:02X}')


def read_list(data: bytes, at: int) -> Tuple[List[Value], int]:
    """The list whose first member stands at a place, and the place behind it. Small numbers, of which most lists are, are read here."""
    members: List[Value] = []
    kind = 0x03
    while kind == 0x03:
        if data[at] == 0x04:
            members.append(data[at + 1] << 8 | data[at + 2])
            at += 3
        else:
            member, at = read(data, at)
            members.append(member)
        kind = data[at]
        at += 1
    if kind != 0x02:
        raise ValueError(f'the rest of a list is of kind {kind:02X}')
    return members, at


def read_plan(data: bytes) -> List[Value]:
    """The values whose bytes stand one behind the other, as the archive gives them."""
    values, at = [], 0
    while at < len(data):
        value, at = read(data, at)
        values.append(value)
    return values


def decode(data: Bytes) -> Value:
    """The value of the bytes; a ValueError where they are not those of one value.

    >>> decode(bytes.fromhex('0304000C030504000D0102'))
    [12, (13, True)]
    >>> decode(b'\\x03\\x01')
    Traceback (most recent call last):
    ValueError: not the bytes of one value: 03 01
    """
    data = bytes(data)
    try:
        value, _ = read(data[:VALUE_MAX], 0)
        if encode(value) == data:
            return value
    except (ValueError, IndexError):
        pass
    raise ValueError(f'not the bytes of one value: {data.hex(" ").upper()}')
