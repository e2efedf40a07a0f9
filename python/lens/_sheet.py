"""Sheets: read out, read back, and what the tools make of them."""
from ctypes import c_uint32
from typing import Any, List, Optional, Set, Union

from ._archive import (ALLOWANCE_MAX, GET_OUT, PUT_OUT, SCRATCH_SIZE, SHEET_OUT, SIZES, STARTS_MAX, TEXT_OUT, Buffers, archive, free, lent, made,
                       number, take, told)
from ._details import DETAILS
from ._refusal import Refusal, TextRefusal, found, text_bytes
from ._types import Types
from ._values import Bytes, Value, encode_plan, encode_view, read, read_plan

Plan = Union[List[Value], Bytes]
View = Union[Value, Bytes]

UNEXPECTED = 90
WALKED = range(40, 60)
LARGEST = 0xFFFFFFFF
ALLOWANCE = c_uint32.from_param(ALLOWANCE_MAX)
GET_SIZE, PUT_SIZE = SIZES[GET_OUT], SIZES[PUT_OUT]


class Got:
    """A list that was read out.

    view          the list, one value
    view_bytes    its bytes
    steps         the nodes that were entered
    """

    __slots__ = ('view_bytes', 'steps', '_view')

    def __init__(self, view_bytes: bytes, steps: int) -> None:
        self.view_bytes = view_bytes
        self.steps = steps
        self._view: Optional[Value] = None  # made where it is first asked for

    @property
    def view(self) -> Value:
        if self._view is None:
            self._view = read(self.view_bytes, 0)[0]
        return self._view

    def __repr__(self) -> str:
        return f'Got(view={self.view!r}, steps={self.steps})'


class Put:
    """A plan with a list read back into it.

    plan          the new plan, a list of as many values as the old one
    plan_bytes    its bytes
    written       the numbers of the variables that took a part of the list; the others have their old values
    steps         the nodes that were entered
    """

    __slots__ = ('plan_bytes', 'steps', '_bits', '_plan')

    def __init__(self, plan_bytes: bytes, steps: int, bits: int) -> None:
        self.plan_bytes = plan_bytes
        self.steps = steps
        self._bits = bits
        self._plan: Optional[List[Value]] = None  # made where it is first asked for

    @property
    def plan(self) -> List[Value]:
        if self._plan is None:
            self._plan = read_plan(self.plan_bytes)
        return self._plan

    @property
    def written(self) -> Set[int]:
        return {variable for variable in range(STARTS_MAX) if self._bits >> variable & 1}

    def __repr__(self) -> str:
        return f'Put(plan={self.plan!r}, written={self.written!r}, steps={self.steps})'


def allowed(allowance: object) -> Any:
    """The allowance as an argument. The archive refuses what is out of range (3)."""
    return ALLOWANCE if allowance is ALLOWANCE_MAX else c_uint32.from_param(natural(allowance, 'allowance'))


def natural(given: object, where: str) -> int:
    """A number that a call takes: LARGEST for a larger one, which is out of every range."""
    if not isinstance(given, int) or isinstance(given, bool) or given < 0:
        raise ValueError(f'{where}: {given!r} is no int from 0 on')
    return min(given, LARGEST)


def refusal(answer: int) -> Refusal:
    """The refusal that an answer has, with the node that 81 and 82 name."""
    return Refusal(number(answer), node=told(answer) if number(answer) in (81, 82) else None)


def refused(answer: int, buffers: Buffers, why: str, inputs: List[Any], limit: Any) -> Refusal:
    """The refusal of a get or a put. What was met in the walk is told by the archive's function `why` of the same sheet, plan and list."""
    if number(answer) not in WALKED:
        return refusal(answer)
    answer = getattr(archive, why)(*inputs, limit, buffers.to_scratch, SCRATCH_SIZE, buffers.chain)
    first = answer >> 16 & 0xFFFF
    return Refusal(number(answer), chain=list(buffers.chain[:answer >> 8 & 0xFF]), first_writer=first - 1 if first else None)


class Sheet:
    """A sheet's bytes. They are judged with each call.

    >>> sheet = Sheet(bytes.fromhex('010100 150102 1000 13'))   # a list of one member, variable 0
    >>> sheet.get([7])
    Got(view=[7], steps=3)
    >>> sheet.put([7], [8])
    Put(plan=[8], written={0}, steps=3)
    """

    __slots__ = ('_bytes', '_size')

    def __init__(self, data: Bytes) -> None:
        if not isinstance(data, (bytes, bytearray, memoryview)):
            raise ValueError(f'sheet: a sheet is bytes: {type(data).__name__}: Sheet.parse reads a text')
        self._bytes = bytes(data)
        self._size = SIZES[len(self._bytes)]

    @classmethod
    def parse(cls, text: Union[str, bytes]) -> 'Sheet':
        """The sheet of a text (docs/SHEETS.md), numbered as `numbered` does it. A text with a fault is a TextRefusal, which is a SyntaxError.

        >>> bytes(Sheet.parse('plan seat  list = [100 + seat]')).hex(' ')
        '01 01 00 15 01 03 1b 02 00 64 10 00 13'
        >>> Sheet.parse('plan seat\\nlist = [100 + seat)')
        Traceback (most recent call last):
          File "<string>", line 2
            list = [100 + seat)
                              ^
        lens.TextRefusal: expected `,`, `|` or `]`, found `)`
        """
        data = text_bytes(text)
        buffers = take()
        try:
            answer = archive.lens_read_sheet(*lent(data), buffers.to_out, SIZES[SHEET_OUT], buffers.place)
            if number(answer):
                raise fault(number(answer), data, buffers.place[0], told(answer))
            return cls(buffers.out[:told(answer)])
        finally:
            free.append(buffers)

    def __bytes__(self) -> bytes:
        return self._bytes

    def __eq__(self, other: object) -> bool:
        return self._bytes == other._bytes if isinstance(other, Sheet) else NotImplemented

    def __hash__(self) -> int:
        return hash(self._bytes)

    def __repr__(self) -> str:
        return f"Sheet(bytes.fromhex('{self._bytes.hex().upper()}'))"

    def __str__(self) -> str:
        """The sheet's text; refused where a node is used twice (81), or where the bytes are no sheet.

        >>> print(Sheet(bytes.fromhex('010100 150102 1000 13')))
        plan a
        list = [a]
        <BLANKLINE>
        """
        return self._made('lens_print_sheet', TEXT_OUT).decode('ascii')

    def get(self, plan: Plan, allowance: int = ALLOWANCE_MAX) -> Got:
        """The list that the sheet makes of a plan, in at most so many steps.

        >>> Sheet.parse('plan seat, price  list = (price, 100 + seat)').get([7, 70000]).view
        (70000, 107)
        """
        data = plan if type(plan) is bytes else encode_plan(plan)
        limit = allowed(allowance)
        buffers = take()
        try:
            answer = archive.lens_get(self._bytes, self._size, data, SIZES[len(data)], limit, buffers.to_out, GET_SIZE, buffers.to_scratch, SCRATCH_SIZE)
            if answer & 0xFF:
                raise refused(answer, buffers, 'lens_why_get', lent(self._bytes, data), limit)
            return Got(buffers.out[:answer >> 8 & 0xFFFF], answer >> 32)
        finally:
            free.append(buffers)

    def put(self, plan: Plan, view: View, allowance: int = ALLOWANCE_MAX) -> Put:
        """The new plan that an edited list makes of the old plan, in at most so many steps.

        >>> sheet = Sheet.parse('plan seat, price  list = [seat, seat]')
        >>> sheet.put([7, 70000], [8, 8])
        Put(plan=[8, 70000], written={0}, steps=5)
        >>> sheet.put([7, 70000], [8, 9])
        Traceback (most recent call last):
        lens.Refusal: no 54: two places of the list sent back that come from one variable differ: edit both alike (node 3)
        """
        inputs = lent(self._bytes, encode_plan(plan), encode_view(view))
        limit = allowed(allowance)
        buffers = take()
        try:
            answer = archive.lens_put_written(*inputs, limit, buffers.to_out, PUT_SIZE, buffers.to_scratch, SCRATCH_SIZE, buffers.starts, buffers.written)
            if answer & 0xFF:
                raise refused(answer, buffers, 'lens_why_put', inputs, limit)
            return Put(buffers.out[:answer >> 8 & 0xFFFF], answer >> 32, buffers.written[0])
        finally:
            free.append(buffers)

    def accepts(self, old: Plan, view: View, new: Plan, allowance: int = ALLOWANCE_MAX) -> bool:
        """Whether a new plan that was made elsewhere goes with a list and the old plan: it reads out to the list, and every variable that no
        record of the sheet names is as it was.

        >>> sheet = Sheet.parse('plan seat, price  list = seat')
        >>> sheet.accepts([7, 500], 8, [8, 500]), sheet.accepts([7, 500], 8, [8, 900])
        (True, False)
        """
        inputs = lent(self._bytes, encode_plan(old, 'old'), encode_view(view), encode_plan(new, 'new'))
        limit = allowed(allowance)
        buffers = take()
        try:
            answer = archive.lens_check_plan(*inputs, limit, buffers.to_scratch, SCRATCH_SIZE)
            if number(answer):
                raise refused(answer, buffers, 'lens_why_get', inputs[:2] + inputs[-2:], limit)
            return bool(told(answer))
        finally:
            free.append(buffers)

    def numbered(self) -> 'Sheet':
        """The sheet in the one numbering that every file of it gets, without nodes that are never met. A node that is used twice is refused (81).

        >>> bytes(Sheet(bytes.fromhex('010100 160302 12 13 1000')).numbered()).hex(' ')
        '01 01 00 16 01 02 10 00 13'
        """
        return Sheet(self._made('lens_number', SHEET_OUT))

    def join(self, other: 'Sheet') -> 'Sheet':
        """A sheet whose list is the pair of this one's and another's, both of one plan.

        >>> stalls, circle = Sheet.parse('plan a, b  list = a'), Sheet.parse('plan a, b  list = [b]')
        >>> stalls.join(circle).get([7, True]).view
        (7, [True])
        """
        if not isinstance(other, Sheet):
            raise ValueError(f'other: a sheet is joined with a Sheet: {type(other).__name__}')
        return Sheet(self._made('lens_join', SHEET_OUT, other._bytes))

    def growth(self, variable: int) -> int:
        """How often the length of a variable counts in the list's: where its value becomes d bytes longer, the list becomes so many times d
        bytes longer. Of sheets without cases, splits, calls and eaches.

        >>> Sheet.parse('plan name  list = (name, [name])').growth(0)
        2
        """
        answer = archive.lens_growth(*lent(self._bytes), SIZES[natural(variable, 'variable')])
        if number(answer):
            raise refusal(answer)
        return told(answer)

    def check_types(self, types: Union[Types, Bytes]) -> None:
        """Checks the sheet by types beside it: nothing is said where it passes. A node whose type does not fit is refused (82).

        With plans and lists of these types a sheet that passes never names a variable that is not there (42), and meets a wrong kind of value
        (43, 51) only where a number over 65,535 is added to, or an empty list comes back where there must be a member.

        >>> sheet = Sheet.parse('plan seat  list = [seat]')
        >>> sheet.check_types(Types(plan=[int], view=[int], nodes=[[int], int, [int]]))
        >>> sheet.check_types(Types(plan=[bool], view=[int], nodes=[[int], int, [int]]))
        Traceback (most recent call last):
        lens.Refusal: no 82: a node's type does not go with its kind, its scope, its place or its children's types: correct the node or the type (node 1)
        """
        if not isinstance(types, (Types, bytes, bytearray, memoryview)):
            raise ValueError(f'types: they are Types, or bytes: {type(types).__name__}')
        answer = archive.lens_check_types(*lent(self._bytes, bytes(types)))
        if number(answer):
            raise refusal(answer)

    def _made(self, name: str, size: int, *others: bytes) -> bytes:
        """What a tool makes of this sheet, and of another, in an output of that size."""
        answer, data = made(name, lent(self._bytes, *others), size)
        if number(answer):
            raise refusal(answer)
        return data


def fault(refused: int, text: bytes, place: int, detail: int) -> TextRefusal:
    """A text of a sheet that has a fault at a place."""
    sentence = DETAILS.get(detail, f'detail {detail}')
    return TextRefusal(refused, text, place, f'{sentence}, found {found(text, place)}' if refused == UNEXPECTED else sentence)
