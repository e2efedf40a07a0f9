"""Values and plans as JSON, both ways.

The archive reads and writes the values. What is here finds the values of a plan in a text, and where a text that is refused has its fault.
"""
import re
from typing import List, Tuple, Union

from ._archive import JSON_OUT, VALUE_OUT, lent, made, number
from ._refusal import Refusal, TextRefusal, found, text_bytes
from ._values import NUMBER_MAX, Value, described, encode, encode_view, read, read_plan

MALFORMED, DEPTH, LONG = 70, 71, 72
DEPTH_MAX = 48
WHITE = re.compile(rb'[ \t\n\r]*')
DIGITS = re.compile(rb'[0-9]*')
VALUE = 'expected false, true, a number, an array, or an object of "a", then "b"'
WORDS = {b't': b'true', b'f': b'false'}
OBJECT = (b'"a"', b':', None, b',', b'"b"', b':', None, b'}')  # None for a value


def to_json(value: object) -> str:
    """A value, or the bytes of one, as JSON without white space. A pair is an object with the members "a" and "b".

    >>> to_json([12, (13, True)])
    '[12,{"a":13,"b":true}]'
    """
    return value_json(encode_view(value, 'value'))


def from_json(text: Union[str, bytes]) -> Value:
    """The value of a text: false, true, plain numbers, arrays for lists, and objects of "a" and then "b" for pairs.

    >>> from_json('[12, {"a": 13, "b": true}]')
    [12, (13, True)]
    >>> from_json('[12, 13,]')
    Traceback (most recent call last):
      File "<string>", line 1
        [12, 13,]
                ^
    lens.TextRefusal: expected false, true, a number, an array, or an object of "a", then "b", found `]`
    """
    return read(json_value(text_bytes(text)), 0)[0]


def plan_to_json(plan: List[Value]) -> str:
    """The values of a plan as a JSON array.

    >>> plan_to_json([12, (13, True)])
    '[12,{"a":13,"b":true}]'
    """
    if not isinstance(plan, list):
        raise ValueError(f'plan: a plan is a list of values: {described(plan)}')
    return '[' + ','.join(value_json(encode(value, f'plan[{index}]')) for index, value in enumerate(plan)) + ']'


def plan_from_json(text: Union[str, bytes]) -> List[Value]:
    """The values of a plan that is written as a JSON array.

    >>> plan_from_json('[12, {"a": 13, "b": true}]')
    [12, (13, True)]
    """
    return read_plan(json_plan(text_bytes(text)))


def value_json(value: bytes) -> str:
    """The JSON of the bytes of a value."""
    answer, text = made('lens_to_json', lent(value), JSON_OUT)
    if number(answer):
        raise Refusal(number(answer))
    return text.decode('ascii')


def json_value(text: bytes) -> bytes:
    """The bytes of the value of a text."""
    answer, value = made('lens_from_json', lent(text), VALUE_OUT)
    if number(answer) in (MALFORMED, DEPTH):
        raise refused(text)
    if number(answer):
        raise Refusal(number(answer))
    return value


def json_plan(text: bytes) -> bytes:
    """The bytes of the plan of a text. The outer array does not count as one that a value nests in."""
    try:
        spans, end = array(text, expect(text, skip(text, 0), b'['), 0)
        finish(text, end)
    except Fault as fault:
        raise fault.refusal(text) from None
    return b''.join(member(text, start, end) for start, end in spans)


def member(text: bytes, start: int, end: int) -> bytes:
    """The bytes of a value of a plan, which stands between two places."""
    try:
        return json_value(text[start:end])
    except Refusal as refusal:
        raise TextRefusal(refusal.number, text, start, refusal.meaning) from None


class Fault(Exception):
    """The first byte of a text that shows why it is refused: the refusal's number, the byte's place and a sentence."""

    def __init__(self, place: int, sentence: str, number: int = MALFORMED) -> None:
        super().__init__(number, place)
        self.number = number
        self.place = place
        self.sentence = sentence

    def refusal(self, text: bytes) -> TextRefusal:
        return TextRefusal(self.number, text, self.place, f'{self.sentence}, found {found(text, self.place)}')


def refused(text: bytes) -> Refusal:
    """The refusal of a text that the archive refuses with 70 or 71, with the place of its fault."""
    try:
        finish(text, value(text, 0, 0))
    except Fault as fault:
        return fault.refusal(text)
    return Refusal(MALFORMED)


def skip(text: bytes, at: int) -> int:
    """The place behind white space."""
    return WHITE.match(text, at).end()  # type: ignore[union-attr]


def expect(text: bytes, at: int, word: bytes, sentence: str = '') -> int:
    """The place behind a word."""
    for place, byte in enumerate(word, at):
        if text[place:place + 1] != bytes([byte]):
            raise Fault(place, sentence or f'expected `{word.decode()}`')
    return at + len(word)


def finish(text: bytes, at: int) -> None:
    """Nothing but white space may stand here."""
    at = skip(text, at)
    if at < len(text):
        raise Fault(at, 'expected the end of the text')


def value(text: bytes, at: int, depth: int) -> int:
    """The place behind the value that stands within so many arrays and objects."""
    at = skip(text, at)
    first = text[at:at + 1]
    if first in (b'[', b'{'):
        if depth == DEPTH_MAX:
            raise Fault(at, f'expected arrays and objects to nest at most {DEPTH_MAX} deep', DEPTH)
        return array(text, at + 1, depth + 1)[1] if first == b'[' else pair(text, at + 1, depth + 1)
    if first in WORDS:
        return expect(text, at, WORDS[first])
    if first.isdigit():
        return numeral(text, at)
    raise Fault(at, VALUE)


def numeral(text: bytes, at: int) -> int:
    """The place behind a number."""
    end = DIGITS.match(text, at).end()  # type: ignore[union-attr]
    digits = text[at:end]
    if digits.startswith(b'0') and len(digits) > 1:
        raise Fault(at + 1, 'expected a number without a 0 in front')
    if int(digits[:11]) > NUMBER_MAX:
        raise Fault(at + (9 if int(digits[:10]) > NUMBER_MAX else 10), 'expected a number up to 4,294,967,295')
    return end


def array(text: bytes, at: int, depth: int) -> Tuple[List[Tuple[int, int]], int]:
    """Where the members of an array begin and end, and the place behind it. Its bracket stands before `at`."""
    spans: List[Tuple[int, int]] = []
    at = skip(text, at)
    if text[at:at + 1] == b']':
        return spans, at + 1
    while True:
        start = skip(text, at)
        at = value(text, start, depth)
        spans.append((start, at))
        at = skip(text, at)
        if text[at:at + 1] == b']':
            return spans, at + 1
        at = expect(text, at, b',', 'expected `,` or `]`')


def pair(text: bytes, at: int, depth: int) -> int:
    """The place behind an object. Its brace stands before `at`."""
    for token in OBJECT:
        at = skip(text, at)
        at = value(text, at, depth) if token is None else expect(text, at, token)
    return at
