"""Refusals as exceptions."""
import re
from typing import List, Optional, Tuple, Union

from ._refusals import REFUSALS

UNKNOWN = (None, None, 'a refusal that this package does not know', 'use a library and a package of one version')
SHOWN = 120  # characters of a line that are shown
TOKEN = re.compile(rb'[A-Za-z_][A-Za-z0-9_]*|[0-9]+|->|[!-~]')


class Refusal(Exception):
    """What the archive refuses.

    number, name    the refusal's number, and its name as include/lens.h has it, without LENS_ in front
    meaning         what was met
    remedy          what to do
    node            the node of the sheet where it was met, or that a tool names (81, 82); None where there is none
    depth           how deep that node was met: 1 for the root; 0 where the refusal was not met in a walk
    chain           the nodes from the root down to that node; empty where the refusal was not met in a walk
    first_writer    of 54, two values for one variable, the node that wrote the variable first; None of any other

    >>> refusal = Refusal(54, chain=[0, 2], first_writer=1)
    >>> print(refusal)
    no 54: two places of the list sent back that come from one variable differ: edit both alike (node 2)
    >>> refusal.name, refusal.node, refusal.depth, refusal.first_writer
    ('CLASH', 2, 2, 1)
    """

    def __init__(self, number: int, node: Optional[int] = None, chain: Optional[List[int]] = None, first_writer: Optional[int] = None) -> None:
        self.number = number
        _, self.name, self.meaning, self.remedy = REFUSALS.get(number, UNKNOWN)
        self.chain = chain or []
        self.depth = len(self.chain)
        self.node = self.chain[-1] if self.chain else node
        self.first_writer = first_writer

    def sentence(self) -> str:
        """The number, what was met, and what to do."""
        return f'no {self.number}: {self.meaning}: {self.remedy}'

    def __str__(self) -> str:
        return self.sentence() + ('' if self.node is None else f' (node {self.node})')

    def __repr__(self) -> str:
        return f'<Refusal {self.number} {self.name}>'


class TextRefusal(Refusal, SyntaxError):
    """A text that is refused: that of a sheet (90 to 94), or JSON (70, 71). It is a SyntaxError too.

    lineno, offset    the line and the column of the fault, both from 1
    text              that line, without its end
    msg               what was expected there, or what is wrong
    place             how many bytes stand before the fault

    >>> error = TextRefusal(90, 'plan a\\nlist a', 12, 'expected `=`')
    >>> print(error)
    line 2, column 6: expected `=` (no 90)
      list a
           ^
    """

    def __init__(self, number: int, text: Union[str, bytes], place: int, message: str) -> None:
        Refusal.__init__(self, number)
        self.place = place
        self.lineno, self.offset, self.text = position(text, place)
        self.msg = message
        self.filename = None

    def said(self) -> str:
        """Where the fault is, and what is wrong."""
        return f'line {self.lineno}, column {self.offset}: {self.msg}'

    def shown(self) -> List[str]:
        """The line with a sign below the fault; of a long line the part around it."""
        line, column = self.text or '', (self.offset or 1) - 1
        start = max(0, column - SHOWN // 2) if len(line) > SHOWN else 0
        part = line[start:start + SHOWN].replace('\t', ' ')
        return [f'  {part}', f'  {" " * (column - start)}^']

    def __str__(self) -> str:
        return '\n'.join([f'{self.said()} (no {self.number})', *self.shown()])


def text_bytes(text: Union[str, bytes]) -> bytes:
    """The bytes of a text: those of a string are its UTF-8. A ValueError where it is neither."""
    if isinstance(text, str):
        return text.encode('utf-8', 'surrogatepass')
    if isinstance(text, (bytes, bytearray, memoryview)):
        return bytes(text)
    raise ValueError(f'text: a text is a str, or bytes: {type(text).__name__}')


def position(text: Union[str, bytes], place: int) -> Tuple[int, int, str]:
    """Line and column of a place in a text, and the line. A column is a character."""
    data = text_bytes(text)
    start = data.rfind(b'\n', 0, place) + 1
    end = data.find(b'\n', place)
    line = data[start:len(data) if end < 0 else end].decode('utf-8', 'replace').rstrip('\r')
    return data.count(b'\n', 0, place) + 1, len(data[start:place].decode('utf-8', 'replace')) + 1, line


def found(text: bytes, place: int) -> str:
    """What stands at a place of a text, in words: a word, a number, a sign, or the end."""
    if place >= len(text):
        return 'the end of the text'
    token = TOKEN.match(text, place)
    if token:
        return f'`{token.group().decode()}`'
    return f'the byte {text[place]:02X}'
