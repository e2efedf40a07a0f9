"""The functions of the archive (include/lens.h), called through ctypes, and the buffers that a call lends them.

A function takes inputs as bytes and lengths as SIZES has them, and answers with one number, which the functions below take apart.
"""
import ctypes
import os
import sys
from collections import deque
from ctypes import byref, c_size_t, c_uint8, c_uint16, c_uint64
from pathlib import Path
from typing import Any, Callable, Deque, Dict, List, Tuple

ALLOWANCE_MAX = 1_000_000
VALUE_MAX = 256

VERSION = 100
GET_OUT = VALUE_OUT = 256
PUT_OUT = 4096
SHEET_OUT = JSON_OUT = 2048
TEXT_OUT = 16384
SCRATCH = 65536
STARTS_MAX = 16
CHAIN_MAX = 49

NAME = 'liblens.dylib' if sys.platform == 'darwin' else 'liblens.so'
ADVICE = 'run bin/shared in a clone of the repository (docs/PYTHON.md), or name the library in LENS_LIBRARY'


class Sizes(Dict[int, Any]):
    """Numbers as arguments of the C type size_t. One that is met is kept, up to the most bytes of a plan: making it anew takes longer."""

    def __missing__(self, number: int) -> Any:
        argument = c_size_t.from_param(number)
        if number <= PUT_OUT:
            self[number] = argument
        return argument


SIZES = Sizes()
SCRATCH_SIZE = SIZES[SCRATCH]


def library_path() -> Path:
    """The library that LENS_LIBRARY names; otherwise the one that stands beside the package's files."""
    named = os.environ.get('LENS_LIBRARY')
    return Path(named).absolute() if named else Path(__file__).resolve().with_name(NAME)


def load(path: Path) -> Any:
    """A library; an ImportError says why there is none."""
    if not path.is_file():
        raise ImportError(f'there is no library {path}: {ADVICE}')
    try:
        library = ctypes.CDLL(str(path))
    except OSError as error:
        raise ImportError(f'the library {path} cannot be loaded ({error}): {ADVICE}') from error
    version = getattr(library, 'lens_version', int)()
    if version != VERSION:
        raise ImportError(f'the library {path} has version {version}, and this package needs {VERSION}: {ADVICE}')
    return library


class Archive:
    """The archive's functions by their names. The library is loaded where one is first asked for."""

    library: Any = None

    def __getattr__(self, name: str) -> Callable[..., int]:
        if not name.startswith('lens_'):
            raise AttributeError(name)
        if self.library is None:
            self.library = load(library_path())
        function = getattr(self.library, name, None)
        if function is None:
            raise ImportError(f'{library_path()} has no function {name}: it is no library of this version: {ADVICE}')
        function.restype = c_uint64
        setattr(self, name, function)
        return function


archive = Archive()


class Buffers:
    """What one call lends: output, scratch, and what some functions tell besides. `to_out` and `to_scratch` are the first two as arguments."""

    __slots__ = ('out', 'to_out', 'to_scratch', 'starts', 'written', 'chain', 'place')

    def __init__(self) -> None:
        self.out = (ctypes.c_char * TEXT_OUT)()
        self.to_out = byref(self.out)
        self.to_scratch = byref((c_uint8 * SCRATCH)())
        self.starts = (c_uint16 * STARTS_MAX)()
        self.written = (c_uint16 * 1)()
        self.chain = (c_uint8 * CHAIN_MAX)()
        self.place = (c_size_t * 1)()


# Buffers that no call holds. A call takes some, or makes them, and hands them back at its end: so each holds its own, whichever thread it
# is in, also where it interrupts another of the same thread (a handler of a signal), and as many are kept as calls ever ran at once.
free: Deque[Buffers] = deque()


def take() -> Buffers:
    try:
        return free.pop()
    except IndexError:
        return Buffers()


def number(answer: int) -> int:
    """The refusal's number; 0 is success."""
    return answer & 0xFF


def told(answer: int) -> int:
    """The length of what is given, or what a tool tells: a node, a growth, a verdict, a detail."""
    return answer >> 8 & 0xFFFF


def lent(*inputs: bytes) -> List[Any]:
    """Inputs as arguments: each with its length behind it."""
    return [part for data in inputs for part in (data, SIZES[len(data)])]


def made(name: str, inputs: List[Any], size: int) -> Tuple[int, bytes]:
    """What a function answers that writes to an output of that size and needs nothing else, and what it wrote; nothing with a refusal."""
    buffers = take()
    try:
        answer = getattr(archive, name)(*inputs, buffers.to_out, SIZES[size])
        return answer, b'' if number(answer) else buffers.out[:told(answer)]
    finally:
        free.append(buffers)
