"""The files of the command line: sheets, plans, lists and types read, and results written."""
import json
import os
import re
import shutil
import sys
import tempfile
from pathlib import Path
from typing import Any, Callable, Optional, TypeVar

from ._json import json_plan, json_value
from ._refusal import TextRefusal
from ._sheet import Sheet
from ._types import Type, Types

STANDARD = '-'
DIGIT = re.compile(rb'[0-9]')  # no text of a sheet begins with a digit, nor does a JSON array
BYTE = re.compile(rb'0[0-9A-Fa-f]')  # no JSON has a 0 and a digit behind it

Result = TypeVar('Result')


class Unreadable(Exception):
    """A file that cannot be read or written, or is none of what it may be."""


def contents(name: str) -> bytes:
    """The bytes of a file, or of standard input for `-`."""
    try:
        return sys.stdin.buffer.read() if name == STANDARD else Path(name).read_bytes()
    except OSError as error:
        raise Unreadable(f'{name}: {error.strerror}') from None


def encoded(data: bytes, name: str, hexadecimal: 're.Pattern[bytes]') -> Optional[bytes]:
    """The bytes of a file that has bytes (its first is below 09) or begins as hexadecimal does; none of one that has text."""
    if data and data[0] < 0x09:
        return data
    if not hexadecimal.match(data):
        return None
    try:
        return bytes.fromhex(data.decode('ascii'))
    except ValueError:
        raise Unreadable(f'{name}: it begins with a digit and is not hexadecimal, two digits for each byte') from None


def read(name: str, hexadecimal: 're.Pattern[bytes]', text: Callable[[bytes], Result], whole: Callable[[bytes], Result]) -> Result:
    """What a file has: `whole` of its bytes, or `text` of its text."""
    data = contents(name)
    found = encoded(data, name, hexadecimal)
    if found is not None:
        return whole(found)
    try:
        return text(data)
    except TextRefusal as refusal:
        refusal.filename = 'standard input' if name == STANDARD else name
        raise


def read_sheet(name: str) -> Sheet:
    return read(name, DIGIT, Sheet.parse, Sheet)


def read_plan(name: str) -> bytes:
    return read(name, DIGIT, json_plan, bytes)


def read_list(name: str) -> bytes:
    return read(name, BYTE, json_value, bytes)


def read_types(name: str) -> bytes:
    return read(name, DIGIT, lambda text: bytes(types_of(text, name)), bytes)


def types_of(text: bytes, name: str) -> Types:
    """The types of a JSON object with the members plan, list, nodes and, where there are any, sections."""
    try:
        parts = json.loads(text)
        sections = [[type_of(kind) for kind in section] for section in parts.pop('sections', [])]
        plan, view, nodes = parts.pop('plan'), parts.pop('list'), parts.pop('nodes')
        if parts:
            raise ValueError(f'there is no place for {", ".join(parts)}')
        return Types([type_of(kind) for kind in plan], type_of(view), [type_of(kind) for kind in nodes], sections)
    except (ValueError, TypeError, AttributeError, KeyError, RecursionError) as error:
        raise Unreadable(f'{name}: types are an object of "plan", "list", "nodes" and "sections": {error}') from None


def type_of(kind: Any) -> Type:
    """The type that JSON says: "truth", "number", [type] or {"a": type, "b": type}."""
    if kind in ('truth', 'number'):
        return bool if kind == 'truth' else int
    if isinstance(kind, list) and len(kind) == 1:
        return [type_of(kind[0])]
    if isinstance(kind, dict) and list(kind) == ['a', 'b']:
        return (type_of(kind['a']), type_of(kind['b']))
    raise ValueError(f'{json.dumps(kind)[:80]} is no type: "truth", "number", [type] or {{"a": type, "b": type}}')


def write(name: Optional[str], data: bytes) -> None:
    """Writes to a file, or to standard output for none or `-`. A file is replaced as a whole: it has the old bytes, or all the new ones."""
    if name is None or name == STANDARD:
        print_bytes(data)
        return
    try:
        path = Path(os.path.realpath(name))
        if path.exists() and not path.is_file():
            path.write_bytes(data)
        else:
            replace(path, data)
    except OSError as error:
        raise Unreadable(f'{name}: {error.strerror}') from None


def print_bytes(data: bytes) -> None:
    """Writes to standard output. Where that fails, what Python still holds for it goes nowhere, so that nothing more is said at the end."""
    try:
        sys.stdout.buffer.write(data)
        sys.stdout.buffer.flush()
    except OSError as error:
        os.dup2(os.open(os.devnull, os.O_WRONLY), sys.stdout.fileno())
        raise Unreadable(f'standard output: {error.strerror}') from None


def replace(path: Path, data: bytes) -> None:
    """Writes a file beside it and gives it its name."""
    handle, beside = tempfile.mkstemp(prefix=f'.{path.name}.', dir=path.parent)
    try:
        with os.fdopen(handle, 'wb') as file:
            file.write(data)
            file.flush()
            os.fsync(file.fileno())
        set_mode(beside, path)
        os.replace(beside, path)
    except BaseException:
        os.unlink(beside)
        raise


def set_mode(made: str, path: Path) -> None:
    """Who may read and write a file that was made: as the one that it replaces has it, or as any new file."""
    if path.exists():
        shutil.copymode(path, made)
        return
    mask = os.umask(0)
    os.umask(mask)
    os.chmod(made, 0o666 & ~mask)
