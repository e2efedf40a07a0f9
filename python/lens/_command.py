"""The command line: python3 -m lens VERB ..."""
import argparse
import json
import sys
from contextlib import contextmanager
from typing import Any, Callable, Dict, Iterator, List, NamedTuple, Optional

from ._archive import ALLOWANCE_MAX
from ._files import BYTE, STANDARD, Unreadable, read, read_list, read_plan, read_sheet, read_types, write
from ._json import json_value, value_json
from ._refusal import Refusal
from ._sheet import Sheet
from ._types import words_of
from ._values import encode, read_plan as values_of
from ._words import words

Arguments = argparse.Namespace

ABOUT = 'One sheet of rules for a venue, read both ways: from the plan to the list, and from the edited list to the new plan.'
FILES = '''\
A file is named, or - for standard input. Its first byte tells what it has:
  SHEET            below 09: the sheet's bytes; a digit: hexadecimal; otherwise the sheet's text (docs/SHEETS.md)
  PLAN, OLD, NEW   below 09: the plan's bytes; a digit: hexadecimal; otherwise a JSON array of the plan's values
  LIST, VALUE      below 09: the value's bytes; a 0 and a digit behind it: hexadecimal; otherwise one JSON value
  TYPES            a digit: hexadecimal; otherwise a JSON object (docs/PYTHON.md)
In JSON a pair is {"a": .., "b": ..}. A refusal is told on standard error, with status 1; wrong usage and files that cannot be read have status 2.
'''


class Told(Exception):
    """A refusal, with the lines that tell it."""

    def __init__(self, refusal: Refusal, lines: List[str]) -> None:
        super().__init__(refusal)
        self.refusal = refusal
        self.lines = lines


@contextmanager
def telling(sheet: Sheet, walking: bool = False) -> Iterator[None]:
    """A refusal in what is done is told with the sheet's nodes."""
    try:
        yield
    except Refusal as refusal:
        raise Told(refusal, words(refusal, bytes(sheet), walking)) from None


def line(text: object) -> bytes:
    return f'{text}\n'.encode()


def json_line(value: object) -> bytes:
    return line(json.dumps(value, separators=(',', ':')))


def hexadecimal(data: bytes) -> bytes:
    return line(data.hex().upper())


def plan_line(plan: bytes) -> bytes:
    return line('[' + ','.join(value_json(encode(value)) for value in values_of(plan)) + ']')


def get(args: Arguments) -> None:
    sheet, plan = read_sheet(args.sheet), read_plan(args.plan)
    with telling(sheet, walking=True):
        got = sheet.get(plan, args.allowance)
    write(args.output, line(value_json(got.view_bytes)))
    if args.steps:
        write(None, line(got.steps))


def put(args: Arguments) -> None:
    sheet, plan, view = read_sheet(args.sheet), read_plan(args.plan), read_list(args.list)
    with telling(sheet, walking=True):
        made = sheet.put(plan, view, args.allowance)
    write(args.output, plan_line(made.plan_bytes))
    if args.written:
        write(None, json_line(sorted(made.written)))
    if args.steps:
        write(None, line(made.steps))


def why(args: Arguments) -> None:
    sheet, plan = read_sheet(args.sheet), read_plan(args.plan)
    view = None if args.list is None else read_list(args.list)
    try:
        with telling(sheet, walking=True):
            if view is None:
                sheet.get(plan, args.allowance)
            else:
                sheet.put(plan, view, args.allowance)
    except Told as refused:
        write(None, json_line(facts(refused.refusal)))
        raise
    write(None, line('null'))


def facts(refusal: Refusal) -> Dict[str, object]:
    """What a refusal tells, as an object."""
    names = ('number', 'name', 'meaning', 'remedy', 'node', 'depth', 'chain', 'first_writer')
    return {name: getattr(refusal, name) for name in names}


def check(args: Arguments) -> None:
    sheet, old, view, new = read_sheet(args.sheet), read_plan(args.old), read_list(args.list), read_plan(args.new)
    with telling(sheet, walking=True):
        stands = sheet.accepts(old, view, new, args.allowance)
    write(None, json_line(stands))


def number(args: Arguments) -> None:
    sheet = read_sheet(args.sheet)
    with telling(sheet):
        made = sheet.numbered()
    write_sheet(made, args)


def join(args: Arguments) -> None:
    first, second = read_sheet(args.first), read_sheet(args.second)
    with telling(first):
        made = first.join(second)
    write_sheet(made, args)


def write_sheet(sheet: Sheet, args: Arguments) -> None:
    write(args.output, bytes(sheet) if args.bytes else hexadecimal(bytes(sheet)))


def growth(args: Arguments) -> None:
    sheet = read_sheet(args.sheet)
    with telling(sheet):
        times = sheet.growth(args.variable)
    write(None, line(times))


def types(args: Arguments) -> None:
    sheet, lent = read_sheet(args.sheet), read_types(args.types)
    try:
        with telling(sheet):
            sheet.check_types(lent)
    except Told as refused:
        if refused.refusal.node is not None:
            refused.lines.append(f'its type: {words_of(bytes(sheet), lent, refused.refusal.node)}')
        raise
    write(None, line('true'))


def to_or_from_json(args: Arguments) -> None:
    write(args.output, read(args.value, BYTE, lambda text: hexadecimal(json_value(text)), lambda value: line(value_json(value))))


def text(args: Arguments) -> None:
    sheet = read_sheet(args.sheet)
    with telling(sheet):
        printed = str(sheet)
    write(args.output, printed.encode())


class Verb(NamedTuple):
    """A verb: what runs it, what it does, the files that it takes (in brackets one that may be left out), and its other arguments."""

    name: str
    run: Callable[[Arguments], None]
    about: str
    files: str
    others: str = ''


VERBS = (
    Verb('get', get, 'Prints the list that the sheet makes of the plan, as JSON.', 'SHEET PLAN', '-o --allowance --steps'),
    Verb('put', put, 'Prints the new plan that the edited list makes of the old one, as a JSON array.', 'SHEET PLAN LIST', '-o --allowance --written --steps'),
    Verb('why', why, 'Tells why a get, or with LIST a put, is refused: in words, and as a JSON object; or null.', 'SHEET PLAN [LIST]', '--allowance'),
    Verb('check', check, 'Prints whether a new plan that was made elsewhere goes with the list and the old plan.', 'SHEET OLD LIST NEW', '--allowance'),
    Verb('number', number, 'Prints the sheet in the one numbering that every file of it gets, in hexadecimal.', 'SHEET', '-o --bytes'),
    Verb('join', join, 'Prints one sheet of two, whose list is the pair of both lists, in hexadecimal.', 'FIRST SECOND', '-o --bytes'),
    Verb('growth', growth, "Prints how often a variable's length counts in the list's.", 'SHEET', 'variable'),
    Verb('types', types, 'Checks the sheet by the types beside it, and prints true where it passes.', 'SHEET TYPES'),
    Verb('json', to_or_from_json, 'Prints a value as JSON, or the value of JSON in hexadecimal.', 'VALUE', '-o'),
    Verb('text', text, "Prints the sheet's text.", 'SHEET', '-o'),
)
HELP = {
    'SHEET': 'the sheet', 'FIRST': 'a sheet', 'SECOND': 'another sheet of the same plan', 'PLAN': 'the plan', 'OLD': 'the plan before the edit',
    'NEW': 'the plan that is judged', 'LIST': 'the list that is sent back', 'TYPES': 'the types beside the sheet', 'VALUE': 'a value, or JSON',
}
OTHERS: Dict[str, Dict[str, Any]] = {
    '-o': dict(dest='output', metavar='FILE', help='write to this file, as a whole or not at all, and not to standard output'),
    '--allowance': dict(metavar='N', type=int, default=ALLOWANCE_MAX, help='the most steps, 1 to 1,000,000 (which is the default)'),
    '--steps': dict(action='store_true', help='print the steps taken too, on a line of their own'),
    '--written': dict(action='store_true', help='print the variables that were written too, on a line of their own'),
    '--bytes': dict(action='store_true', help="write the sheet's bytes, and not hexadecimal"),
    'variable': dict(metavar='VARIABLE', type=int, help='the number of the variable, from 0'),
}


def parser() -> argparse.ArgumentParser:
    form: Any = dict(epilog=FILES, formatter_class=argparse.RawDescriptionHelpFormatter)
    made = argparse.ArgumentParser(prog='python3 -m lens', description=ABOUT, **form)
    verbs = made.add_subparsers(metavar='VERB', required=True)
    for verb in VERBS:
        add_arguments(verbs.add_parser(verb.name, help=verb.about, description=verb.about, **form), verb)
    return made


def add_arguments(made: argparse.ArgumentParser, verb: Verb) -> None:
    files = [file.strip('[]') for file in verb.files.split()]
    for file in files:
        made.add_argument(file.lower(), metavar=file, nargs='?' if f'[{file}]' in verb.files else None, help=HELP[file])
    for other in verb.others.split():
        made.add_argument(other, **OTHERS[other])
    made.set_defaults(run=verb.run, files=[file.lower() for file in files], parser=made)


def main(arguments: Optional[List[str]] = None) -> int:
    """Runs a verb. The status is 0; 1 for a refusal; 2 for wrong usage, or for a file that cannot be read or written."""
    args = parser().parse_args(arguments)
    if [getattr(args, name) for name in args.files].count(STANDARD) > 1:
        args.parser.error('standard input is named twice')
    try:
        args.run(args)
    except Told as refused:
        return fail(1, refused.lines)
    except Refusal as refusal:
        return fail(1, words(refusal))
    except (Unreadable, ValueError, ImportError) as error:
        return fail(2, [f'{args.parser.prog}: {error}'])
    return 0


def fail(status: int, lines: List[str]) -> int:
    print('\n'.join(lines), file=sys.stderr)
    return status
