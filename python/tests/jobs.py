"""The jobs of the two programs (docs/SHEETS.md and docs/TOOLS.md, "A job"), taken apart."""
from collections import namedtuple

GET, PUT = 0x47, 0x50
LONGEST = 8192

Job = namedtuple('Job', 'letter allowance sheet plan view')  # of seats; no view for a get
Tool = namedtuple('Tool', 'letter fields')


class NoJob(Exception):
    """An input that is no job, with the refusal's number."""


class Fields:
    """The fields of an input from the front."""

    def __init__(self, data):
        if len(data) > LONGEST:
            raise NoJob(61)
        self.data = data

    def bytes(self, count):
        if len(self.data) < count:
            raise NoJob(60)
        taken, self.data = self.data[:count], self.data[count:]
        return taken

    def number(self, count):
        return int.from_bytes(self.bytes(count), 'big')

    def field(self):
        return self.bytes(self.number(2))

    def rest(self):
        return self.bytes(len(self.data))


def job(data):
    """A job of seats."""
    fields = Fields(data)
    letter = fields.number(1)
    if letter not in (GET, PUT):
        raise NoJob(60)
    allowance, sheet, plan, rest = fields.number(3), fields.field(), fields.field(), fields.rest()
    if letter == GET and rest:
        raise NoJob(60)
    return Job(letter, allowance, sheet, plan, rest if letter == PUT else None)


# What stands behind each letter of tools: a number of so many bytes, a field with its length in front, or all the rest.
SHAPES = {
    0x53: (3, 'field', 'field', 'rest'), 0x57: (3, 'field', 'field', 'rest'), 0x59: ('rest',), 0x4E: ('rest',), 0x4A: ('field', 'rest'),
    0x52: (1, 'rest'), 0x54: ('field', 'rest'), 0x43: (3, 'field', 'field', 'field', 'rest'), 0x44: ('rest',), 0x45: ('rest',),
    0x41: ('rest',), 0x55: ('rest',),
}
# Starts are loaded (4C) and values looked up by them (56) only where plans are bytes: from Python a plan is a list, and a value a member of it.
OTHERS = (0x4C, 0x56)


def tool(data):
    """A job of tools, of a letter that the package has."""
    fields = Fields(data)
    letter = fields.number(1)
    if letter not in SHAPES:
        raise NoJob(60)
    return Tool(letter, [fields.number(part) if isinstance(part, int) else getattr(fields, part)() for part in SHAPES[letter]])


def lines(path):
    """The inputs of a file of vectors, each with the line that a program prints for it."""
    for line in path.read_text().splitlines():
        data, _, answer = line.partition(' ')
        yield b'' if data == '-' else bytes.fromhex(data), answer
