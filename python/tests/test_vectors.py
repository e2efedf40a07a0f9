"""The files of vectors, done by the package: each line has an input of a program, and what the program prints for it."""
import unittest

import lens
from lens._details import DETAILS
from lens._refusals import REFUSALS

from . import ROOT, SHARED, jobs

SHOWN = 5  # wrong lines that are told
NEVER = {1, 2, 24}  # buffers are always large enough, and no starts are taken


def starts(plan):
    """Where the values of a plan start, by the lengths of their bytes."""
    lengths = [len(lens.encode(value)) for value in plan]
    return ' '.join(str(sum(lengths[:index])) for index in range(len(lengths)))


def run_job(job):
    sheet = lens.Sheet(job.sheet)
    if job.view is None:
        got = sheet.get(job.plan, job.allowance)
        assert lens.encode(got.view) == got.view_bytes
        return f'ok {got.steps} {got.view_bytes.hex().upper()}'
    put = sheet.put(job.plan, job.view, job.allowance)
    assert b''.join(map(lens.encode, put.plan)) == put.plan_bytes
    return f'ok {put.steps} {put.plan_bytes.hex().upper()}'


def with_starts(allowance, sheet, plan, view):
    put = lens.Sheet(sheet).put(plan, view, allowance)
    return f'ok {put.steps} {put.plan_bytes.hex().upper()} {starts(put.plan)}'


def with_bits(allowance, sheet, plan, view):
    put = lens.Sheet(sheet).put(plan, view, allowance)
    return f'ok {put.steps} {put.plan_bytes.hex().upper()} {sum(1 << variable for variable in put.written):04X}'


def why(data):
    run_job(jobs.job(data))
    return 'ok'


def types(sheet, types):
    lens.Sheet(sheet).check_types(types)
    return 'ok'


def check(allowance, sheet, old, view, new):
    return 'ok yes' if lens.Sheet(sheet).accepts(old, view, new, allowance) else 'ok no'


def made(sheet):
    return 'ok ' + bytes(sheet).hex().upper()


TOOLS = {
    0x53: with_starts,
    0x57: with_bits,
    0x59: why,
    0x4E: lambda sheet: made(lens.Sheet(sheet).numbered()),
    0x4A: lambda first, second: made(lens.Sheet(first).join(lens.Sheet(second))),
    0x52: lambda variable, sheet: f'ok {lens.Sheet(sheet).growth(variable)}',
    0x54: types,
    0x43: check,
    0x44: lambda value: 'ok ' + lens.to_json(value),
    0x45: lambda text: made(lens.encode(lens.from_json(text))),
    0x41: lambda text: made(lens.Sheet.parse(text)),
    0x55: lambda sheet: made(str(lens.Sheet(sheet)).encode()),
}


def told(refusal, letter):
    """The line of a refusal: of why (59) with the way to it, of a tool with its node, of a sheet's text (41) with the place of its fault."""
    line = f'no {refusal.number}'
    if letter == 0x59 and refusal.chain:
        line += f' {refusal.node} {refusal.depth} ' + ' '.join(map(str, refusal.chain))
        return line + ('' if refusal.first_writer is None else f' by {refusal.first_writer}')
    if letter == 0x41:
        details = [number for number, sentence in DETAILS.items() if refusal.msg.split(', found')[0] == sentence]
        return f'{line} {refusal.place} {details[0]}'
    if letter in (0x4E, 0x54, 0x55) and refusal.node is not None:
        return f'{line} {refusal.node}'
    return line


def seats_line(data):
    return run_job(jobs.job(data))


def tools_line(data):
    tool = jobs.tool(data)
    return TOOLS[tool.letter](*tool.fields)


class Vectors(unittest.TestCase):
    def check(self, path, line, letters=None):
        """Holds the package to a file; the numbers of the refusals that were met. Letters: those of the inputs that are run."""
        met, wrong, count = set(), [], 0
        for data, answer in jobs.lines(path):
            if letters is not None and data[:1] and data[0] not in letters:
                continue
            count += 1
            try:
                got = line(data)
            except jobs.NoJob as none:
                got = f'no {none}'
            except lens.Refusal as refusal:
                got = told(refusal, data[0] if letters else None)
                met.add(refusal.number)
            if got != answer:
                wrong.append(f'{data.hex()[:200]}: the file says {answer[:200]!r}, the package {got[:200]!r}')
        self.assertEqual(wrong[:SHOWN], [], f'{path}: {len(wrong)} of {count} lines')
        self.assertGreater(count, 0, path)
        return met

    def test_repository(self):
        """Of the vectors of the repository, which have every refusal but those of a text; and every one of these is an exception too."""
        met = self.check(ROOT / 'vectors/seats.txt', seats_line)
        met |= self.check(ROOT / 'vectors/tools.txt', tools_line, jobs.SHAPES)
        named = {number for number, (name, *_) in REFUSALS.items() if name is not None and number < 90}
        self.assertEqual(met | set(range(90, 95)), named - NEVER | set(range(90, 95)))

    def test_shared(self):
        if not SHARED.is_dir():
            print(f'no {SHARED}: the vectors of this repository alone are run')
            return
        self.check(SHARED / 'full.txt', seats_line)
        for name in ('tools-full.txt', 'tools-next.txt', 'tools-text.txt'):
            self.check(SHARED / name, tools_line, jobs.SHAPES)


if __name__ == '__main__':
    unittest.main()
