"""Every job of the manuals through the command line: files made of it, and what is printed compared with the manual's answer."""
import json
import subprocess

import lens

from . import ROOT, jobs
from .command import InFolder, run

EMPTY = {'sheet': 90, 'list': 70}  # an empty file is a text that ends too early: of a sheet, or JSON


def manual(program):
    """The jobs of a program in the manuals, each with its answer."""
    listed = subprocess.run([ROOT / 'bin/check-manual', '-x', '-n', program], stdout=subprocess.PIPE, check=True)
    for line in listed.stdout.decode().splitlines():
        data, _, answer = line.partition(' ')
        yield bytes.fromhex(data), answer


class Jobs(InFolder):
    def sheet(self, data, name='sheet'):
        """A file of a sheet: in turn its bytes and hexadecimal."""
        self.turn = not getattr(self, 'turn', False)
        return self.file(name, data if self.turn and data[:1] < b'\x09' else data.hex())

    def plan(self, data, name='plan'):
        """A file of a plan: JSON where its bytes are those of values, otherwise hexadecimal."""
        values, rest = [], data
        try:
            while rest:
                value = next(lens.decode(rest[:end]) for end in range(1, len(rest) + 1) if self.is_value(rest[:end]))
                values.append(value)
                rest = rest[len(lens.encode(value)):]
            return self.file(name, lens.plan_to_json(values))
        except (StopIteration, lens.Refusal):
            return self.file(name, data.hex())

    def list(self, data, name='list'):
        return self.file(name, lens.to_json(data) if self.is_value(data) else data.hex())

    @staticmethod
    def is_value(data):
        try:
            lens.to_json(data)
        except lens.Refusal:
            return False
        return True

    def check_put(self, ran, words):
        plan, written, steps = ran.out.splitlines()
        self.assertEqual([steps, b''.join(map(lens.encode, lens.plan_from_json(plan))).hex().upper()], words[1:3])
        return sum(1 << variable for variable in json.loads(written))

    def number(self, answer, **empty):
        """The number of a refusal; another one where a file is empty, which has text then."""
        return next((EMPTY[name] for name, data in empty.items() if data == b''), int(answer.split()[1]))

    def check_all(self, program, parse, check):
        """Checks every job of a program."""
        count = 0
        for data, answer in manual(program):
            try:
                job = parse(data)
            except jobs.NoJob:
                continue
            count += 1
            with self.subTest(job=data.hex()[:200], answer=answer):
                check(answer, job)
        self.assertGreater(count, 100)

    def test_seats(self):
        self.check_all('seats', jobs.job, self.seats)

    def test_tools(self):
        self.check_all('tools', jobs.tool, lambda answer, tool: getattr(self, f'tool_{tool.letter:02x}')(answer, *tool.fields))

    def seats(self, answer, job):
        words = answer.split()
        limit = ['--allowance', job.allowance, '--steps']
        if job.view is None:
            ran = run('get', self.sheet(job.sheet), self.plan(job.plan), *limit)
        else:
            ran = run('put', self.sheet(job.sheet), self.plan(job.plan), self.list(job.view), '--written', *limit)
        if words[0] == 'no':
            self.refused(ran, self.number(answer, sheet=job.sheet, list=job.view))
        elif job.view is None:
            view, steps = ran.out.splitlines()
            self.assertEqual([steps, lens.encode(lens.from_json(view)).hex().upper()], words[1:])
        else:
            self.check_put(ran, words)

    def tool_53(self, answer, allowance, sheet, plan, view):
        ran = run('put', self.sheet(sheet), self.plan(plan), self.list(view), '--written', '--steps', '--allowance', allowance)
        if answer.startswith('no'):
            return self.refused(ran, self.number(answer, sheet=sheet, list=view))
        return self.check_put(ran, answer.split())

    def tool_57(self, answer, *fields):
        bits = self.tool_53(answer, *fields)
        if answer.startswith('ok'):
            self.assertEqual(f'{bits:04X}', answer.split()[3])

    def tool_59(self, answer, data):
        try:
            job = jobs.job(data)
        except jobs.NoJob:
            return
        lists = [] if job.view is None else [self.list(job.view)]
        ran = run('why', self.sheet(job.sheet), self.plan(job.plan), *lists, '--allowance', job.allowance)
        if b'' in (job.sheet, job.view):
            self.refused(ran, self.number(answer, sheet=job.sheet, list=job.view))
            return
        if answer == 'ok':
            self.assertEqual(ran, (0, 'null\n', ''))
            return
        told, words = json.loads(ran.out), answer.split()
        self.assertEqual((ran.status, told['number']), (1, int(words[1])))
        if told['chain']:
            line = [told['number'], told['node'], told['depth'], *told['chain']]
            first = [] if told['first_writer'] is None else ['by', told['first_writer']]
            self.assertEqual(list(map(str, line + first)), words[1:])
        self.assertTrue(ran.err.startswith(f'no {words[1]}: '))

    def hexadecimal(self, ran, answer, **empty):
        """A verb that prints bytes: the answer has them, or a refusal, with a node or without."""
        if answer.startswith('ok'):
            self.assertEqual((ran.status, ran.out), (0, answer[3:] + '\n'), ran)
            return
        lines = self.refused(ran, self.number(answer, **empty))
        if len(answer.split()) == 3 and not any(data == b'' for data in empty.values()):
            self.assertTrue(lines[1].startswith(f'node {answer.split()[2]}, '), lines)

    def tool_4e(self, answer, sheet):
        self.hexadecimal(run('number', self.sheet(sheet)), answer, sheet=sheet)

    def tool_4a(self, answer, first, second):
        self.hexadecimal(run('join', self.sheet(first, 'first'), self.sheet(second, 'second')), answer, sheet=first and second)

    def tool_52(self, answer, variable, sheet):
        self.hexadecimal(run('growth', self.sheet(sheet), variable), answer, sheet=sheet)

    def tool_54(self, answer, sheet, types):
        answer = 'ok true' if answer == 'ok' else answer
        if types:
            self.hexadecimal(run('types', self.sheet(sheet), self.file('types', types.hex())), answer, sheet=sheet)

    def tool_43(self, answer, allowance, sheet, old, view, new):
        answer = {'ok yes': 'ok true', 'ok no': 'ok false'}.get(answer, answer)
        files = [self.sheet(sheet), self.plan(old, 'old'), self.list(view), self.plan(new, 'new')]
        self.hexadecimal(run('check', *files, '--allowance', allowance), answer, sheet=sheet, list=view)

    def tool_44(self, answer, value):
        self.hexadecimal(run('json', self.file('value', value.hex())), answer, list=value)

    def tool_45(self, answer, text):
        begins = text[:2].isdigit() and text[:1] == b'0'  # which is hexadecimal in a file
        self.hexadecimal(run('json', self.file('text', b' ' + text if begins else text)), answer)

    def tool_41(self, answer, text):
        self.hexadecimal(run('number', self.file('text', text)), ' '.join(answer.split()[:2]))

    def tool_55(self, answer, sheet):
        if answer.startswith('ok'):
            answer = 'ok ' + bytes.fromhex(answer[3:]).decode().rstrip('\n')
        self.hexadecimal(run('text', self.sheet(sheet)), answer, sheet=sheet)
