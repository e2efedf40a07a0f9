"""The command line: every verb, good and bad, its status, and what it leaves of files."""
import json
import os
import stat
import subprocess
import sys
import unittest
from pathlib import Path
from unittest import mock

import lens
from lens import _files

from . import ROOT
from .command import InFolder, run

TEXT = '-- seats from 101, and a price\nplan seat, price\nlist = (100 + seat, price)\n'
SHEET = '010200 160103 1B020064 1000 1001'
TWICE = '010100 160101 1000'  # node 1 is used twice
VERBS = ('get', 'put', 'why', 'check', 'number', 'join', 'growth', 'types', 'json', 'text')


class Verbs(InFolder):
    def setUp(self):
        super().setUp()
        self.file('house.txt', TEXT)
        self.file('plan.json', '[7, 70000]\n')
        self.file('list.json', '{"a": 108, "b": 65000}\n')
        self.file('low.json', '{"a": 99, "b": 65000}\n')
        self.file('twice', TWICE)

    def prints(self, text, *arguments, **more):
        self.assertEqual(run(*arguments, **more), (0, text, ''))

    def test_get(self):
        self.prints('{"a":107,"b":70000}\n', 'get', 'house.txt', 'plan.json')
        self.prints('{"a":107,"b":70000}\n4\n', 'get', 'house.txt', 'plan.json', '--steps')
        self.prints('{"a":107,"b":70000}\n', 'get', 'house.txt', '-', stdin=b'[7,70000]')
        lines = self.refused(run('get', 'house.txt', 'plan.json', '--allowance', 2), 41)
        self.assertEqual(lines[1], 'could not be entered, at depth 3: node 2, a variable: 10 00')
        lines = self.refused(run('get', 'house.txt', 'plan.json', '--allowance', 0), 3)
        self.assertEqual(lines[1:], ['met before any node was entered'])
        self.refused(run('get', 'house.txt', self.file('short.json', '[7]')), 22)

    def test_forms_of_a_sheet(self):
        """Text, bytes and hexadecimal, told apart by the first byte."""
        forms = [TEXT, '\n' + TEXT, ' ' + TEXT, TEXT.split('\n', 1)[1], bytes.fromhex(SHEET), SHEET, SHEET.replace(' ', '\n') + '\n', SHEET.lower()]
        for form in forms:
            self.prints('{"a":107,"b":70000}\n', 'get', self.file('sheet', form), 'plan.json')
            data = form if isinstance(form, bytes) else form.encode()
            self.prints('{"a":107,"b":70000}\n', 'get', '-', 'plan.json', stdin=data)

    def test_forms_of_a_plan_and_a_list(self):
        for plan in ('[7,70000]', ' [7, 70000]', b'\x04\x00\x07\x06\x00\x01\x11\x70', '040007 0600011170'):
            for view in ('{"a":108,"b":65000}', '\t{"a":108,"b":65000}', b'\x05\x04\x00\x6c\x04\xfd\xe8', '05 04006C 04FDE8'):
                self.prints('[8,65000]\n', 'put', 'house.txt', self.file('plan', plan), self.file('list', view))
        one = self.file('one', '0101001000')
        for view, printed in (('0', '0'), ('0\n', '0'), ('00', 'false'), ('01\n', 'true'), ('7', '7'), ('true', 'true'), ('02', '[]')):
            self.prints(f'[{printed}]\n', 'put', one, self.file('plan', '[[]]'), self.file('list', view))

    def test_put(self):
        self.prints('[8,65000]\n', 'put', 'house.txt', 'plan.json', 'list.json')
        self.prints('[8,65000]\n[0,1]\n4\n', 'put', 'house.txt', 'plan.json', 'list.json', '--written', '--steps')
        lines = self.refused(run('put', 'house.txt', 'plan.json', 'low.json'), 52)
        self.assertEqual(lines, [
            'no 52: a number of the list sent back is below the amount that the sheet adds: raise it to that amount or more',
            'met at depth 2, at node 1, an add: 1B 02 00 64', 'the way from the root:', '  node 0, a pair: 16 01 03', '  node 1, an add: 1B 02 00 64'])

    def test_put_to_a_file(self):
        self.prints('', 'put', 'house.txt', 'plan.json', 'list.json', '-o', 'new.json')
        self.assertEqual(Path('new.json').read_text(), '[8,65000]\n')
        self.prints('[0,1]\n', 'put', 'house.txt', 'plan.json', 'list.json', '--written', '-o', 'plan.json')
        self.assertEqual(Path('plan.json').read_text(), '[8,65000]\n')
        self.prints('{"a":108,"b":65000}\n', 'get', 'house.txt', 'new.json')
        self.prints('[8,65000]\n', 'put', 'house.txt', 'plan.json', 'list.json', '-o', '-')

    def test_why(self):
        ran = run('why', 'house.txt', 'plan.json', 'low.json')
        told = json.loads(ran.out)
        self.assertEqual((ran.status, told['number'], told['name'], told['node'], told['depth'], told['chain'], told['first_writer']),
                         (1, 52, 'VIEW_BELOW', 1, 2, [0, 1], None))
        self.assertEqual(ran.err, run('put', 'house.txt', 'plan.json', 'low.json').err)
        clash = run('why', self.file('pair', '010100 160102 1000 1000'), self.file('seven', '[7]'), self.file('two', '{"a":8,"b":9}'))
        self.assertEqual(clash.err.splitlines()[2], 'written first by node 1, a variable: 10 00')
        self.prints('null\n', 'why', 'house.txt', 'plan.json', 'list.json')
        self.prints('null\n', 'why', 'house.txt', 'plan.json')
        self.assertEqual(run('why', 'house.txt', 'plan.json', '--allowance', 1).status, 1)

    def test_words_are_those_of_why(self):
        """bin/why says the same of the same job, by the program that bin/build makes."""
        rows = [('010100 160102 1000 1000', '040007', '05 040008 040009'), ('010100 1000', '0400', '00'), ('010100 1001', '00', '00'),
                ('010200 2001 1A000001 1702030104020708 1000 1001 150506 1002 1A000301 11 13', '02 02', '00')]
        for sheet, plan, view in map(lambda row: map(bytes.fromhex, row), rows):
            job = b'\x50\x00\x03\xe8' + len(sheet).to_bytes(2, 'big') + sheet + len(plan).to_bytes(2, 'big') + plan + view
            environment = dict(os.environ, TOOLS=str(ROOT / 'target/bin/tools'))
            said = subprocess.run([ROOT / 'bin/why', job.hex()], stdout=subprocess.PIPE, env=environment, check=True).stdout.decode()
            ran = run('put', self.file('sheet', sheet), self.file('plan', plan), self.file('list', view), '--allowance', 1000)
            self.assertEqual((ran.status, ran.err), (1, said))

    def test_check(self):
        new = self.file('new.json', '[8, 65000]')
        self.prints('true\n', 'check', 'house.txt', 'plan.json', 'list.json', new)
        self.prints('false\n', 'check', 'house.txt', 'plan.json', 'low.json', new)
        lines = self.refused(run('check', 'house.txt', 'plan.json', 'list.json', self.file('odd.json', '[true, 1]')), 43)
        self.assertEqual(lines[1], 'met at depth 2, at node 1, an add: 1B 02 00 64')
        self.refused(run('check', 'house.txt', 'plan.json', 'list.json', self.file('empty.json', '[]')), 85)

    def test_number(self):
        self.prints(SHEET.replace(' ', '') + '\n', 'number', 'house.txt')
        self.prints('', 'number', 'house.txt', '--bytes', '-o', 'house.sheet')
        self.assertEqual(Path('house.sheet').read_bytes(), bytes.fromhex(SHEET))
        lines = self.refused(run('number', 'twice'), 81)
        self.assertEqual(lines[1:], ['node 1, a variable: 10 00'])

    def test_join(self):
        one, two = self.file('one', 'plan a, b  list = a'), self.file('two', 'plan a, b  list = b')
        self.prints('01020016010210001001\n', 'join', one, two)
        self.refused(run('join', one, 'twice'), 83)

    def test_growth(self):
        self.prints('1\n', 'growth', 'house.txt', 1)
        self.refused(run('growth', 'house.txt', 2), 23)

    def test_types(self):
        pair = {'a': 'number', 'b': 'number'}
        types = {'plan': ['number', 'number'], 'list': pair, 'nodes': [pair, 'number', 'number', 'number']}
        self.prints('true\n', 'types', 'house.txt', self.file('types.json', json.dumps(types)))
        self.prints('true\n', 'types', 'house.txt', self.file('types', '31 31 333131 333131 31 31 31'))
        types['plan'][0] = ['truth']
        lines = self.refused(run('types', 'house.txt', self.file('types.json', json.dumps(types))), 82)
        self.assertEqual(lines[1:], ['node 2, a variable: 10 00', 'its type: number'])
        row = ['number']
        types = {'plan': [row], 'sections': [['number', row, 'number']], 'list': row, 'nodes': [row, row, 'number', 'number']}
        each = self.file('each', 'plan row list = each f(row, row) default 0 section f(seat, _) = seat')
        self.prints('true\n', 'types', each, self.file('types.json', json.dumps(types)))
        bad = ('{}', '[]', '7', '{"plan": 7}', '{', '{"plan":[],"list":"x","nodes":[]}', '{"plan":["number"],"list":"number","nodes":[],"more":1}')
        for text in bad + ('{"plan":[{"b":"number","a":"number"}],"list":"number","nodes":[]}', '[' * 100000):
            ran = run('types', 'house.txt', self.file('types.json', text))
            self.assertEqual((ran.status, ran.out), (2, ''), text)

    def test_json(self):
        self.prints('[12,{"a":13,"b":true}]\n', 'json', self.file('value', '03 04000C 03 05 04000D 01 02'))
        self.prints('[12,{"a":13,"b":true}]\n', 'json', '-', stdin=bytes.fromhex('0304000C030504000D0102'))
        self.prints('0304000C030504000D0102\n', 'json', self.file('text', '[12, {"a": 13, "b": true}]'))
        self.assertEqual(self.refused(run('json', self.file('bad', '[12,\n 13,]')), 70)[1:], [
            'bad: line 2, column 5: expected false, true, a number, an array, or an object of "a", then "b", found `]`', '   13,]', '      ^'])
        self.refused(run('json', self.file('long', str([0] * 64))), 72)
        self.refused(run('json', self.file('cut', '03')), 30)

    def test_text(self):
        self.prints('plan a, b\nlist = (100 + a, b)\n', 'text', 'house.txt')
        self.prints('plan a, b\nlist = (100 + a, b)\n', 'text', '-', stdin=SHEET.encode())
        self.prints('', 'text', 'house.txt', '-o', 'again.txt')
        self.assertEqual(lens.Sheet.parse(Path('again.txt').read_text()), lens.Sheet(bytes.fromhex(SHEET)))
        self.refused(run('text', 'twice'), 81)
        lines = self.refused(run('text', self.file('bad.txt', 'plan a\nlist = a +')), 90)
        sentence = 'expected the word `section`, or the end of the text, found `+`'
        self.assertEqual(lines[1:], [f'bad.txt: line 2, column 10: {sentence}', '  list = a +', '           ^'])
        self.assertIn('standard input: line 1', self.refused(run('text', '-', stdin=b'plan'), 90)[1])


class Usage(InFolder):
    """Wrong usage and files that cannot be read: words on standard error, status 2."""

    def wrong(self, words, *arguments, **more):
        ran = run(*arguments, **more)
        self.assertEqual((ran.status, ran.out), (2, ''), ran)
        self.assertIn(words, ran.err)

    def test_help(self):
        for arguments in ([], *[[verb] for verb in VERBS]):
            ran = run(*arguments, '--help')
            self.assertEqual((ran.status, ran.err), (0, ''))
            self.assertIn('usage: python3 -m lens ' + ' '.join(arguments), ran.out)
            self.assertIn('standard input', ran.out)

    def test_wrong(self):
        sheet, plan = self.file('sheet', SHEET), self.file('plan', '[7, 70000]')
        rows = [('arguments are required', []), ('invalid choice', ['give']), ('arguments are required', ['get', sheet]),
                ('unrecognized', ['get', sheet, plan, 'more']), ('No such file', ['get', sheet, 'none.json']), ('Is a directory', ['get', '.', plan]),
                ('invalid int', ['get', sheet, plan, '--allowance', 'x']), ('no int from 0', ['get', sheet, plan, '--allowance', '-1']),
                ('named twice', ['get', '-', '-']), ('named twice', ['put', sheet, '-', '-']), ('not hexadecimal', ['text', self.file('odd', '01 02 0')]),
                ('not hexadecimal', ['get', sheet, self.file('odd plan', '04000X')]), ('no int from 0', ['growth', sheet, '--', '-1']),
                ('unrecognized', ['growth', sheet, '1', '-o', 'x']), ('No such file', ['get', sheet, plan, '-o', 'none/new.json'])]
        for words, arguments in rows:
            with self.subTest(arguments=arguments):
                self.wrong(words, *arguments)

    def test_no_library(self):
        environment = dict(os.environ, PYTHONPATH=str(ROOT / 'python'), LENS_LIBRARY='/none/liblens.so')
        command = [sys.executable, '-m', 'lens', 'text', self.file('sheet', SHEET)]
        ran = subprocess.run(command, env=environment, stdout=subprocess.PIPE, stderr=subprocess.PIPE)
        self.assertEqual((ran.returncode, ran.stdout), (2, b''))
        self.assertIn(b'there is no library /none/liblens.so: run bin/shared', ran.stderr)


class Files(InFolder):
    """What is left of files: all of the new bytes where a call succeeds, and everything as it was where it does not."""

    def setUp(self):
        super().setUp()
        self.sheet, self.plan = self.file('sheet', SHEET), self.file('plan', '[7, 70000]')
        self.good, self.bad = self.file('good', '{"a":108,"b":1}'), self.file('bad', '{"a":99,"b":1}')

    def test_refused(self):
        """Nothing is written and nothing is left, whether the file was there or not."""
        kept = self.file('kept', 'as it was')
        before = self.names()
        rows = [(1, ['put', self.sheet, self.plan, self.bad]), (1, ['get', self.sheet, self.bad]), (1, ['text', self.file('twice', TWICE)]),
                (1, ['number', 'twice']), (1, ['join', 'twice', self.sheet]), (1, ['json', self.file('comma', '[1,]')]),
                (2, ['put', self.sheet, self.plan, 'none'])]
        before = self.names()
        for status, arguments in rows:
            for output in (kept, 'new'):
                self.assertEqual(run(*arguments, '-o', output).status, status, arguments)
                self.assertEqual((self.names(), Path(kept).read_text()), (before, 'as it was'))

    def test_not_written(self):
        """Where the new file cannot be written or named, the old one stays, and no other is left."""
        kept = self.file('kept', 'as it was')
        before = self.names()
        for place in ('os.fsync', 'os.replace'):
            with mock.patch(place, side_effect=OSError(28, 'No space left on device')):
                ran = run('put', self.sheet, self.plan, self.good, '-o', kept)
            self.assertEqual((ran.status, ran.out, self.names(), Path(kept).read_text()), (2, '', before, 'as it was'))
            self.assertIn('kept: No space left on device', ran.err)

    def test_beside(self):
        """The new bytes stand in a file beside before the name is given."""
        seen = []
        replace = os.replace

        def seeing(made, path):
            seen.append((Path(made), Path(path), Path(made).read_text()))
            replace(made, path)

        with mock.patch('os.replace', side_effect=seeing):
            run('put', self.sheet, self.plan, self.good, '-o', 'new')
        [(made, path, text)] = seen
        self.assertEqual((made.parent, path.name, text), (path.parent, 'new', '[8,1]\n'))

    def test_modes(self):
        """A new file has the mode of any new file, and one that is replaced keeps its own."""
        run('put', self.sheet, self.plan, self.good, '-o', 'new')
        self.file('any', '')
        self.assertEqual(os.stat('new').st_mode, os.stat('any').st_mode)
        os.chmod('new', 0o640)
        run('put', self.sheet, self.plan, self.good, '-o', 'new')
        self.assertEqual(stat.S_IMODE(os.stat('new').st_mode), 0o640)

    def test_links_and_devices(self):
        """A link stays a link, and what is no file is written to."""
        os.symlink('real', 'link')
        run('put', self.sheet, self.plan, self.good, '-o', 'link')
        self.assertTrue(os.path.islink('link'))
        self.assertEqual(Path('real').read_text(), '[8,1]\n')
        with mock.patch.object(_files, 'replace') as replace:
            self.assertEqual(run('put', self.sheet, self.plan, self.good, '-o', os.devnull).status, 0)
        replace.assert_not_called()


class Processes(InFolder):
    def test_whole(self):
        """python3 -m lens as a process of its own: statuses, both streams, and a reader that goes away."""
        environment = dict(os.environ, PYTHONPATH=str(ROOT / 'python'))
        command = [sys.executable, '-m', 'lens']

        def ended(*arguments, **more):
            return subprocess.run(command + list(arguments), env=environment, stdout=subprocess.PIPE, stderr=subprocess.PIPE, **more)

        sheet, plan = self.file('sheet', SHEET), self.file('plan', '[7, 70000]')
        done = ended('get', sheet, '-', input=b'[7, 70000]')
        self.assertEqual((done.returncode, done.stdout, done.stderr), (0, b'{"a":107,"b":70000}\n', b''))
        done = ended('put', sheet, plan, '-', input=b'{"a":99,"b":1}')
        self.assertEqual((done.returncode, done.stdout, done.stderr[:6]), (1, b'', b'no 52:'))
        done = ended()
        self.assertEqual((done.returncode, done.stdout, done.stderr[:6]), (2, b'', b'usage:'))
        reader, writer = os.pipe()
        os.close(reader)
        with os.fdopen(writer, 'wb') as closed:
            done = subprocess.run(command + ['get', sheet, plan], env=environment, stdout=closed, stderr=subprocess.PIPE)
        self.assertEqual((done.returncode, done.stderr), (2, b'python3 -m lens get: standard output: Broken pipe\n'))


if __name__ == '__main__':
    unittest.main()
