"""Every example of the package's documentation, of docs/PYTHON.md and of README.md: their files, commands and Python."""
import doctest
import os
import re
import subprocess
import sys
import unittest

import lens
from lens import _types, _values

from . import ROOT
from .command import InFolder

PAPER = (ROOT / 'docs/PYTHON.md').read_text()
README = (ROOT / 'README.md').read_text()


def blocks(paper):
    """The indented blocks of a paper, each with the line of prose before it."""
    before, block = '', []
    for line in paper.split('\n') + ['end']:
        if line.startswith('    ') or (block and not line):
            block.append(line[4:])
            continue
        if block:
            yield before, '\n'.join(block).strip('\n') + '\n'
            block = []
        if line:
            before = line


def load_tests(loader, tests, pattern):
    """The examples in the package's own documentation."""
    finder = doctest.DocTestFinder()
    found = finder.find(lens, 'lens', globs=dict(vars(lens)))
    for name in lens.__all__:
        if callable(getattr(lens, name)):
            found += finder.find(getattr(lens, name), f'lens.{name}', module=False, globs=dict(vars(lens)))
    for module in (_values, _types):
        found += finder.find(module, module.__name__)
    tests.addTests(doctest.DocTestCase(test) for test in found if test.examples)
    return tests


class Paper(InFolder):
    def files(self, paper):
        """The files that a paper shows: each block below a line that ends in a file's name."""
        for before, block in blocks(paper):
            named = re.search(r'`([\w.]+\.(?:txt|json))`:$', before)
            if named:
                self.file(named.group(1), block)

    def commands(self, paper):
        """Each line behind `$` prints what stands below it; how many there are."""
        self.files(paper)
        environment = dict(os.environ, PYTHONPATH=str(ROOT / 'python'), PATH=os.path.dirname(sys.executable) + os.pathsep + os.environ['PATH'])
        count = 0
        for _, block in blocks(paper):
            for part in re.split(r'^\$ ', block, flags=re.M)[1:]:
                command, _, wanted = part.partition('\n')
                ran = subprocess.run(command, shell=True, stdout=subprocess.PIPE, stderr=subprocess.STDOUT, env=environment)
                self.assertEqual(ran.stdout.decode().strip('\n'), wanted.strip('\n'), command)
                count += 1
        return count

    def test_commands(self):
        self.assertEqual(self.commands(PAPER), 7)

    def test_readme(self):
        self.assertEqual(self.commands(README), 2)

    def test_python(self):
        self.files(PAPER)
        text = '\n'.join(block for _, block in blocks(PAPER) if block.startswith('>>>'))
        test = doctest.DocTestParser().get_doctest(text, {}, 'docs/PYTHON.md', 'docs/PYTHON.md', 0)
        told = []
        runner = doctest.DocTestRunner()
        runner.run(test, out=told.append)
        self.assertEqual(told, [])
        self.assertGreater(runner.tries, 15)


if __name__ == '__main__':
    unittest.main()
