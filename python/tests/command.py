"""The command line run within the tests, and files for it."""
import io
import os
import sys
import tempfile
import unittest
from collections import namedtuple
from pathlib import Path
from unittest import mock

from lens._command import main

Ran = namedtuple('Ran', 'status out err')


def stream(data=b''):
    return io.TextIOWrapper(io.BytesIO(data), encoding='utf-8', write_through=True)


def run(*arguments, stdin=b''):
    """Runs the command line; its status, and what it printed."""
    out, err = stream(), stream()
    with mock.patch.multiple(sys, stdin=stream(stdin), stdout=out, stderr=err):
        try:
            status = main([str(argument) for argument in arguments])
        except SystemExit as ended:
            status = ended.code
    return Ran(status, out.buffer.getvalue().decode(), err.buffer.getvalue().decode())


class InFolder(unittest.TestCase):
    """A test in a folder of its own, which is removed."""

    maxDiff = None

    def setUp(self):
        folder = tempfile.TemporaryDirectory()
        self.addCleanup(folder.cleanup)
        self.addCleanup(os.chdir, os.getcwd())
        os.chdir(folder.name)

    def file(self, name, data):
        """Writes a file, and gives its name."""
        Path(name).write_bytes(data if isinstance(data, bytes) else data.encode())
        return name

    def names(self):
        return sorted(os.listdir('.'))

    def refused(self, ran, number):
        """A refusal: words on standard error, nothing on standard output, status 1."""
        self.assertEqual((ran.status, ran.out), (1, ''), ran)
        self.assertTrue(ran.err.startswith(f'no {number}: '), ran)
        return ran.err.splitlines()
