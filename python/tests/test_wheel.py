"""The wheel that pip installs: its files, and that the package runs from it with no other path."""
import hashlib
import importlib.util
import os
import subprocess
import sys
import zipfile
from base64 import urlsafe_b64encode

from lens import _archive

from . import ROOT
from .command import InFolder


def backend():
    spec = importlib.util.spec_from_file_location('backend', ROOT / 'python/backend.py')
    module = importlib.util.module_from_spec(spec)
    spec.loader.exec_module(module)
    return module


class Wheel(InFolder):
    def test_wheel(self):
        name = backend().build_wheel('.')
        self.assertRegex(name, r'^lens-[\d.]+-py3-none-\w+\.whl$')
        with zipfile.ZipFile(name) as wheel:
            files = {info: wheel.read(info) for info in wheel.namelist()}
            wheel.extractall('site')
        sources = {f'lens/{path.name}' for path in (ROOT / 'python/lens').glob('*.py')} | {'lens/py.typed'}
        self.assertEqual(sources - set(files), set())
        [records] = [data.decode() for path, data in files.items() if path.endswith('/RECORD')]
        for line in records.splitlines():
            path, digest, size = line.split(',')
            if digest:
                wanted = urlsafe_b64encode(hashlib.sha256(files[path]).digest()).decode().rstrip('=')
                self.assertEqual((digest, size), (f'sha256={wanted}', str(len(files[path]))))
        program = 'import lens; print(lens.__file__, lens.Sheet(bytes.fromhex("0101001000")).get([7]).view)'
        environment = dict(os.environ, PYTHONPATH=os.path.abspath('site'), LENS_LIBRARY=str(_archive.library_path()))
        printed = subprocess.run([sys.executable, '-c', program], stdout=subprocess.PIPE, env=environment, check=True).stdout.decode()
        self.assertEqual(printed.split(), [os.path.abspath('site/lens/__init__.py'), '7'])
