"""Makes the wheel that `pip install ./python` installs (PEP 517), with the standard library alone: no network and no setuptools are needed.

The wheel has the package's files, and with them the shared library where bin/shared has made it.
"""
import base64
import hashlib
import re
import sysconfig
import zipfile
from pathlib import Path

HERE = Path(__file__).resolve().parent


def project():
    """The strings of [project] in pyproject.toml."""
    text = (HERE / 'pyproject.toml').read_text()
    return dict(re.findall(r'^([\w-]+) = "(.*)"$', text.split('[project]')[1], re.M))


def tag(files):
    """What the wheel runs on: this kind of machine where it has a library, otherwise any."""
    with_library = any(path.suffix in ('.so', '.dylib') for path in files)
    return 'py3-none-' + (re.sub(r'[-.]', '_', sysconfig.get_platform()) if with_library else 'any')


def package_files():
    kept = ('.py', '.so', '.dylib')
    return sorted(path for path in (HERE / 'lens').iterdir() if path.suffix in kept or path.name == 'py.typed')


def record(name, data):
    digest = base64.urlsafe_b64encode(hashlib.sha256(data).digest()).rstrip(b'=').decode()
    return f'{name},sha256={digest},{len(data)}\n'


def build_wheel(wheel_directory, config_settings=None, metadata_directory=None):
    told, files = project(), package_files()
    stem = f'{told["name"]}-{told["version"]}'
    about = f'{stem}.dist-info'
    parts = {f'lens/{path.name}': path.read_bytes() for path in files}
    parts[f'{about}/METADATA'] = (
        f'Metadata-Version: 2.1\nName: {told["name"]}\nVersion: {told["version"]}\n'
        f'Summary: {told["description"]}\nRequires-Python: {told["requires-python"]}\n').encode()
    pure = str(tag(files).endswith('any')).lower()
    parts[f'{about}/WHEEL'] = f'Wheel-Version: 1.0\nGenerator: backend.py\nRoot-Is-Purelib: {pure}\nTag: {tag(files)}\n'.encode()
    records = ''.join(record(name, data) for name, data in parts.items()) + f'{about}/RECORD,,\n'
    parts[f'{about}/RECORD'] = records.encode()
    wheel = f'{stem}-{tag(files)}.whl'
    with zipfile.ZipFile(Path(wheel_directory) / wheel, 'w', zipfile.ZIP_DEFLATED) as archive:
        for name, data in parts.items():
            archive.writestr(name, data)
    return wheel
