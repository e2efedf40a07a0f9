"""Tests of the package, run by `python3 -m unittest discover python` in the repository's root."""
from pathlib import Path

ROOT = Path(__file__).resolve().parent.parent.parent
SHARED = ROOT.parent / 'shared' / 'vectors'
