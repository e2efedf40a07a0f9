'''One sheet of rules for a venue, read both ways: forwards it gives the list from the plan, backwards the new plan from the old plan and
the edited list. docs/SHEETS.md is the manual of sheets, docs/PYTHON.md that of this package.

    >>> import lens
    >>> sheet = lens.Sheet.parse("""
    ...     plan seat, price                      -- two values
    ...     list = (100 + seat, price)            -- a pair
    ... """)
    >>> sheet.get([7, 70000]).view
    (107, 70000)
    >>> put = sheet.put([7, 70000], (108, 65000))
    >>> put.plan, put.written
    ([8, 65000], {0, 1})

Values are Python's: a bool, an int from 0 to 4,294,967,295, a list, and a tuple of two, which is a pair. Anything else is a ValueError:

    >>> sheet.get([7, -1])
    Traceback (most recent call last):
    ValueError: plan[1]: the number -1 is negative: a value is a bool, an int from 0 to 4,294,967,295, a list, or a tuple of two

What the archive refuses is a Refusal. One that is met in the walk tells the node and the way to it from the root:

    >>> try:
    ...     sheet.put([7, 70000], (99, 65000))
    ... except lens.Refusal as refusal:
    ...     print(refusal.number, refusal.meaning)
    ...     print(refusal.node, refusal.depth, refusal.chain)
    52 a number of the list sent back is below the amount that the sheet adds
    1 2 [0, 1]

The work is done by an archive that is proved to follow the definitions of sheets. Threads may call at once: each call holds its own buffers.
'''
from ._archive import ALLOWANCE_MAX
from ._json import from_json, plan_from_json, plan_to_json, to_json
from ._refusal import Refusal, TextRefusal
from ._sheet import Got, Put, Sheet
from ._types import Type, Types
from ._values import Value, decode, encode

__all__ = [
    'ALLOWANCE_MAX', 'Got', 'Put', 'Refusal', 'Sheet', 'TextRefusal', 'Type', 'Types', 'Value',
    'decode', 'encode', 'from_json', 'plan_from_json', 'plan_to_json', 'to_json',
]

for _named in (Got, Put, Refusal, Sheet, TextRefusal, Types):
    _named.__module__ = __name__
del _named
