"""What the package says of the archive is what include/lens.h says, and the library has every function of it."""
import re
import unittest

from lens import _archive
from lens._refusals import REFUSALS

from . import ROOT

HEADER = (ROOT / 'include/lens.h').read_text()
DEFINED = {name: int(number) for name, number in re.findall(r'^#define LENS_(\w+) (\d+)u', HEADER, re.M)}
CALLED = {'lens_get', 'lens_put_written', 'lens_why_get', 'lens_why_put', 'lens_check_plan', 'lens_number', 'lens_join', 'lens_growth', 'lens_check_types',
          'lens_to_json', 'lens_from_json', 'lens_read_sheet', 'lens_print_sheet'}


class Header(unittest.TestCase):
    def test_sizes(self):
        names = ('GET_OUT', 'PUT_OUT', 'SHEET_OUT', 'JSON_OUT', 'VALUE_OUT', 'TEXT_OUT', 'SCRATCH', 'STARTS_MAX', 'CHAIN_MAX', 'ALLOWANCE_MAX',
                 'VERSION')
        sizes = {name: getattr(_archive, name) for name in names}
        self.assertEqual(sizes, {name: DEFINED.get(name) for name in sizes})

    def test_refusals(self):
        names = {name: number for number, (name, *_) in REFUSALS.items() if name is not None}
        sizes = ('OUT', 'MAX', 'SCRATCH', 'STACK', 'OK', 'VERSION')
        self.assertEqual(names, {f'LENS_{name}': number for name, number in DEFINED.items() if name.split('_')[-1] not in sizes})

    def test_functions(self):
        """Each function that the package calls stands in the header and in the library."""
        self.assertEqual(CALLED - set(re.findall(r'\b(lens_\w+)\(', HEADER)), set())
        for name in CALLED:
            self.assertTrue(callable(getattr(_archive.archive, name)), name)


if __name__ == '__main__':
    unittest.main()
