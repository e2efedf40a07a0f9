"""Refusals as exceptions: what they tell. That every one is raised is tested with the vectors."""
import unittest

import lens
from lens._refusals import REFUSALS

TWICE = lens.Sheet(bytes.fromhex('010100 160102 1000 1000'))  # the pair of variable 0 and variable 0


def raised(call):
    try:
        call()
    except lens.Refusal as refusal:
        return refusal
    raise AssertionError('nothing was refused')


class Walks(unittest.TestCase):
    def test_clash(self):
        refusal = raised(lambda: TWICE.put([7], (8, 9)))
        self.assertEqual((refusal.number, refusal.name, refusal.node, refusal.depth, refusal.chain, refusal.first_writer), (54, 'CLASH', 2, 2, [0, 2], 1))
        self.assertEqual((refusal.meaning, refusal.remedy), REFUSALS[54][2:])

    def test_spent(self):
        """The node that could not be entered, and no first writer."""
        refusal = raised(lambda: TWICE.get([7], 2))
        self.assertEqual((refusal.number, refusal.node, refusal.depth, refusal.chain, refusal.first_writer), (41, 2, 2, [0, 2], None))

    def test_a_plan_that_is_judged(self):
        """What is met as a new plan is read out has its node too."""
        adds = lens.Sheet(bytes.fromhex('010100 1B010064 1000'))
        refusal = raised(lambda: adds.accepts([7], 107, [True]))
        self.assertEqual((refusal.number, refusal.chain), (43, [0]))

    def test_before_the_walk(self):
        rows = [(3, lambda: TWICE.get([7], 0)), (14, lambda: lens.Sheet(b'').get([7])), (22, lambda: TWICE.get([])), (22, lambda: TWICE.get([1, 2])),
                (20, lambda: TWICE.get(b'\x09')), (32, lambda: TWICE.put([7], b'')), (85, lambda: TWICE.accepts([7], (7, 7), []))]
        for number, call in rows:
            refusal = raised(call)
            self.assertEqual((refusal.number, refusal.node, refusal.depth, refusal.chain, refusal.first_writer), (number, None, 0, [], None))


class Tools(unittest.TestCase):
    def test_nodes(self):
        twice = lens.Sheet(bytes.fromhex('010100 160101 1000'))
        for call in (twice.numbered, lambda: str(twice), lambda: twice.check_types(lens.Types([int], (int, int), [(int, int), int]))):
            refusal = raised(call)
            self.assertEqual((refusal.number, refusal.node, refusal.depth, refusal.chain), (81, 1, 0, []))
        refusal = raised(lambda: TWICE.check_types(lens.Types([int], (int, int), [(int, int), int, bool])))
        self.assertEqual((refusal.number, refusal.node), (82, 0))

    def test_others(self):
        one, two = lens.Sheet(bytes.fromhex('0101001000')), lens.Sheet(bytes.fromhex('0102001000'))
        case = lens.Sheet(bytes.fromhex('010100 180102040303 1000 12 11'))
        rows = [(80, lambda: one.check_types(b'')), (83, lambda: one.join(two)), (87, lambda: case.growth(0)), (23, lambda: one.growth(1)),
                (71, lambda: lens.to_json(lens.decode(b'\x03' * 49 + b'\x02' * 50))), (72, lambda: lens.from_json(str([0] * 64))),
                (10, lambda: str(lens.Sheet(b'\x09'))), (11, lambda: lens.Sheet(b'\x01').numbered())]
        for number, call in rows:
            refusal = raised(call)
            self.assertEqual((refusal.number, refusal.node), (number, None))


class Texts(unittest.TestCase):
    def test_all(self):
        """A text that is refused is a SyntaxError too, with line, column and the line itself."""
        rows = [
            (90, 'plan a\nlist = (a, a]', 2, 13, 'list = (a, a]', 'expected `)`, found `]`'),
            (90, 'plan a\r\nlist a\r\n', 2, 6, 'list a', 'expected `=`, found `a`'),
            (90, 'plan a\nlist =', 2, 7, 'list =', 'expected an expression, found the end of the text'),
            (90, b'plan a\nlist = \xff', 2, 8, 'list = \ufffd', 'expected an expression, found the byte FF'),
            (90, 'plan a -- \u00e9\u00e9', 1, 13, 'plan a -- \u00e9\u00e9', 'expected `,` and another name, or the word `list`, found the end of the text'),
            (91, 'plan a\nlist = b', 2, 8, 'list = b', 'there is no variable of this name here'),
            (92, 'plan a, a\nlist = a', 1, 9, 'plan a, a', 'this name already stands for a variable here'),
            (93, 'plan a\nlist = 4294967296', 2, 17, 'list = 4294967296', 'a number is at most 4294967295'),
            (94, 'plan ' + ', '.join(f'a{i}' for i in range(17)), 1, 76, None, 'a plan has at most 16 values'),
        ]
        for number, text, line, column, shown, message in rows:
            with self.subTest(text=text), self.assertRaises(SyntaxError) as caught:
                lens.Sheet.parse(text)
            error = caught.exception
            self.assertEqual((error.number, error.lineno, error.offset, error.msg), (number, line, column, message))
            self.assertEqual(error.text, shown or text)
            self.assertIsInstance(error, lens.Refusal)
            self.assertEqual(str(error).split('\n')[2], '  ' + ' ' * (column - 1) + '^')

    def test_printed(self):
        """A sheet's text reads back to the sheet in its one numbering."""
        sheet = lens.Sheet(bytes.fromhex('010200 160401 150302 13 1001 1000'))
        self.assertEqual(str(sheet), 'plan a, b\nlist = (a, [b])\n')
        self.assertEqual(lens.Sheet.parse(str(sheet)), sheet.numbered())
        self.assertEqual(lens.Sheet.parse(str(sheet).encode()), sheet.numbered())


if __name__ == '__main__':
    unittest.main()
