"""Values and plans: their bytes, their JSON, and what is no value."""
import copy
import enum
import pickle
import random
import unittest
from functools import partial

import lens

from . import samples

VARIABLE = lens.Sheet(bytes.fromhex('0101001000'))  # the list is variable 0


def nested(depth):
    value = []
    for _ in range(depth):
        value = [value]
    return value


def endless():
    value = []
    value.append(value)
    return value


class RoundTrips(unittest.TestCase):
    def test_random(self):
        """Random values through bytes, through the archive both ways, and through JSON."""
        chance = random.Random(36)
        long = 0
        for _ in range(3000):
            value = samples.value(chance, chance.randrange(7))
            if samples.size(value) > 256:
                long += 1
                self.assertRaises(ValueError, lens.encode, value)
                continue
            data = lens.encode(value)
            self.assertEqual(len(data), samples.size(value))
            for found in (lens.decode(data), VARIABLE.get([value]).view, VARIABLE.put([False], value).plan[0], lens.from_json(lens.to_json(value))):
                self.assertTrue(samples.same(found, value), (found, value))
        self.assertGreater(long, 10)

    def test_bytes(self):
        rows = [(False, '00'), (True, '01'), ([], '02'), (12, '04000C'), (65535, '04FFFF'), (65536, '0600010000'), (4294967295, '06FFFFFFFF'),
                ([12, 13], '0304000C0304000D02'), ((12, True), '0504000C01'), ([[], [12]], '030203 0304000C02 02')]
        for value, data in rows:
            self.assertEqual(lens.encode(value), bytes.fromhex(data))
            self.assertTrue(samples.same(lens.decode(bytes.fromhex(data)), value))

    def test_plans(self):
        """A plan of 16 values of 255 bytes, as values, as bytes of each kind, and as JSON."""
        plan = [[nested(125), index % 2 == 0] for index in range(16)]
        self.assertEqual({len(lens.encode(value)) for value in plan}, {255})
        sheet = lens.Sheet(bytes.fromhex('01100010 0F'))
        data = b''.join(map(lens.encode, plan))
        for given in (plan, data, bytearray(data), memoryview(data)):
            self.assertEqual(sheet.get(given).view, plan[15])
            put = sheet.put(given, [7])
            self.assertEqual((put.plan, put.written), (plan[:15] + [[7]], {15}))
        rows = [[index, (True, [70000])] for index in range(16)]
        self.assertEqual(lens.plan_from_json(lens.plan_to_json(rows)), rows)

    def test_longest(self):
        """256 bytes are the most, and nesting without end is too long."""
        self.assertEqual(len(lens.encode(nested(127))), 255)
        self.assertEqual(len(lens.encode([0] * 63)), 253)
        left, right = False, False
        for _ in range(127):
            left, right = (left, False), (False, right)
        self.assertEqual((len(lens.encode(left)), len(lens.encode(right))), (255, 255))
        for value in (nested(128), nested(100000), endless(), [0] * 64, [0] * 1000000, (left, False), (False, right)):
            with self.assertRaisesRegex(ValueError, '^plan.1.: over 256 bytes'):
                VARIABLE.get([False, value])

    def test_numbers_of_a_kind_of_their_own(self):
        """An int of another class is its number."""
        colour = enum.IntEnum('colour', 'red green')
        self.assertEqual(lens.encode(colour.green), bytes.fromhex('040002'))


class NoValues(unittest.TestCase):
    def test_what_and_where(self):
        """Each is a ValueError that says what and where, before any call."""
        rows = [
            ([1.5], 'plan[0]: no value: float'), ([[1, None]], 'plan[0][1]: no value: NoneType'), ([-1], 'plan[0]: the number -1 is negative'),
            ([0, [1, (2, [4294967296])]], 'plan[1][1][1][0]: the number 4294967296 is over 4,294,967,295'),
            (['AB'], 'plan[0]: a str'), ([(1, 2, 3)], 'plan[0]: a tuple of 3'), ([(1,)], 'plan[0]: a tuple of 1'), ([()], 'plan[0]: a tuple of 0'),
            ([b'\x00'], 'plan[0]: no value: bytes'), ([{'a': 1, 'b': 2}], 'plan[0]: no value: dict'), ([{1, 2}], 'plan[0]: no value: set'),
            ([1j], 'plan[0]: no value: complex'), ([10 ** 40], 'plan[0]: the number'), ([True, (False, 2.0)], 'plan[1][1]: no value: float'),
        ]
        for plan, message in rows:
            with self.subTest(plan=plan), self.assertRaises(ValueError) as raised:
                lens.Sheet(b'').get(plan)  # an empty sheet would be refused, were it called
            self.assertTrue(str(raised.exception).startswith(message), str(raised.exception))

    def test_arguments(self):
        """Arguments of another kind are a ValueError that names them."""
        rows = [
            ('plan: ', lambda: VARIABLE.get(7)), ('plan: ', lambda: VARIABLE.get((7, 8))), ('plan: ', lambda: VARIABLE.get('7')),
            ('plan: ', lambda: VARIABLE.get(None)), ('view: ', lambda: VARIABLE.put([7], None)), ('view: ', lambda: VARIABLE.put([7], 'x')),
            ('view[0]: ', lambda: VARIABLE.put([7], [-1])), ('allowance: ', lambda: VARIABLE.get([7], True)),
            ('allowance: ', lambda: VARIABLE.get([7], 1000000.0)), ('allowance: ', lambda: VARIABLE.get([7], -1)),
            ('allowance: ', lambda: VARIABLE.put([7], 8, '1000')), ('allowance: ', lambda: VARIABLE.accepts([7], 8, [8], None)),
            ('old[0]: ', lambda: VARIABLE.accepts([1.0], 8, [8])), ('new[0][1]: ', lambda: VARIABLE.accepts([1], 8, [(1, 'x')])),
            ('view: ', lambda: VARIABLE.accepts([1], 8.5, [1])),
            ('sheet: ', lambda: lens.Sheet('0101001000')), ('sheet: ', lambda: lens.Sheet(None)), ('sheet: ', lambda: lens.Sheet([1, 1, 0])),
            ('text: ', lambda: lens.Sheet.parse(None)), ('text: ', lambda: lens.from_json(7)), ('value: ', lambda: lens.to_json(None)),
            ('variable: ', lambda: VARIABLE.growth(-1)), ('variable: ', lambda: VARIABLE.growth(True)), ('variable: ', lambda: VARIABLE.growth('0')),
            ('other: ', lambda: VARIABLE.join(b'\x01\x01\x00\x10\x00')), ('types: ', lambda: VARIABLE.check_types([int])),
            ('plan: ', lambda: lens.plan_to_json((1, 2))), ('plan[1]: ', lambda: lens.Types(plan=[int, str], view=int, nodes=[])),
            ('view: ', lambda: lens.Types(plan=[], view=[int, int], nodes=[])), ('nodes[0]: ', lambda: lens.Types(plan=[], view=int, nodes=[(int,)])),
            ('sections[0]: ', lambda: lens.Types([], int, [], [(int, int)])), ('view: ', lambda: lens.Types([], nested(300), [])),
            ('view: ', lambda: lens.Types([], endless(), [])),
        ]
        self.each(rows)

    def test_bytes_of_no_value(self):
        bad = (b'', b'\x00\x00', b'\x07', b'\x06\x00\x00\x00\x01', b'\x03\x00\x01', b'\x04\x00', b'\x03' * 5000)
        self.each([('not the bytes of one value: ', partial(lens.decode, data)) for data in bad])

    def each(self, rows):
        """Each call is a ValueError that begins so."""
        for message, call in rows:
            with self.subTest(message=message), self.assertRaises(ValueError) as raised:
                call()
            self.assertTrue(str(raised.exception).startswith(message), str(raised.exception))

    def test_a_truth_is_no_number(self):
        """True goes through as True, and as no amount, allowance or variable."""
        self.assertIs(VARIABLE.get([True]).view, True)
        self.assertIs(VARIABLE.put([1], False).plan[0], False)
        adds = lens.Sheet(bytes.fromhex('010100 1B010064 1000'))
        with self.assertRaises(lens.Refusal) as raised:
            adds.get([True])
        self.assertEqual(raised.exception.number, 43)

    def test_large_numbers(self):
        """What is over every range is refused as such, and never cut."""
        for allowance in (0, 1000001, 2 ** 32, 2 ** 32 + 1000, 2 ** 70):
            with self.assertRaises(lens.Refusal) as raised:
                VARIABLE.get([7], allowance)
            self.assertEqual(raised.exception.number, 3)
        for variable in (1, 2 ** 32, 2 ** 64, 2 ** 70):
            with self.assertRaises(lens.Refusal) as raised:
                VARIABLE.growth(variable)
            self.assertEqual(raised.exception.number, 23)


class Objects(unittest.TestCase):
    def test_sheets(self):
        same = lens.Sheet(bytearray(bytes(VARIABLE)))
        self.assertEqual((same, hash(same), bytes(same)), (VARIABLE, hash(VARIABLE), bytes.fromhex('0101001000')))
        self.assertEqual(eval(repr(same), {'Sheet': lens.Sheet}), VARIABLE)
        self.assertNotEqual(VARIABLE, bytes(VARIABLE))

    def test_results_are_kept(self):
        """A result has its own bytes: later calls leave it as it is, also where it is first looked at behind them."""
        first = VARIABLE.get([[1, 2]])
        put = VARIABLE.put([0], [3])
        VARIABLE.get([True])
        VARIABLE.put([0], False)
        self.assertEqual((first.view, put.plan, put.written, put.steps), ([1, 2], [[3]], {0}, 1))
        self.assertIs(first.view, first.view)

    def test_refusals_are_copied(self):
        """A refusal can be sent to another process."""
        with self.assertRaises(lens.Refusal) as raised:
            lens.Sheet(bytes.fromhex('010100160102 1000 1000')).put([7], (8, 9))
        with self.assertRaises(lens.TextRefusal) as faulty:
            lens.from_json('[1,\n 2,,]')
        for refusal in (raised.exception, faulty.exception):
            for again in (pickle.loads(pickle.dumps(refusal)), copy.copy(refusal)):
                self.assertEqual((type(again), str(again), vars(again)), (type(refusal), str(refusal), vars(refusal)))


if __name__ == '__main__':
    unittest.main()
