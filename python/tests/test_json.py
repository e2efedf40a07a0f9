"""JSON: where a text that is refused has its fault, and plans."""
import random
import unittest

import lens

from . import ROOT, jobs, samples

# What can stand behind a front of a text that shows no fault, up to the end of the token or member that it ends in.
RESTS = ['', '0', 'rue', 'ue', 'e', 'alse', 'lse', 'se', '"a":0,"b":0', 'a":0,"b":0', '":0,"b":0', ':0,"b":0', '0,"b":0', ',"b":0', '"b":0', 'b":0', '":0',
         ':0']


def ends(front):
    """The ends of the arrays and objects that a front leaves open; of an object before its comma also with its second member."""
    opened, name = [], False
    for sign in front.decode('latin-1'):
        name ^= sign == '"'
        if name:
            continue
        if sign in '[{':
            opened.append(']' if sign == '[' else ',"b":0}')
        elif sign in ']}' and opened:
            opened.pop()
        elif sign == ',' and opened and opened[-1] != ']':
            opened[-1] = '}'
    inner = opened[-1:] and opened[-1].replace(',"b":0', '')
    outer = ''.join(reversed(opened[:-1]))
    return {(opened[-1] if opened else '') + outer, (inner or '') + outer}


def refused(text):
    """The refusal of a text; none where it is read, or has a value that is too long."""
    try:
        lens.from_json(text)
    except lens.Refusal as refusal:
        return None if refusal.number == 72 else refusal
    return None


def goes_on(front):
    """Whether some text that begins so is read."""
    return any(refused(front + (rest + end).encode()) is None for rest in RESTS for end in ends(front))


class Faults(unittest.TestCase):
    def check(self, text):
        """The fault of a text is at the first byte behind which it cannot go on. What stands before that byte can."""
        refusal = refused(text)
        if refusal is None:
            return False
        self.assertIsInstance(refusal, lens.TextRefusal)
        place = refusal.place
        self.assertTrue(goes_on(text[:place]), (text, place))
        self.assertFalse(place < len(text) and goes_on(text[:place + 1]), (text, place))
        return True

    def test_vectors(self):
        texts = [data[1:] for data, _ in jobs.lines(ROOT / 'vectors/tools.txt') if data[:1] == b'\x45' and len(data) < 300]
        self.assertGreater(sum(map(self.check, texts)), 100)

    def test_random(self):
        """Texts with one byte changed, left out or put in."""
        chance = random.Random(45)
        count = 0
        for _ in range(300):
            text = lens.to_json(samples.value(chance, 2)).encode()
            place = chance.randrange(len(text) + 1)
            byte = bytes([chance.choice(b'[]{},:"ab 0123456789truefals-.\xff')])
            count += self.check(text[:place] + chance.choice((b'', byte)) + text[place + chance.randrange(2):])
        self.assertGreater(count, 50)

    def test_places(self):
        rows = [('[12, 13,]', 70, 8, 'found `]`'), ('01', 70, 1, 'without a 0 in front'), ('4294967296', 70, 9, 'up to 4,294,967,295'),
                ('10000000000', 70, 10, 'up to'), ('-1', 70, 0, 'found `-`'), ('"a"', 70, 0, 'found `"`'), ('{"b":1}', 70, 2, '`"a"`'),
                ('{"a":1}', 70, 6, '`,`'),
                ('[1 2]', 70, 3, '`,` or `]`'), ('1 1', 70, 2, 'the end of the text'), ('', 70, 0, 'found the end of the text'), ('tru', 70, 3, '`true`'),
                ('[' * 49, 71, 48, 'at most 48 deep'), ('{"a":1,"b":2,', 70, 12, '`}`')]
        for text, number, place, message in rows:
            refusal = refused(text)
            self.assertEqual((refusal.number, refusal.place), (number, place), text)
            self.assertIn(message, refusal.msg)


    def test_long_lines(self):
        """Of a long line the part around the fault is shown."""
        for before in (0, 1, 59, 60, 61, 5000):
            text = ' ' * before + '?' + ' ' * 5000
            _, line, sign = str(refused(text)).split('\n')
            self.assertEqual(line[sign.index('^')], '?')
            self.assertLessEqual(len(line), 122)


class Plans(unittest.TestCase):
    def test_good(self):
        deep = '[' * 48 + ']' * 48
        rows = [('[]', []), (' [ 1 , [ 2 ] ]\n', [1, [2]]), ('[' + ','.join([str([0] * 63)] * 16) + ']', [[0] * 63] * 16),
                (f'[{deep},{{"a":1,"b":{{"a":true,"b":[]}}}}]', [lens.from_json(deep), (1, (True, []))])]
        for text, plan in rows:
            self.assertEqual(lens.plan_from_json(text), plan)
            self.assertEqual(lens.plan_from_json(lens.plan_to_json(plan)), plan)

    def test_bad(self):
        rows = [('7', 70, 0), ('[1,]', 70, 3), ('[1', 70, 2), ('[1]]', 70, 3), ('[1}', 70, 2), ('[1,[2,]]', 70, 6), ('[1,' + '[' * 49, 71, 51),
                (f'[7, {[0] * 64}]', 72, 4), ('', 70, 0), ('[1 2]', 70, 3)]
        for text, number, place in rows:
            with self.subTest(text=text), self.assertRaises(lens.TextRefusal) as raised:
                lens.plan_from_json(text)
            self.assertEqual((raised.exception.number, raised.exception.place), (number, place))


if __name__ == '__main__':
    unittest.main()
