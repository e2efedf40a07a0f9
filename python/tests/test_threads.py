"""Calls at once: from eight threads, and from a handler of a signal while another call runs."""
import random
import signal
import threading
import unittest

import lens

from . import samples

PAIR = lens.Sheet(bytes.fromhex('010200 160102 1000 1001'))  # the pair of both variables
THREADS, CALLS = 8, 400


def trip(chance):
    """One get and one put of small random values, and one that is refused; each answer is compared."""
    left, right, new = ([chance.randrange(1000), samples.value(chance, 1)] for _ in range(3))
    got = PAIR.get([left, right])
    put = PAIR.put([left, right], (new, left))
    assert samples.same(got.view, (left, right)) and samples.same(put.plan, [new, left]) and put.written == {0, 1}
    assert lens.from_json(lens.to_json(new)) == new
    try:
        PAIR.get([left, right], 2)
    except lens.Refusal as refusal:
        assert (refusal.number, refusal.chain) == (41, [0, 2])
    else:
        raise AssertionError('nothing was refused')


class Threads(unittest.TestCase):
    def test_eight(self):
        failed = []

        def run(seed):
            chance = random.Random(seed)
            try:
                start.wait()
                for _ in range(CALLS):
                    trip(chance)
            except BaseException as error:
                failed.append(error)

        start = threading.Barrier(THREADS)
        threads = [threading.Thread(target=run, args=(seed,)) for seed in range(THREADS)]
        for thread in threads:
            thread.start()
        for thread in threads:
            thread.join()
        self.assertEqual(failed, [])

    @unittest.skipUnless(hasattr(signal, 'setitimer'), 'this system has no such timer')
    def test_a_handler(self):
        """A call that interrupts another of the same thread leaves it its buffers."""
        handled, chance = [], random.Random(0)
        before = signal.signal(signal.SIGALRM, lambda *_: handled.append(trip(chance)))
        signal.setitimer(signal.ITIMER_REAL, 0.0005, 0.0005)
        try:
            other = random.Random(1)
            for _ in range(20000):
                trip(other)
                if len(handled) > 100:
                    break
        finally:
            signal.setitimer(signal.ITIMER_REAL, 0)
            signal.signal(signal.SIGALRM, before)
        self.assertGreater(len(handled), 10)


if __name__ == '__main__':
    unittest.main()
