"""Random values, by a generator of numbers that is handed in."""


def value(random, depth=5):
    kind = random.choice(('truth', 'short', 'wide') + ('list', 'list', 'pair', 'pair') * (depth > 0))
    if kind == 'truth':
        return random.random() < 0.5
    if kind == 'short':
        return random.choice((0, 1, 255, 256, 65535, random.randrange(65536)))
    if kind == 'wide':
        return random.choice((65536, 4294967295, random.randrange(65536, 4294967296)))
    if kind == 'list':
        return [value(random, depth - 1) for _ in range(random.randrange(7))]
    return value(random, depth - 1), value(random, depth - 1)


def size(value):
    """How many bytes a value has, counted apart from the code that writes them."""
    if isinstance(value, bool):
        return 1
    if isinstance(value, int):
        return 3 if value < 65536 else 5
    if isinstance(value, list):
        return 1 + sum(1 + size(member) for member in value)
    return 1 + size(value[0]) + size(value[1])


def same(left, right):
    """Whether two values are the same: True is no 1, and a pair no list."""
    if type(left) is not type(right):
        return False
    if isinstance(left, (list, tuple)):
        return len(left) == len(right) and all(map(same, left, right))
    return left == right
