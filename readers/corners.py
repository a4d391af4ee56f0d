"""Words by which units are tried: corner values, and random ones."""

BOUNDS = (0, 1, 31, 2 ** 31 - 1, 2 ** 31, 2 ** 32 - 1)
RANDOM_VECTORS = 40


def vectors(source):
    """Words for a, b, c, d and e."""
    some = [(a, b, source.choice(BOUNDS)) for a in BOUNDS for b in BOUNDS]
    some += [tuple(source.choice((source.choice(BOUNDS), source.getrandbits(5), source.getrandbits(32)))
                   for _ in "abc") for _ in range(RANDOM_VECTORS)]
    return [(*vector, *other[:2]) for vector, other in zip(some, reversed(some))]
