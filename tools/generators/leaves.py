"""Records of the kinds 0 to 7 that document 01 accepts, as trees: numbers, dates, timestamps, strings and shapes at their edges and at random."""
from model.limits import FLAGS, MANTISSA

from .filters import STR_LETTERS


def numbers(rng):
    sizes = [0, 1, 5, 9, 10, 11, 99, 100, 101, 1500, 999999999, 1000000000, 1000000001, 123456789012345, 10 ** 14,
             MANTISSA - 9, MANTISSA - 1, MANTISSA]
    for s in range(10):
        for m in sizes:
            for sign in (1, -1):
                yield 'num', sign * m, s
        for _ in range(12):
            m = rng.randrange(10 ** rng.randint(1, 15)) * 10 ** rng.randint(0, 3)
            yield 'num', rng.choice((1, -1)) * min(m, MANTISSA), s


def instants(rng):
    days = [(1, 1, 1), (9999, 12, 31), (2000, 2, 29), (2024, 2, 29), (1900, 2, 28), (10, 10, 10), (999, 9, 9), (1000, 10, 1), (2021, 1, 1)]
    days += [(rng.randint(1, 9999), rng.randint(1, 12), rng.randint(1, 28)) for _ in range(30)]
    for k, day in enumerate(days):
        yield 'date', *day
        for clock in ((0, 0, 0), (23, 59, 59), (rng.randint(0, 23), rng.randint(0, 59), rng.randint(0, 59)))[k % 2:]:
            yield 'timestamp', *day, *clock


def strings(rng):
    texts = ['', ' ', 'x', '"', '%_', 'a b', STR_LETTERS, 'COLLATE NC', '{}', '\\']
    texts += [''.join(rng.choice(STR_LETTERS) for _ in range(rng.randint(1, 40))) for _ in range(14)]
    for flags in range(FLAGS + 1):
        for text in texts:
            yield 'str', flags, text


def shapes(rng):
    srids = [0, 1, 9, 10, 4326, 3857, 99999, 100000, 2 ** 31, 2 ** 32 - 1]
    texts = ['POINT (1 2)', 'P', 'LINESTRING(0 0,-1.5 2.25)', 'POLYGON EMPTY']
    for srid in srids + [rng.randrange(2 ** 32) for _ in range(20)]:
        yield 'spatial', srid, rng.choice(texts)


def fields(rng):
    """All of the above."""
    return [leaf for make in (numbers, instants, strings, shapes) for leaf in make(rng)]


def any_number(rng):
    return 'num', rng.choice((1, -1)) * rng.randrange(10 ** rng.randint(1, 15)), rng.randint(0, 9)
