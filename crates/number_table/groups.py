"""Writes `stdin`, a table of number groups, and `stdout`, their answers by plain integer arithmetic.

Run in this folder: python3 groups.py
A line of `stdin` is six words: the lower and the upper bound, the divisors that are asked for and those that are
ruled out, the sets that are asked for and those that are ruled out. `src/lines.rt` says how they are written.
"""

import itertools
import math
import random

LARGEST = 2**127 - 1
MOST_STRUCK = 65_536
TOP = 2**64
LOW = -(2**63)


def meets(x, group):
    low, high, multiples, not_multiples, sets, not_sets = group
    return (
        (low is None or low <= x)
        and (high is None or x <= high)
        and all(x % m == 0 for m in multiples)
        and not any(x % m == 0 for m in not_multiples)
        and all(x in s for s in sets)
        and not any(x in s for s in not_sets)
    )


def candidates(low, high, m):
    """All multiples of m within the bounds, in the order in which they are tried."""
    if low is not None:
        x = low
        while x % m != 0:  # at most to the next multiple
            x += m - x % m
        while high is None or x <= high:
            yield x
            x += m
    elif high is not None:
        x = high - high % m
        while True:
            yield x
            x -= m
    else:
        yield 0
        for size in itertools.count(1):
            yield size * m
            yield -size * m


def decide(group):
    low, high, multiples, not_multiples, sets, not_sets = group
    if low is not None and high is not None and low > high:
        return "empty"
    ruled_out = [set(expand(s)) for s in not_sets]
    if sets:
        asked = [set(expand(s)) for s in sets]
        for x in expand(sets[0]):
            if meets(x, (low, high, multiples, not_multiples, asked, ruled_out)):
                return f"found {x}"
        return "empty"
    m = math.lcm(1, *multiples)
    if m > LARGEST:
        return "limit multiples"
    if any(m % b == 0 for b in not_multiples):
        return "empty"
    struck = 0
    for x in candidates(low, high, m):
        if abs(x) > LARGEST:
            return "limit multiples"
        if struck == MOST_STRUCK:
            return "limit candidates"
        if meets(x, (low, high, multiples, not_multiples, [], ruled_out)):
            return f"found {x}"
        struck += 1
    return "empty"


def expand(values):
    for v in values:
        if isinstance(v, tuple):
            yield from range(v[0], v[1] + 1)
        else:
            yield v


def written(group):
    low, high, multiples, not_multiples, sets, not_sets = group

    def value(v):
        return f"{v[0]}..{v[1]}" if isinstance(v, tuple) else str(v)

    def listed(values, mark=",", none="-"):
        return mark.join(values) or none

    return " ".join(
        [
            "-" if low is None else str(low),
            "-" if high is None else str(high),
            listed([str(m) for m in multiples]),
            listed([str(m) for m in not_multiples]),
            listed([listed([value(v) for v in s], none="empty") for s in sets], ";"),
            listed([listed([value(v) for v in s], none="empty") for s in not_sets], ";"),
        ]
    )


def group(low=None, high=None, multiples=(), not_multiples=(), sets=(), not_sets=()):
    return (low, high, list(multiples), list(not_multiples), list(sets), list(not_sets))


def first_examples():
    yield group(5, None, [3])
    yield group(8, 10, [5])
    yield group(None, None, [6], [3])
    yield group(1, None, [TOP - 1, TOP - 2])
    yield group(0, not_sets=[[(0, 65_534)]])
    yield group(0, not_sets=[[(0, 65_535)]])
    yield group(0, 65_535, not_sets=[[(0, 65_535)]])


def bounds_at_the_edge():
    steps = [1, 2, 3, 7, 2**32, 2**63 - 1, 2**63, TOP - 1]
    for m in steps:
        for low in [LOW, LOW - 1, -TOP, -1, 0, 1, 2**63, TOP - 1, TOP]:
            yield group(low, None, [m])
            yield group(None, low, [m])
        yield group(LOW, LOW + 1, [m])
        yield group(TOP - 2, TOP, [m])
        yield group(-TOP, -TOP, [m])
        yield group(3, 2, [m])


def wide_multiples():
    for a, b in [
        (2**63, 2**64 - 1),
        (2**63 - 1, 2**64 - 1),
        (2**63 + 1, 2**64 - 1),
        (2**63, 2**63 - 1),
        (2**64 - 1, 2**64 - 3),
        (2**64 - 59, 2**63 - 25),
        (2**64 - 59, 2**63 + 29),
        (3 * 2**61, 2**62),
    ]:
        for low, high in [(None, None), (1, None), (None, -1), (-5, 5), (1, TOP), (-TOP, -1), (0, 0)]:
            yield group(low, high, [a, b])
            yield group(low, high, [a, b], not_sets=[[0, a * b // math.gcd(a, b)] if a * b < 2**127 else [0]])
            yield group(low, high, [a, b], [2])
    yield group(None, None, [TOP - 1, TOP - 2], sets=[[1, 0]])  # a set is searched first


def full_sets():
    for size in [65_535, 65_536]:
        last = size - 1
        for low, high in [(0, None), (0, last), (0, last + 1), (None, last), (-1, None)]:
            yield group(low, high, not_sets=[[(0, last)]])
        yield group(None, 0, not_sets=[[(-last, 0)]])
        yield group(None, None, not_sets=[[(-(size // 2), (size - 1) // 2)]])
        yield group(None, None, not_sets=[[(-((size - 1) // 2), size // 2)]])
        yield group(0, None, [2], not_sets=[[(0, 2 * last)]])
        yield group(0, None, not_sets=[[(0, last // 2)], [(last // 2 + 1, last)]])
        yield group(1, None, [], [2], not_sets=[[(1, last)]])


def asked_sets():
    for size in [65_535, 65_536]:
        last = size - 1
        whole = [(0, last)]
        for low, high in [(None, None), (last, None), (size, None), (None, 0), (None, -1), (5, 4)]:
            yield group(low, high, sets=[whole])
        yield group(sets=[whole], not_sets=[[(0, last)]])
        yield group(sets=[whole], not_sets=[[(0, last - 1)]])
        yield group(sets=[whole], not_sets=[[(1, last)]])
        yield group(sets=[whole], not_sets=[[(0, last // 2)], [(last // 2 + 1, last)]])
        yield group(sets=[whole, [(-last, 0)]])
        yield group(sets=[whole, [(-last, -1)]])
        yield group(sets=[[(-last, 0)], whole], not_sets=[[0]])
        yield group(sets=[[(10, 10 + last)], [(0, last)]], not_sets=[[(0, last - 1)]])
        yield group(sets=[whole], not_sets=[[x] for x in range(0, 300)])
        yield group(1, None, [last], sets=[whole])
        yield group(1, None, [3, 5], [2, 7], sets=[whole])
        yield group(1, None, [TOP - 1, TOP - 2], sets=[whole])
        yield group(not_multiples=[1], sets=[whole])
        yield group(not_multiples=[2, 3, 5, 7, 11, 13], sets=[[(2, last), last + 2, 1]])
    # more different values than are marked
    yield group(sets=[[(0, 70_000)]], not_sets=[[(0, 69_999)]])
    yield group(sets=[[(0, 70_000)]], not_sets=[[(0, 70_000)]])
    yield group(sets=[[7, 7, 3, 3, -1, 7]], not_sets=[[7], [3, 3]])


def blocks_of_values():
    """More values than are marked at once, in and out of order, with few negated sets and with more of them."""
    for asked in [[(0, 140_000)], [(40_000, 140_000), (0, 39_999)], [140_000, 0, 65_536, (1, 140_000), 65_535]]:
        for more in [[], [[]] * 12]:
            yield group(sets=[asked], not_sets=[[7], [8], [9], *more])
            yield group(sets=[asked], not_sets=[[(0, 65_534)], [(65_536, 70_000)], [140_000], [40_000], *more])
            yield group(sets=[asked], not_sets=[[(0, 65_535)], [65_536], [(65_537, 139_999)], *more])
            yield group(sets=[asked], not_sets=[[(40_000, 140_000)], [0], [1], *more])
            yield group(sets=[asked], not_sets=[[(2, 140_000)], [0], *more])
            yield group(sets=[asked], not_sets=[[(70_000, 140_000)], [(0, 50_000)], [(50_001, 69_999)], *more])
            yield group(65_530, 65_540, [2], [3], [asked, [(65_531, 65_545)]], [[65_530], [65_534], *more])
            yield group(131_072, None, [], [2], [asked], [[131_073], [131_075], *more])
    yield group(sets=[[(5, 70_000), *[5] * 100, (0, 4)]], not_sets=[[(6, 70_000)], [5], [0, 1], [], []])


def empty_sets():
    yield group(sets=[[]])
    yield group(sets=[[1], []])
    yield group(sets=[[], [1]], not_sets=[[]])
    yield group(sets=[[3, 1]], not_sets=[[]])
    yield group(sets=[[3, 1]], not_sets=[[], [3], []])
    yield group(1, 3, not_sets=[[]])
    yield group(1, 3, not_sets=[[], [1, 2, 3]])
    yield group(None, None, [TOP - 1, TOP - 2], sets=[[]])


def farthest_values():
    """The value whose size is 2^127, which alone isn't below a least common multiple that is over the limit."""
    over = [TOP - 1, TOP - 2]
    for values in [[-(2**127)], [-(2**127), 0], [LARGEST, -(2**127)], [-(2**127), -LARGEST, TOP]]:
        yield group(sets=[values])
        yield group(None, None, over, sets=[values])
        yield group(None, None, [2**63, 2**63 - 1, 2**62 - 1], sets=[values])
        yield group(None, None, [2**63], [3], [values])
        yield group(None, -1, [2], [2**64 - 1], [values], [[0], [LARGEST]])
        yield group(None, None, [], [2**63], [values])
    yield group(None, None, over, sets=[[-(2**127)], [-(2**127), 0]])


def largest_candidates():
    """As many candidates as may be struck, and then one that is at or over the limit of size."""
    primes = [p for p in range(2, MOST_STRUCK + 1) if all(p % q != 0 for q in range(2, math.isqrt(p) + 1))]
    first = 2**56 - 5
    while any(first % p == 0 for p in primes):
        first += 2
    for most in [LARGEST // MOST_STRUCK, LARGEST // (MOST_STRUCK + 1)]:
        second = most // first
        while any(second % p == 0 for p in primes):
            second -= 1
        # the multiples of m from 2 m to 65,536 m have a prime as a divisor that m hasn't
        yield group(1, None, [first, second], primes, not_sets=[[first * second]])


def many_divisors():
    primes = [p for p in range(2, 800) if all(p % q != 0 for q in range(2, p))]
    for low, high in [(1, None), (None, -1), (2, 800), (2, 640_000), (None, None), (-TOP, None), (None, TOP)]:
        yield group(low, high, [], primes)
        yield group(low, high, [6], [4, 9, 25, *primes[3:]])
        yield group(low, high, [2**32], [2**33, 3 * 2**31, 2**40])
    yield group(2, 640_000, [], primes, not_sets=[[p for p in range(800, 900)]])
    yield group(1, None, [], list(range(2, 1_500)))
    yield group(2, None, [], [2 * k for k in range(1, 1_500)], not_sets=[[k for k in range(3, 200, 2)]])
    yield group(2, None, [], [2, 3, TOP - 1], not_sets=[[(2, 65_537)]])
    yield group(1, 65_536, [], [2], not_sets=[[2 * k + 1 for k in range(2_000)]])
    yield group(None, None, [TOP - 59], [2, 3], not_sets=[[0]])


def small_groups(count):
    chance = random.Random(20_170_415)

    def some(most, low, high):
        return [chance.randint(low, high) for _ in range(chance.randint(0, most))]

    for _ in range(count):
        low = chance.choice([None, chance.randint(-30, 30)])
        high = chance.choice([None, chance.randint(-30, 30)])
        yield group(
            low,
            high,
            some(2, 1, 12),
            some(2, 1, 9),
            [some(6, -20, 20) for _ in range(chance.choice([0, 0, 0, 1, 2]))],
            [some(12, -20, 20) for _ in range(chance.choice([0, 1, 2]))],
        )


def main():
    groups = [
        *first_examples(),
        *bounds_at_the_edge(),
        *wide_multiples(),
        *full_sets(),
        *asked_sets(),
        *blocks_of_values(),
        *empty_sets(),
        *farthest_values(),
        *many_divisors(),
        *largest_candidates(),
        *small_groups(150),
    ]
    with open("stdin", "w") as lines, open("stdout", "w") as answers:
        for g in groups:
            print(written(g), file=lines)
            print(decide(g), file=answers)


main()
