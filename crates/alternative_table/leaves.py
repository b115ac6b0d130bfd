"""What branches at truth values, numbers, strings and arrays give, found slowly."""
import functools
import itertools
import math
import re

from tables import Limit, bounds

MOST_SIZE, MOST_CANDIDATES, MOST_COUNT, MOST_PLANS = 2**127 - 1, 65536, 65536, 65536
# a room without bound
ROOM = 65537
# words that are tried, and their length, before a branch of strings counts as empty
TRIED, LONGEST = 20000, 60


# ---- scalars

def truths(core, held):
    return [truth for truth in (False, True)
            if all(b == truth for b, in core.asked(held, 'boolis', 1))
            and all(b != truth for b, in core.asked(held, 'boolis', -1))]


def multiples(of, low, high):
    """The multiples within the bounds, in the order in which they are tried."""
    if low is None and high is None:
        yield 0
        for k in itertools.count(1):
            yield k * of
            yield -k * of
    elif low is None:
        yield from (k * of for k in itertools.count(high // of, -1))
    else:
        for k in itertools.count(-(-low // of)):
            if high is not None and k * of > high:
                return
            yield k * of


def numbers(core, held):
    """The number that is found, if any."""
    low, high = bounds(core, held, 'nummin', 'nummax')
    divisors = [n for n, in core.asked(held, 'multiple', 1)]
    not_divisors = [n for n, in core.asked(held, 'multiple', -1)]
    sets, not_sets = core.asked(held, 'numin', 1), core.asked(held, 'numin', -1)

    def meets(n):
        return ((low is None or low <= n) and (high is None or n <= high)
                and all(n % d == 0 for d in divisors) and not any(n % d == 0 for d in not_divisors)
                and all(n in s for s in sets) and not any(n in s for s in not_sets))

    found = first_number(low, high, divisors, not_divisors, sets, not_sets, meets)
    near = {0, low or 0, high or 0, *itertools.chain(*sets)}
    assert all(map(meets, found))
    assert found or not any(meets(n + k) for n in near for k in range(-300, 301))
    return found


def first_number(low, high, divisors, not_divisors, sets, not_sets, meets):
    if low is not None and high is not None and low > high:
        return []
    if sets:
        return [n for n in sets[0] if meets(n)][:1]
    of = math.lcm(*divisors)
    if of > MOST_SIZE:
        raise Limit('multiples')
    if any(of % d == 0 for d in not_divisors):
        return []
    struck_numbers = set().union(*not_sets)
    for struck, candidate in enumerate(multiples(of, low, high)):
        if abs(candidate) > MOST_SIZE:
            raise Limit('multiples')
        if struck == MOST_CANDIDATES:
            raise Limit('candidates')
        if candidate not in struck_numbers and all(candidate % d for d in not_divisors):
            return [candidate]
    return []


# ---- words: patterns are such that Python's `re` agrees, once these pieces are put in its spelling

PIECE = re.compile(r'\[\^?\]|\[\^?(?:\\.|[^\]\\])+\]|\\u\{[0-9A-Fa-f]+\}|\\u....|\\x..|\\.|'
                   r'\(\?:|\{\d+(?:,\d*)?\}|.', re.S)
# what reads no character of its own
MARKS = {'(', '(?:', ')', '|', '*', '+', '?', '^', '$'}
SPACES = r'\t-\r \u00a0\u1680\u2000-\u200a\u2028\u2029\u202f\u205f\u3000\ufeff'
PYTHON = {'[]': '(?!)', '[^]': r'[\s\S]', '$': r'\Z', '.': r'[^\n\r\u2028\u2029]', r'\s': '[%s]' % SPACES,
          r'\S': '[^%s]' % SPACES}


def python(piece):
    long = re.sub(r'\\u\{([0-9A-Fa-f]+)\}', lambda found: r'\U%08x' % int(found[1], 16), piece)
    return PYTHON.get(piece, long)


@functools.lru_cache(None)
def compiled(pattern):
    return re.compile(''.join(map(python, PIECE.findall(pattern))), re.ASCII)


def reads(piece):
    return piece not in MARKS and not re.fullmatch(r'\{\d.*\}', piece)


def order(c):
    first = [c.islower(), c.isupper(), c.isdigit(), ' ' <= c <= '~']
    return (first.index(True) if c <= '~' and True in first else len(first)), c


def alphabet(patterns, words):
    """The first character of each class of characters that no set of a pattern and no letter of a word tells apart."""
    sets = sorted({piece for pattern in patterns for piece in PIECE.findall(pattern) if reads(piece)})
    told = {ord(c) for text in sets + words for c in text}
    told |= {int(digits, 16) for s in sets for digits in re.findall(r'\\(?:u\{?|x)([0-9A-Fa-f]+)', s)}
    points = set(range(0x180)) | {0x2028, 0x3000} | {n + d for n in told for d in (0, 1)}
    letters = {c for word in words for c in word}
    classes = {}
    for c in sorted((chr(n) for n in points if n < 0xD800 or n > 0xDFFF), key=order):
        told_by = tuple(bool(compiled(s).fullmatch(c)) for s in sets) + ((c,) if c in letters else ())
        classes.setdefault(told_by, c)
    return list(classes.values())


@functools.lru_cache(None)
def first_word(low, high, found, not_found, listed, not_listed):
    """The first word between these lengths that the patterns and the lists take."""
    words = [word for words in listed + not_listed for word in words]
    letters = alphabet(found + not_found, words)
    tried = 0
    for length in itertools.count(low):
        if high is not None and length > high:
            return None
        for word in map(''.join, itertools.product(letters, repeat=length)):
            if (all(word in words for words in listed) and not any(word in words for words in not_listed)
                    and all(compiled(p).search(word) for p in found)
                    and not any(compiled(p).search(word) for p in not_found)):
                return word
            tried += 1
            if tried > TRIED and length > max(map(len, words), default=0) or length > LONGEST:
                return None


def strings(core, held):
    """The word that is found, if any."""
    low, high = bounds(core, held, 'lengthmin', 'lengthmax')
    low = low or 0
    if high is not None and low > high:
        return []
    patterns = [tuple(p for p, in core.asked(held, 'match', sign)) for sign in (1, -1)]
    lists = [tuple(map(tuple, core.asked(held, 'words', sign))) for sign in (1, -1)]
    word = first_word(low, high, *patterns, *lists)
    return [] if word is None else [word]


# ---- arrays

class Plans:
    """The plans of a branch. A plan is a list of options, one for each demand so far: an index below `prefix`, the
    length of the longest list of items, or the number of an element after them, from `prefix` on."""

    def __init__(self, core, held, low, high):
        self.core, self.low, self.high, self.goals = core, low, high, {}
        self.literals = [(core.positions[p][0], sign, core.positions[p][1]) for p, sign in sorted(held)
                         if core.positions[p][0] in ('items', 'contains')]
        self.prefix = max((len(asked) - 1 for word, _, asked in self.literals if word == 'items'), default=0)
        self.demands = [i for i, (word, sign, _) in enumerate(self.literals)
                        if (word, sign) in (('contains', 1), ('items', -1))]

    def options(self, plan):
        return range(max([self.prefix - 1] + plan) + 2)

    def tail(self, plan):
        """The number of elements after the prefix that serve a demand."""
        return max([self.prefix - 1] + plan) + 1 - self.prefix

    def length(self, plan):
        return max([self.low] + [option + 1 for option in plan])

    def goal(self, place, served):
        """What the element at that place is asked where it serves these demands, as a goal; None for a clash."""
        key = (place, *served)
        if key not in self.goals:
            self.goals[key] = self.goal_anew(place, served)
        return self.goals[key]

    def goal_anew(self, place, served):
        found = []
        for number, (word, sign, asked) in enumerate(self.literals):
            if number in self.demands and number not in served:
                continue
            if word == 'contains':
                found.append((asked[0], sign))
            else:
                rest, *listed = asked
                found.append((listed[place] if place < len(listed) else rest, sign))
        return self.core.form(found)

    def members(self, plan):
        """The elements that stand for themselves, with their goals."""
        places = list(range(min(self.length(plan), self.prefix)))
        places += range(self.prefix, self.prefix + self.tail(plan))
        serving = {}
        for demand, place in zip(self.demands, plan):
            serving.setdefault(place, []).append(demand)
        return [(place, self.goal(place, serving.get(place, []))) for place in places]

    def is_dropped(self, plan):
        if self.high is not None and self.length(plan) > self.high:
            return True
        return any(goal is None for _, goal in self.members(plan))

    def complete(self):
        """The complete plans in order. All lists of options are gone through, but for those that begin like a plan that
        is dropped."""
        found, ends, waiting = [], 0, [[]]
        while waiting:
            plan = waiting.pop()
            dropped = self.is_dropped(plan)
            if dropped or len(plan) == len(self.demands):
                ends += 1
                found += [] if dropped else [plan]
            else:
                waiting += [plan + [option] for option in reversed(self.options(plan))]
            if ends > MOST_PLANS:
                raise Limit('plans')
        if (self.prefix + len(self.demands)) ** len(self.demands) < 3000:
            assert found == self.complete_plainly()
        return found

    def complete_plainly(self):
        """All lists of options in order, without a tree: what is dropped at once is dropped in the end."""
        count = len(self.demands)
        lists = map(list, itertools.product(range(self.prefix + count), repeat=count))
        return [plan for plan in lists
                if all(plan[i] in self.options(plan[:i]) for i in range(count)) and not self.is_dropped(plan)]

    def alternative(self, plan):
        tail = self.tail(plan)
        need = max(self.length(plan) - self.prefix - tail, 0)
        filler = self.goal(self.prefix, []) if need else None
        fillers = [] if filler is None else [(self.prefix + tail, filler, ROOM)]
        return 'list', self.members(plan), need, fillers


def arrays(core, held):
    low, high = bounds(core, held, 'countmin', 'countmax')
    low = low or 0
    if high is not None and low > high:
        return []
    if low > MOST_COUNT:
        raise Limit('counts')
    plans = Plans(core, held, low, high)
    return [plans.alternative(plan) for plan in plans.complete()]
