#!/usr/bin/env python3
"""The cases of this table: writes `stdin` and `stdout` beside it.

A line of `stdin` is a list of atoms, `match` for a pattern, `words` for listed words, `length` for a least length:

    [{"match": "^a+$"}, {"words": ["a", "ab"]}, {"length": 3}]

`stdout` has a block for each: the classes of characters, and the rows with their targets, class by class, and the truth
of each atom. Where there are more than 60 rows or classes it has only their numbers, a sum over all targets, and how
many rows each atom is true in.

All is worked out here from what the words mean, and in another way than the program goes. Nothing is taken on from word
to word: the state of each word is found from the whole word, by all matches of the pattern from every place in it. Rows
are found by a search over words in the order of their first mention. Classes are found by comparing, at the ends of all
ranges, in which sets a character lies. What a pattern says of a word is also asked of Python's own `re`.

Where the words are too long for this, a case comes with its rows by hand, as a rule for all sizes; the rule is compared
with the search at small sizes."""
import itertools
import json
import os
import re

HERE = os.path.dirname(os.path.abspath(__file__))
LAST = 0x10FFFF
MOST_SHOWN = 60
MOST_POSITIONS, MOST_CLASSES, MOST_ROWS = 16384, 1024, 65536


# ---- sets of characters: lists of ranges, rising, without surrogates

def norm(ranges):
    """The same characters as ranges that rise and have gaps between them."""
    parts = []
    for low, high in ranges:
        if low <= 0xDFFF and high >= 0xD800:
            parts += [(low, 0xD7FF), (0xE000, high)]
        else:
            parts.append((low, high))
    found = []
    for low, high in sorted(part for part in parts if part[0] <= part[1]):
        if found and low <= found[-1][1] + 1:
            found[-1] = (found[-1][0], max(high, found[-1][1]))
        else:
            found.append((low, high))
    return tuple(found)


def others(ranges):
    found, at = [], 0
    for low, high in norm(ranges):
        found.append((at, low - 1))
        at = high + 1
    return norm(found + [(at, LAST)])


def has(ranges, c):
    return any(low <= c <= high for low, high in ranges)


def letters(text):
    return [(ord(c), ord(c)) for c in text]


DIGIT = norm([(0x30, 0x39)])
WORD = norm([(0x41, 0x5A), (0x61, 0x7A), (0x30, 0x39), (0x5F, 0x5F)])
SPACE = norm([(9, 13), (0x20, 0x20), (0xA0, 0xA0), (0x1680, 0x1680), (0x2000, 0x200A), (0x2028, 0x2029),
              (0x202F, 0x202F), (0x205F, 0x205F), (0x3000, 0x3000), (0xFEFF, 0xFEFF)])
DOT = others(letters('\n\r\u2028\u2029'))
CLASS_ESCAPES = {'d': DIGIT, 'w': WORD, 's': SPACE, 'D': others(DIGIT), 'W': others(WORD), 'S': others(SPACE)}
CONTROLS = {'t': 9, 'n': 10, 'v': 11, 'f': 12, 'r': 13, '0': 0}


# ---- patterns: only those without a fault are read

class Pattern:
    """Reads a pattern into a tree of tuples."""

    def __init__(self, text):
        self.text, self.at = text, 0
        self.tree = self.alternatives()
        assert self.at == len(text), text

    def seen(self, mark):
        if self.text.startswith(mark, self.at):
            self.at += len(mark)
            return True
        return False

    def alternatives(self):
        found = [self.terms()]
        while self.seen('|'):
            found.append(self.terms())
        return found[0] if len(found) == 1 else ('alt', found)

    def terms(self):
        found = []
        while self.at < len(self.text) and self.text[self.at] not in '|)':
            found.append(self.term())
        return found[0] if len(found) == 1 else ('seq', found)

    def term(self):
        if self.seen('^'):
            return ('start',)
        if self.seen('$'):
            return ('end',)
        atom = self.atom()
        counts = self.quantifier()
        return atom if counts is None else ('repeat', atom) + counts

    def quantifier(self):
        found = re.compile(r'(?:([*+?])|\{([0-9]+)(?:(,)([0-9]*))?\})\??').match(self.text, self.at)
        if not found:
            return None
        self.at = found.end()
        mark, low, comma, high = found.groups()
        if mark:
            return {'*': (0, None), '+': (1, None), '?': (0, 1)}[mark]
        low = int(low)
        return (low, (int(high) if high else None) if comma else low)

    def atom(self):
        if self.seen('('):
            assert not self.text.startswith('?', self.at) or self.seen('?:')
            tree = self.alternatives()
            assert self.seen(')')
            return tree
        if self.seen('.'):
            return ('set', DOT)
        if self.seen('['):
            return ('set', self.members())
        return ('set', self.one())

    def one(self):
        """The set of an escape or of a character that stands for itself."""
        if self.text[self.at] == '\\':
            self.at += 1
            return self.escape()
        self.at += 1
        return norm(letters(self.text[self.at - 1]))

    def escape(self):
        mark = self.text[self.at]
        self.at += 1
        if mark in CLASS_ESCAPES:
            return CLASS_ESCAPES[mark]
        if mark in CONTROLS:
            return norm([(CONTROLS[mark],) * 2])
        if mark in 'xu':
            return norm([(self.code(mark),) * 2])
        assert not mark.isalnum()
        return norm(letters(mark))

    def code(self, mark):
        if mark == 'u' and self.seen('{'):
            end = self.text.index('}', self.at)
            digits, self.at = self.text[self.at:end], end + 1
            return int(digits, 16)
        width = 2 if mark == 'x' else 4
        found = int(self.text[self.at:self.at + width], 16)
        self.at += width
        if 0xD800 <= found <= 0xDBFF:
            assert self.seen('\\u')
            low = int(self.text[self.at:self.at + 4], 16)
            self.at += 4
            found = 0x10000 + ((found - 0xD800) << 10) + (low - 0xDC00)
        return found

    def members(self):
        negated = self.seen('^')
        found = []
        while not self.seen(']'):
            low = self.one()
            if self.text[self.at] == '-' and self.text[self.at + 1] != ']':
                self.at += 1
                high = self.one()
                assert len(low) == len(high) == 1 and low[0][0] == low[0][1] <= high[0][0] == high[0][1]
                low = norm([(low[0][0], high[0][0])])
            found += low
        return others(found) if negated else norm(found)


def copies(low, high):
    return max(low, 1) if high is None else high


def count(tree):
    """The number of positions."""
    kind = tree[0]
    if kind == 'set':
        return 1
    if kind in ('seq', 'alt'):
        return sum(count(t) for t in tree[1])
    return copies(tree[2], tree[3]) * count(tree[1]) if kind == 'repeat' else 0


def leaves(tree):
    """The sets of all positions, each once."""
    kind = tree[0]
    if kind == 'set':
        return {tree[1]}
    if kind in ('seq', 'alt'):
        return set().union(*(leaves(t) for t in tree[1]))
    return leaves(tree[1]) if kind == 'repeat' and copies(tree[2], tree[3]) else set()


class Matches:
    """All matches of the parts of a tree in one word. The end assertion holds at the end of the word, or never."""

    def __init__(self, word, end):
        self.word, self.end, self.known, self.read = word, end, {}, {}

    def ends(self, tree, i):
        """Where matches end that begin at i."""
        key = (id(tree), i)
        if key not in self.known:
            self.known[key] = self.find(tree, i)
        return self.known[key]

    def find(self, tree, i):
        kind = tree[0]
        if kind == 'set':
            return {i + 1} if i < len(self.word) and has(tree[1], self.word[i]) else set()
        if kind == 'start':
            return {i} if i == 0 else set()
        if kind == 'end':
            return {i} if self.end and i == len(self.word) else set()
        if kind == 'alt':
            return set().union(*(self.ends(t, i) for t in tree[1]))
        places = {i}
        if kind == 'seq':
            for t in tree[1]:
                places = self.after(t, places)
            return places
        _, t, low, high = tree
        for _ in range(low):
            if not places:
                return places
            places = self.after(t, places)
        if high is None:
            return self.closed(t, places)
        found = set(places)
        for _ in range(low, high):
            if not places:
                break
            places = self.after(t, places)
            found |= places
        return found

    def after(self, tree, places):
        return set().union(*(self.ends(tree, i) for i in places))

    def closed(self, tree, places):
        """Where any number of matches end, one after another, that begin at one of the places."""
        found, new = set(places), places
        while new:
            new = self.after(tree, new) - found
            found |= new
        return found

    def last(self, tree, first, i):
        """The positions, numbered from `first`, that read the last character of the word in a match that began at i
        and has come so far, complete or not."""
        key = (id(tree), first, i)
        if key not in self.read:
            self.read[key] = self.find_last(tree, first, i)
        return self.read[key]

    def find_last(self, tree, first, i):
        kind, found = tree[0], set()
        if kind == 'set':
            return {first} if i == len(self.word) - 1 and has(tree[1], self.word[i]) else found
        if kind == 'alt':
            for t in tree[1]:
                found |= self.last(t, first, i)
                first += count(t)
        if kind == 'seq':
            places = {i}
            for t in tree[1]:
                found = found.union(*(self.last(t, first, j) for j in places))
                first += count(t)
                places = self.after(t, places)
        if kind == 'repeat':
            _, t, low, high = tree
            places, most = {i}, copies(low, high)
            for piece in range(most):
                if not places:
                    break
                if piece == most - 1 and high is None:
                    places = self.closed(t, places)
                found = found.union(*(self.last(t, first + piece * count(t), j) for j in places))
                places = self.after(t, places)
        return found


# ---- atoms, classes, states

class Match:
    def __init__(self, text):
        self.shown, self.tree, self.least = {'match': text}, Pattern(text).tree, 0
        self.sets = leaves(self.tree)
        self.positions = count(self.tree)
        self.other = re.compile(as_python(self.tree)) if self.positions <= MOST_POSITIONS else None

    def state(self, word):
        places = range(len(word) + 1)
        open_matches = Matches(word, False)
        if any(open_matches.ends(self.tree, i) for i in places):
            return 'done'
        return frozenset().union(*(open_matches.last(self.tree, 0, i) for i in places))

    def truth(self, word):
        matches = Matches(word, True)
        found = any(matches.ends(self.tree, i) for i in range(len(word) + 1))
        assert found == bool(self.other.search(''.join(map(chr, word)))), (self.shown, word)
        return found


class Words:
    def __init__(self, words):
        self.shown, self.least, self.positions = {'words': list(words)}, 0, 0
        self.words = [tuple(map(ord, word)) for word in words]
        self.sets = {((c, c),) for word in self.words for c in word}
        self.prefixes = {}
        for word in self.words:
            for n in range(len(word) + 1):
                self.prefixes.setdefault(word[:n], []).append(word)

    def state(self, word):
        begun = self.prefixes.get(word)
        return (tuple(begun), len(word)) if begun else None

    def truth(self, word):
        return word in self.words


class Length:
    def __init__(self, least):
        self.shown, self.least, self.sets, self.positions = {'length': least}, least, set(), 0

    def state(self, word):
        return None

    def truth(self, word):
        return len(word) >= self.least


def as_python(tree):
    """A pattern of Python's `re` with the same matches."""
    kind = tree[0]
    if kind == 'set':
        return '[%s]' % ''.join('\\U%08x-\\U%08x' % r for r in tree[1]) if tree[1] else '(?!)'
    if kind in ('start', 'end'):
        return {'start': r'\A', 'end': r'\Z'}[kind]
    if kind in ('seq', 'alt'):
        return '(?:%s)' % {'seq': '', 'alt': '|'}[kind].join(map(as_python, tree[1]))
    _, t, low, high = tree
    return '(?:%s){%d,%s}' % (as_python(t), low, '' if high is None else high)


ASCII_FIRST = 'abcdefghijklmnopqrstuvwxyzABCDEFGHIJKLMNOPQRSTUVWXYZ0123456789'
RANK = {ord(c): i for i, c in enumerate(ASCII_FIRST)}


def order(c):
    """Letters come first, then digits, the other printable characters of ASCII, and the rest by number."""
    return (0, RANK[c]) if c in RANK else (1, c) if 0x20 <= c <= 0x7E else (2, c)


def first_of(ranges):
    return min((order(c), c) for low, high in ranges for c in (range(low, high + 1) if low <= 0x7E else [low]))[1]


def classes_of(atoms):
    """Pairs of a class's first character and its ranges, in order."""
    sets = sorted(set().union(*(atom.sets for atom in atoms)))
    cuts = sorted({0, 0xE000} | {c for ranges in sets for low, high in ranges for c in (low, high + 1)})
    opened = {}
    for i, ranges in enumerate(sets):
        for low, high in ranges:
            opened.setdefault(low, []).append(i)
            opened.setdefault(high + 1, []).append(i)
    found, inside = {}, set()
    for low, after in zip(cuts, cuts[1:] + [LAST + 1]):
        inside ^= set(opened.get(low, []))
        if low <= LAST:
            found.setdefault(frozenset(inside), []).append((low, after - 1))
    found = [norm(ranges) for ranges in found.values()]
    return sorted(((first_of(ranges), ranges) for ranges in found if ranges), key=lambda found: order(found[0]))


def state_of(atoms, word):
    return (not word, tuple(atom.state(word) for atom in atoms), min(len(word), max([0] + [a.least for a in atoms])))


def build(atoms, classes):
    """The rows, by a search over words: pairs of targets and truths. None where there are too many."""
    words, numbers, rows = [()], {state_of(atoms, ()): 0}, []
    for word in words:
        targets = []
        for first, _ in classes:
            longer = word + (first,)
            state = state_of(atoms, longer)
            if state not in numbers:
                numbers[state] = len(words)
                words.append(longer)
            targets.append(numbers[state])
        if len(words) > MOST_ROWS:
            return None
        rows.append((targets, [atom.truth(word) for atom in atoms]))
    return rows


def block(number, atoms, known=None):
    """What the program writes for these atoms. `known` are the rows, where they stand by hand."""
    if sum(atom.positions for atom in atoms) > MOST_POSITIONS:
        return '%d: limit positions\n' % number
    classes = classes_of(atoms)
    if len(classes) > MOST_CLASSES:
        return '%d: limit classes\n' % number
    rows = build(atoms, classes) if known is None else list(itertools.islice(known, MOST_ROWS + 1))
    if rows is None or len(rows) > MOST_ROWS:
        return '%d: limit states\n' % number
    lines = ['%d: classes %d rows %d' % (number, len(classes), len(rows))]
    if max(len(classes), len(rows)) > MOST_SHOWN:
        total = 0
        for target in itertools.chain.from_iterable(targets for targets, _ in rows):
            total = (total * 31 + target) % 2**32
        lines.append('sum %d' % total)
        lines += ['true in %d' % sum(truths[a] for _, truths in rows) for a in range(len(atoms))]
    else:
        lines += ['[%s]' % ','.join('%x' % r[0] if r[0] == r[1] else '%x-%x' % r for r in ranges)
                  for _, ranges in classes]
        lines += ['%s |%s' % (' '.join(map(str, targets)), ''.join(' %d' % truth for truth in truths))
                  for targets, truths in rows]
    return '\n'.join(lines) + '\n'


# ---- rows by hand, for all sizes

def rows_of_length(n):
    """Of a least length n from 1 on: a row for each length up to n."""
    return (([min(i + 1, n)], [i >= n]) for i in range(n + 1))


def rows_of_run(n):
    """Of the pattern `a{n}`, n from 2 on: the empty word, one a, no a at the end of a word that isn't empty, two a's
    and so on up to n, where the pattern is found. The classes are a and the rest."""
    rows = [([1, 2], [False]), ([3, 2], [False]), ([1, 2], [False])]
    rows += [([k + 2, 2], [False]) for k in range(2, n)]
    return rows + [([n + 1, n + 1], [True])]


def rows_of_word(n):
    """Of the listed word of n times the letter a, n from 1 on: row 0; 1 for one a, 2 for words that begin none, then
    two a's and so on up to n."""
    row = [0, 1] + list(range(3, n + 2))
    rows = [([row[k + 1] if k < n else 2, 2], [k == n]) for k in range(n + 1)]
    return rows[:2] + [([2, 2], [False])] + rows[2:]


def rows_of_starts(n):
    """Of the patterns `^a` and `^b` and a least length n from 1 on: row 0, and three rows for each length up to n, by
    the first letter: a, b, and the rest, which are the three classes."""
    rows = [([1, 2, 3], [False, False, False])]
    for length in range(1, n + 1):
        for letter in range(3):
            targets = [3 * min(length, n - 1) + letter + 1] * 3
            rows.append((targets, [letter == 0, letter == 1, length == n]))
    return rows


def rows_of_letters(n):
    """Of n listed words of one letter each, which are the classes from 1 on: row 0, row 1 for words that begin none,
    and a row for each letter."""
    return ([([1] + list(range(2, n + 2)), [False]), ([1] * (n + 1), [False])]
            + [([1] * (n + 1), [True]) for _ in range(n)])


def rows_of_window(n):
    """Of the pattern `a[ab]{n}$`, n from 1 on: which of the last n + 1 letters were a, as binary digits, since the last
    that is neither a nor b. Row 0 stands apart. The classes are a, b and the rest."""
    sets, numbers, rows = [None, 1, 0], {1: 1, 0: 2}, []
    for found in sets:
        targets = []
        for longer in ((2 * (found or 0) + 1) % 2**(n + 1), 2 * (found or 0) % 2**(n + 1), 0):
            if longer not in numbers:
                numbers[longer] = len(sets)
                sets.append(longer)
            targets.append(numbers[longer])
        rows.append((targets, [(found or 0) >= 2**n]))
    return rows


def m(pattern):
    return Match(pattern)


def w(*words):
    return Words(words)


def n(least):
    return Length(least)


def some_letters(count):
    """That many words of one letter each, from U+0100 on."""
    return [chr(0x100 + i) for i in range(count)]


def some_names(count):
    """That many names of five to eight letters, of which many begin alike."""
    found, state = [], 1
    while len(found) < count:
        name = ''
        for _ in range(5 + state % 4):
            state = (state * 1103515245 + 12345) % 2**31
            name += 'abcdefghklmnoprst'[(state >> 16) % (3 if len(name) < 4 else 17)]
        found += [name] if name not in found else []
    return found


def digit_sets():
    """For each of ten places the set of the characters from U+0400 on that have the binary digit 1 there. They tell
    1,024 classes apart."""
    found = []
    for place in range(10):
        ranges = norm(letters(chr(0x400 + x) for x in range(1024) if x >> place & 1))
        found.append('[%s]' % ''.join('%c-%c' % r for r in ranges))
    return found


BY_HAND = [
    (rows_of_length, lambda k: [n(k)], range(1, 6), [65535, 65536, 2**64 - 1]),
    (rows_of_run, lambda k: [m('a{%d}' % k)], range(2, 7), [400, 16384]),
    (rows_of_word, lambda k: [w('a' * k)], range(1, 6), [5000]),
    (rows_of_starts, lambda k: [m('^a'), m('^b'), n(k)], range(1, 6), [21845, 21846]),
    (rows_of_window, lambda k: [m('a[ab]{%d}$' % k)], range(1, 6), [13, 15]),
    (rows_of_letters, lambda k: [w(*some_letters(k))], range(1, 6), [1023]),
]

# what was worked out by hand: targets, or the number of rows
WORKED = [
    ([m('^a+$')], ['1 2', '1 2', '2 2']),
    ([w('next')], ['1 1 2 1 1', '1 1 1 1 1', '1 3 1 1 1', '1 1 1 1 4', '1 1 1 5 1', '1 1 1 1 1']),
    ([w('a', 'b')], ['1 2 3', '3 3 3', '3 3 3', '3 3 3']),
    ([m('a{0,2}b')], 5),
]

CASES = [
    # nothing to tell
    [],
    [n(0)],
    [n(1)],
    [n(0), n(1)],
    [n(3), n(1), n(3)],
    [m('')],
    [m('|')],
    [m('(?:)')],
    [m('()*')],
    [w()],
    [w('')],
    [w(), m('[]')],
    # single characters and sets
    [m('a')],
    [m('^a$')],
    [m('z')],
    [m('A')],
    [m('0')],
    [m(' ')],
    [m('~')],
    [m('.')],
    [m('^.$')],
    [m('^.*$')],
    [m('[^]')],
    [m('^[^]$')],
    [m('[]')],
    [m('[^a]')],
    [m('^[^a-z]+$')],
    [m('a[]')],
    [m('a[]|b')],
    [m(r'\d')],
    [m(r'^\w+$')],
    [m(r'^\s*$')],
    [m(r'^\S+\s\S+$')],
    [m(r'^\D\W$')],
    [m(r'[\d\-x]'), m(r'^[\w-]$')],
    [m('[a-m][h-z]')],
    [m('[a-m]'), m('[h-z]'), m('[k-p]')],
    [m('[^a-m]|[h-z]')],
    [m(r'\t|\n|\v|\f|\r|\0')],
    [m(r'^\x41\u0042\u{43}$')],
    [m('é'), m('[à-ÿ]')],
    [m('\U0001F600')],
    [m(r'^\uD83D\uDE00$')],
    [m('[\U00010000-\U0010FFFF]')],
    [m('[\ud7ff\ue000]')],
    [m('[\u0000-\U0010FFFF]')],
    [m('{'), m('}]')],
    [m('a{,2}')],
    # assertions in every place
    [m('^')],
    [m('$')],
    [m('^$')],
    [m('$^')],
    [m('^^a')],
    [m('a^')],
    [m('a^b')],
    [m('$a')],
    [m('a$')],
    [m('a$b')],
    [m('a$b|c')],
    [m('(?:$|a)b')],
    [m('(?:^|a)b')],
    [m('a(?:$|b)')],
    [m('^a|b$')],
    [m('(?:^a|b)$')],
    [m('^(?:a|b$)c?')],
    [m('a?$b?')],
    [m('a*^b')],
    [m('(?:a|^)*b$')],
    [m('(?:^a){2}')],
    [m('(?:a$){2}')],
    [m('(?:^a?){2}b')],
    [m('(?:a?$){2}')],
    [m('(?:$)*a')],
    [m('(?:^)+a')],
    [m('(?:(?:^|a)(?:b|$))+')],
    # alternatives
    [m('a|')],
    [m('a||b')],
    [m('^(?:a|)b$')],
    [m('^(?:|a)(?:b|)$')],
    [m('ab|ac')],
    [m('^(?:ab|a)(?:c|bcd)$')],
    [m('a|b|c'), m('b|c|d')],
    # repeats
    [m('a{0}')],
    [m('a{0}b')],
    [m('^a{0}$')],
    [m('(?:a{0}){3}b')],
    [m('(?:ab){0,}c')],
    [m('a{1}')],
    [m('a{3}')],
    [m('^a{3}$')],
    [m('a{2,}$')],
    [m('^a{2,}b')],
    [m('a{0,2}b')],
    [m('^a{0,2}b')],
    [m('^a{0,2}$')],
    [m('^a{1,3}$')],
    [m('a{1,3}b')],
    [m('^a{0,}$')],
    [m('^a{1,}b?$')],
    [m('a??b')],
    [m('a+?$')],
    [m('^a*?b$')],
    [m('^a{2,3}?$')],
    [m('^(?:a?){2}b')],
    [m('^(?:a?){0,2}b')],
    [m('^(?:a?){2,}b$')],
    [m('^(?:a*){3}$')],
    [m('^(?:a|b?){1,2}c$')],
    [m('^(?:a{2}){2}$')],
    [m('^(?:a{1,2}){1,2}$')],
    [m('^(?:a{0,2}b){0,2}$')],
    [m('^(?:(?:ab){2}c?){2}$')],
    [m('^(?:(?:a*b){2,}c)*$')],
    [m('(?:a+|b+)*c')],
    [m('(?:(?:a?){2}){2}b')],
    [m('^(?:ab?){3}')],
    [m('(?:^a|b){0,2}c')],
    [m(r'\d{3}-\d{4}')],
    [m(r'^\d{3}-\d{4}$')],
    [m('^(?:[a-c][b-d]){2}$')],
    # words
    [w('a')],
    [w('next')],
    [w('a', 'b')],
    [w('b', 'a')],
    [w('a', 'a')],
    [w('a', 'ab', 'abc')],
    [w('abc', 'ab', 'a')],
    [w('', 'a')],
    [w('a', '')],
    [w('ab', 'ba')],
    [w('ab', 'cb')],
    [w('aa', 'ab', 'ba', 'bb')],
    [w('aaa', 'aa')],
    [w('\U0001F600', '\U0001F601\U0001F600')],
    [w('\U0010FFFF', '\u0000', '\ue000')],
    [w('é', 'e')],
    [w('Z', '9', '~', '\x7f')],
    [w('ab'), w('ac')],
    [w('ab'), w('ab', 'ac')],
    [w('a', 'b'), w('b', 'a')],
    # several atoms
    [m('a'), m('a')],
    [m('a'), m('b')],
    [m('b'), m('a')],
    [m('^a'), m('b$')],
    [m('b$'), m('^a')],
    [m('^a'), n(3)],
    [n(3), m('^a')],
    [m('^a*$'), n(2)],
    [w('ab'), n(1)],
    [w('ab'), n(3)],
    [n(2), w('ab'), n(1)],
    [w('a'), m('^a+$')],
    [m('^a+$'), w('a')],
    [m('^[ab]+$'), w('a', 'ab'), n(3)],
    [n(3), w('ab', 'a'), m('^[ab]+$')],
    [m('^a'), m('^b'), w('a'), w('b'), n(1), n(2)],
    [m('a'), m('a'), w('a'), w('a'), n(1), n(1)],
    [m('^x-'), w('x-a', 'name'), n(2)],
    [m('^[a-z][a-z0-9]*$'), m('^.{0,3}$'), w('id', 'if')],
    [m('^$'), w(''), n(1)],
    [m('$'), m('^'), w('')],
    [m('[]'), w('a')],
    [m('a{0}'), w('a'), n(0)],
    # shown by their numbers alone
    [m('a[ab]{6}$')],
    [m('^(?:a|b)*a(?:a|b){7}$')],
    [m('a[ab]{6}$'), m('^(?:aa|b)*$')],
    [m('(?:ab|ba){3}'), w('abab', 'baba'), n(9)],
    [m('^(?:a{0,9}b){0,9}$')],
    [w('constraint', 'contains', 'content', 'const', 'consul'), n(12)],
    [w(''.join(map(chr, range(0x4e00, 0x4e40)))), m('[\u4e00-\u4e1f]$')],
    # a list of one word for each of some names, as objects have them
    [w('a'), w('a')],
    [w('ab'), w('abc'), w('b'), w('')],
    [w('ab', 'ac'), w('ac'), w('bc', 'ab', 'ab'), w()],
    [w('ba'), m('a$'), w('bb'), n(2), w('ba', 'b')],
    [m('^a'), w('ab'), m('b'), w('aab')],
    [w(name) for name in some_names(40)],
    [w(name) for name in some_names(150)],
    [w(*some_names(150)[:90])] + [w(name) for name in some_names(150)[60:]] + [m('^[a-m]'), n(3)],
    # the limit on positions
    [m('[]a{16383}')],
    [m('[]a{16384}')],
    [m('[]a{8191}'), m('[]b{8191}')],
    [m('[]a{8191}'), w('a'), m('[]b{8192}')],
    [m('(?:a{16384}){2}')],
    [m('^(?:[](?:a{127}){129}){0,1}b?')],
    [m('[](?:a{0,127}){129}|$')],
    [m('[](?:a{128,}){128,}')],
    [m('(?:(?:(?:(?:(?:a{16384}){16384}){16384}){16384}){16384}){16384}')],
    [m('(?:(?:(?:(?:(?:a{16384}){16384}){16384}){16384}){16384}){0}b')],
    # the limit on classes
    [m('^%s$' % ''.join(digit_sets()))],
    [m('^%s$' % ''.join(digit_sets())), w('b', '\u0400')],
    [m('^%s$|b' % ''.join(digit_sets()))],
    [m('^(?:%s)' % '|'.join(some_letters(100)[:60])), m('^(?:%s)' % '|'.join(some_letters(100)[40:]))],
    [w(*some_letters(1024))],
    [w(''.join(some_letters(1024)))],
    # several limits
    [m('[]a{16384}'), w(*some_letters(1024)), n(65536)],
    [w(*some_letters(1024)), n(65536)],
]


# lines without atoms
FAULTY = [
    ('', 'no atoms'),
    ('[', 'no atoms'),
    ('{"match": "a"}', 'no atoms'),
    ('[{}]', 'no atoms'),
    ('["a"]', 'no atoms'),
    ('[{"length": -1}]', 'no atoms'),
    ('[{"words": ["a", 1]}]', 'no atoms'),
    ('[{"match": "a"}, {"match": "(a"}]', 'no pattern'),
]


def main():
    for atoms, wanted in WORKED:
        rows = build(atoms, classes_of(atoms))
        found = [' '.join(map(str, targets)) for targets, _ in rows]
        assert wanted in (found, len(found)), wanted
    cases = [(atoms, None) for atoms in CASES]
    for rule, atoms_of, small, sizes in BY_HAND:
        for size in small:
            assert list(rule(size)) == build(atoms_of(size), classes_of(atoms_of(size))), (rule, size)
        cases += [(atoms_of(size), rule(size)) for size in sizes]
    with open(os.path.join(HERE, 'stdin'), 'w', encoding='utf-8') as stdin:
        for atoms, _ in cases:
            stdin.write(json.dumps([atom.shown for atom in atoms]) + '\n')
        for line, _ in FAULTY:
            stdin.write(line + '\n')
    with open(os.path.join(HERE, 'stdout'), 'w', encoding='utf-8') as stdout:
        for i, (atoms, known) in enumerate(cases):
            stdout.write(block(i + 1, atoms, known))
        for i, (_, answer) in enumerate(FAULTY):
            stdout.write('%d: %s\n' % (len(cases) + i + 1, answer))


if __name__ == '__main__':
    main()
