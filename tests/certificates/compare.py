#!/usr/bin/env python3
"""Compares the verdicts of `certificate_table` with those of `judge.py`: compare.py PROGRAM [--pairs N] [--seed N].

First on every change of the certificates of `pairs.py`, then on so many pairs of schemas by chance, of those that have
a certificate, each with some changes, most of them behind the first line of a leaf. Differences are listed, and the
last line counts them; the one before it counts cases by the rule that is broken. Pairs that take long here are left
out."""
import argparse
import random
import signal
import subprocess
import sys

from cases import Case, Unrolled, all_changes, changed_bytes, changed_lines, other_lines
from definitions import Core, Limit, schemas
from judge import shown
from pairs import NONE, PAIRS, at, no
from printer import certificate

LEAVES = ('string', 'array', 'object')
# changes of a pair's certificate, and the seconds that it may take to be made
CHANGES, SECONDS, LONGEST = 80, 5, 400


class TooSlow(Exception):
    pass


def stop(*_):
    raise TooSlow


class Pairs:
    """Pairs of schemas by chance, of which many have no document between them."""

    def __init__(self, seed):
        self.random = random.Random(seed)
        self.plain, self.objects = schemas.Chooser(seed), schemas.ObjectChooser(seed)

    def pair(self):
        return self.random.choice([self.any_kind, self.strings, self.arrays, self.members, self.members])()

    def any_kind(self):
        return self.plain.root(), self.random.choice([NONE, self.plain.root()])

    def strings(self):
        parts = [self.plain.string() for _ in range(self.random.randint(1, 3))]
        parts += [no(**self.plain.string()) for _ in range(self.random.randint(0, 2))]
        return at('string', allOf=parts), self.random.choice([NONE, self.plain.string()])

    def values(self):
        return {'definitions': {name: self.random.choice([{'type': 'null'}, self.plain.number(), self.plain.string(),
                                                          {'enum': []}]) for name in 'abc'}}

    def value(self):
        return self.random.choice([{'$ref': '#/definitions/' + self.random.choice('abc')}, {'type': 'null'}, NONE,
                                   at('string', maxLength=1), at('integer')])

    def arrays(self):
        parts = [self.random.choice([{'contains': self.value()}, no(items=self.value()), {'items': self.value()}, {
            'items': [self.value(), self.value()], 'additionalItems': self.value()}, no(contains=self.value())])
            for _ in range(self.random.randint(1, 4))]
        counts = {'minItems': self.random.randint(0, 3), 'maxItems': self.random.randint(1, 4)}
        return at('array', allOf=parts, **counts, **self.values()), NONE

    def members(self):
        parts = [self.objects.object(self.random.randint(0, 1)) for _ in range(self.random.randint(1, 2))]
        parts += [no(**{self.random.choice(['patternProperties', 'properties']): {
            self.random.choice(['a', 'b', '^a']): self.value()}}) for _ in range(self.random.randint(0, 2))]
        counts = {'minProperties': self.random.randint(0, 3), 'maxProperties': self.random.randint(0, 3)}
        names = [{}, {'propertyNames': {'enum': ['a', 'b']}}, {'propertyNames': {'pattern': '^[ab]?$'}}]
        return at('object', allOf=parts, **counts, **self.random.choice(names), **self.values()), NONE


def changes(pairs, lines, core):
    """Some changes of a certificate."""
    first = next((i for i, line in enumerate(lines) if line.split(' ')[0] in LEAVES), len(lines))
    found = [*changed_lines(lines, pairs.random.randrange(7)), *other_lines(lines)]
    inner = [(name, changed) for name, changed in found if changed[:first + 1] == lines[:first + 1]]
    some = pairs.random.sample(inner, min(CHANGES, len(inner)))
    some += pairs.random.sample(found, min(CHANGES // 8, len(found)))
    texts = [(name, '\n'.join(changed) + '\n') for name, changed in some]
    more = list(changed_bytes(lines))
    texts += pairs.random.sample(more, min(CHANGES // 16, len(more)))
    return texts + [('as it is', '\n'.join(lines) + '\n'), ('unrolled', '\n'.join(certificate(core, Unrolled)) + '\n')]


def by_chance(pairs):
    """The cases of a pair; none where there is a document, or it takes long."""
    pair = pairs.pair()
    signal.alarm(SECONDS)
    try:
        core = Core(*pair)
        lines = certificate(core)
        if len(lines) > LONGEST:
            return []
        return [Case(pair, name, [text], core) for name, text in changes(pairs, lines, core)]
    except (AssertionError, TooSlow, Limit):
        return []
    finally:
        signal.alarm(0)


def differing(program, cases):
    text = ''.join(case.line() + '\n' for case in cases)
    answers = subprocess.run([program], input=text, capture_output=True, text=True, check=True).stdout.splitlines()
    for case, told in zip(cases, answers, strict=True):
        if told != shown(case.verdict):
            yield '%s; here %s: %s: %s' % (told, shown(case.verdict), case.name, case.line())


def main():
    options = argparse.ArgumentParser()
    options.add_argument('program')
    options.add_argument('--pairs', type=int, default=300)
    options.add_argument('--seed', type=int, default=1)
    options = options.parse_args()
    signal.signal(signal.SIGALRM, stop)
    cases = list(all_changes({name: certificate(Core(*pair)) for name, pair in PAIRS.items()}))
    pairs, count = Pairs(options.seed), 0
    while count < options.pairs:
        found = by_chance(pairs)
        count += bool(found)
        cases += found
    differ = list(differing(options.program, cases))
    rules = {}
    for case in cases:
        rules[case.key[0]] = rules.get(case.key[0], 0) + 1
    print(*differ, sep='\n', end='\n' if differ else '')
    print(' '.join('%d:%d' % count for count in sorted(rules.items())))
    print('%d cases, %d differ' % (len(cases), len(differ)))
    sys.exit(bool(differ))


if __name__ == '__main__':
    main()
