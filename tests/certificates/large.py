#!/usr/bin/env python3
"""Large certificates, and ones that are to wear the checker out: large.py FOLDER writes for each NAME the files
NAME.first, NAME.second and NAME.certificate, and `verdicts` with a line for each: the name and the verdict.

Their lines come by rules for all sizes. At small sizes `large.py` alone compares the rules with what `printer.py`
prints and `judge.py` says; so the verdict on a large one is that on a small one of the same form."""
import itertools
import json
import os
import sys

from definitions import KINDS, ArrayPlans, Core
from judge import LONGEST, verdict
from pairs import NONE, NULL, at
from printer import Printer, certificate


def letters(count):
    return ''.join(chr(0x100 + i) for i in range(count))


def lines_of(texts):
    return ''.join(text + '\n' for text in texts)


# ---- many entries and wide rows

def chain(count, wide, most):
    """So many objects, each with the next as a member, and then a string, of which there is none. All words have as
    many classes as `wide` and a few more; the string's rows are as many as lengths up to `most`."""
    def ref(name):
        return {'$ref': '#/definitions/' + name}

    inner = {'d%d' % i: at('object', required=['l'], properties={'l': ref('d%d' % (i + 1))}, allOf=[ref('w')])
             for i in range(count)}
    last = at('string', minLength=most, maxLength=most, pattern='[]' + letters(wide))
    return {**ref('d0'), 'definitions': {**inner, 'd%d' % count: last,
                                         'w': {'patternProperties': {'[]' + letters(wide): True}}}}, NONE


def chain_lines(count, wide, most):
    """Entries are: the root, the first object, its part of all, the shared schema, its value, its member; then three
    for each object, and the string. Nodes are four for each object and the string, and one for the shared schema."""
    entries, shared = 3 * count + 4, 3
    places = [1] + [3 * i + 3 for i in range(1, count + 1)]
    nodes = [entries] + [entries + 4 * i + 1 for i in range(1, count + 1)]
    yield 'certificate 1'
    yield 'goals %d' % (count + 1)
    yield from ('goal +%d' % place for place in places)
    for i, (place, node) in enumerate(zip(places, nodes)):
        yield 'entry %d' % i
        for kind in KINDS:
            yield 'at ' + kind
            yield 'rule +%d' % place
            if kind != ('object' if i < count else 'string'):
                yield 'kind +%d' % node
            elif i < count:
                yield from ('rule +%d' % p for p in (node + 3, place + 1, shared))
                yield 'object 3 1'
                yield 'row 1 2' + ' 1' * wide
                yield from ['row 1 1' + ' 1' * wide] * 2
                yield from ['cap 1 1 0 1', 'split', 'member 0 goal %d' % (i + 1)]
            else:
                yield from string_lines(wide, most)
    yield 'end'


def string_lines(wide, most):
    yield 'string %d' % (most + 1)
    for row in range(most + 1):
        yield 'row' + ' %d' % min(row + 1, most) * (wide + 1)
    yield 'least ' + ' '.join(map(str, range(most + 1)))


def of_kind(kind, middle):
    """The lines of one goal, `+0`, whose schema has no schema below it, so that position 1 is its type. Only the tree
    at that kind has other lines."""
    found = ['certificate 1', 'goals 1', 'goal +0', 'entry 0']
    for other in KINDS:
        found += ['at ' + other, 'rule +0']
        found += list(middle) if other == kind else ['kind +1']
    return found + ['end']


# ---- rows

def long_word(most):
    return at('string', minLength=most, maxLength=most, pattern='[]'), NONE


def many_rows(count):
    """As many rows as lengths."""
    return of_kind('string', string_lines(0, count - 1))


def repeated_rows(count):
    """All rows but the first have one state, and each leads to the next."""
    rows = ['row %d' % min(row + 1, count - 1) for row in range(count)]
    return of_kind('string', ['string %d' % count, *rows, 'least' + ' 0' * count])


NO_WORD = at('string', pattern='[]'), NONE


# ---- rules

def repeated_rule(count):
    """A rule that leaves the set as it is, so many times."""
    return of_kind('null', ['rule +0'] * count + ['kind +1'])


def nested(count):
    """So many schemas, each of which asks for the next in place, and the last for no kind."""
    inner = {'e%d' % i: {'allOf': [{'$ref': '#/definitions/e%d' % (i + 1)}]} for i in range(count)}
    return {'$ref': '#/definitions/e0', 'definitions': {**inner, 'e%d' % count: {'type': []}}}, NONE


def nested_rules(count):
    """Entries are the root, then each schema and its part of all; each has one node."""
    entries = 2 * count + 2
    yield from ('certificate 1', 'goals 1', 'goal +1', 'entry 0')
    for kind in KINDS:
        yield 'at ' + kind
        for i in range(count):
            yield from ('rule +%d' % p for p in (2 * i + 1, entries + i, 2 * i + 2))
        yield 'rule +%d' % (2 * count + 1)
        yield 'kind +%d' % (entries + count)
    yield 'end'


def choices(width):
    """One of so many, none of which is met."""
    return {'anyOf': [NONE] * width}, NONE


def open_choices(width, count):
    """A rule with many choices, so many times, each time in the first of them."""
    return ['certificate 1', 'goals 1', 'goal +0', 'entry 0', 'at null', 'rule +0'] + ['rule +%d' % (width + 1)] * count


# ---- plans

def demands(count, heads):
    """An array with so many first places and nothing behind them, and more elements than that. Each of so many demands
    may be served at each of the places."""
    return at('array', minItems=heads + 1, items=[True] * heads, additionalItems=NONE,
              allOf=[{'contains': NULL} for _ in range(count)]), NONE


def plan_lines(count, heads):
    """Nothing of this goal is shown at other kinds than arrays but by their kind."""
    class NoSearch(Printer):
        def out(self, asked):
            return ['clash'] if self.core.form(asked) is None else None

    core = Core(*demands(count, heads))
    printer = NoSearch(core)
    found = ['certificate 1', 'goals 1', 'goal +0', 'entry 0']
    for kind in KINDS:
        found.append('at ' + kind)
        found += [' '.join(map(str, line)) for line in printer.tree(frozenset(core.form(core.root)), kind)]
    return found + ['end']


def open_splits(count):
    """All demands are split, and nothing is shown of any plan."""
    core = Core(*demands(count, 0))
    held = frozenset(core.form(core.root))
    tree = []
    for kind in KINDS[:4]:
        tree += ['at ' + kind] + [' '.join(map(str, line)) for line in Printer(core).tree(held, kind)]
    rules = []
    while not rules or rules[-1]:
        rules.append(next_rule(core, held))
        held |= set(rules[-1][1]) if rules[-1] else set()
    assert len(ArrayPlans(core, held).demands) == count
    return (['certificate 1', 'goals 1', 'goal +0', 'entry 0', *tree, 'at array'] + [rule[0] for rule in rules[:-1]]
            + ['array'] + ['split'] * count)


def deep_splits(count, side):
    """All demands are split, and the first place serves each of them. Where a new element serves a demand in its place,
    up to so many more are split below that, and the element refutes each of the plans."""
    yield from ('certificate 1', 'goals 1', 'goal +0', 'entry 0')
    for kind in KINDS:
        yield from ('at ' + kind, 'rule +0')
        if kind != 'array':
            yield 'kind +%d' % (2 * count + 3)
            continue
        yield from ('rule +%d' % place for place in (2 * count + 6, *range(2, 2 * count + 1, 2)))
        yield 'array'
        yield from ['split'] * count
        yield 'short clash'
        for below in range(count):
            more = min(side, below)
            yield from ['split'] * more + ['tail 0 clash'] * (2 * more + 1)
    yield 'end'


def next_rule(core, held):
    for position, sign in sorted(held):
        found = core.choices((position, sign), 'array')
        if found is not None and not held.issuperset(found[0]):
            return 'rule +%d' % position, found[0]
    return None


# ---- the files

def good():
    yield 'good_4', chain(300, 1000, 500), chain_lines(300, 1000, 500), None
    yield 'good_64', chain(4000, 1000, 8000), chain_lines(4000, 1000, 8000), None
    yield 'rows_65536', long_word(65535), many_rows(65536), None
    yield 'repeated_rows', NO_WORD, repeated_rows((LONGEST - 5) // 2), None
    yield 'repeated_rule', ({'type': []}, NONE), repeated_rule(1000000), None
    yield 'nested_rules', nested(10000), nested_rules(10000), None
    yield 'plans_65536', demands(4, 16), plan_lines(4, 16), None
    yield 'deep_splits', demands(5000, 1), deep_splits(5000, 20), None


def hostile():
    """The rule that is broken, at the line behind those that stand, if it is none of them."""
    start = ['certificate 1', 'goals 1']
    yield 'long_line', NO_WORD, start + ['x' * 1000000], (3, 1)
    yield 'long_goal', NO_WORD, start + ['goal' + ' +0' * ((LONGEST - 4) // 3)], (3, 5)
    yield 'longer_line', NO_WORD, start + ['x' * 100000000], (3, 2)
    yield 'many_goals', NO_WORD, ['certificate 1', 'goals 4294967295'], (3, 3)
    yield 'many_goals_and_end', NO_WORD, ['certificate 1', 'goals 4294967295', 'end'], (3, 4)
    listed = ['certificate 1', 'goals 4294967295'] + ['goal +0'] * 1000000
    yield 'goals_without_end', NO_WORD, listed, (1000003, 3)
    rows = of_kind('string', ['string 4294967295'])[:-7] + ['row %d' % (i + 1) for i in range(1000000)]
    yield 'rows_without_end', NO_WORD, rows, (len(rows) + 1, 3)
    rows = many_rows(65536)
    place = next(i for i, line in enumerate(rows) if line.startswith('least'))
    wrong = rows[:place] + [rows[place][:-5] + '65536'] + rows[place + 1:]
    yield 'last_label_wrong', long_word(65535), wrong, (place + 1, 19)
    yield 'open_choices', choices(1000), open_choices(1000, 1000), (1007, 3)
    yield 'open_choices_of_two', choices(2), open_choices(2, 1000000), (1000007, 3)
    splits = open_splits(400)
    yield 'open_splits', demands(400, 0), splits, (len(splits) + 1, 3)


def write(folder):
    os.makedirs(folder, exist_ok=True)
    with open(os.path.join(folder, 'verdicts'), 'w', encoding='utf-8') as verdicts:
        for name, schemas, lines, broken in itertools.chain(good(), hostile()):
            for role, schema in zip(('first', 'second'), schemas):
                with open(os.path.join(folder, name + '.' + role), 'w', encoding='utf-8') as out:
                    json.dump(schema, out, ensure_ascii=False)
            with open(os.path.join(folder, name + '.certificate'), 'w', encoding='utf-8') as out:
                out.writelines(line + '\n' for line in lines)
            verdicts.write('%s %s\n' % (name, 'accepted' if broken is None else 'rejected %d %d' % broken))


# ---- the rules at small sizes

def judged(schemas, lines):
    return verdict(Core(*schemas), lines_of(lines).encode())


def compare():
    for sizes in ((1, 0, 1), (1, 2, 1), (2, 1, 3), (3, 5, 2), (4, 3, 12)):
        schemas, lines = chain(*sizes), list(chain_lines(*sizes))
        assert lines == certificate(Core(*schemas)), sizes
        assert judged(schemas, lines) == 'accepted'
    for count in (2, 3, 12):
        assert many_rows(count) == certificate(Core(*long_word(count - 1)))
        assert judged(long_word(count - 1), many_rows(count)) == 'accepted'
        assert judged(NO_WORD, repeated_rows(count)) == 'accepted'
    for count in (0, 1, 9):
        assert judged(({'type': []}, NONE), repeated_rule(count)) == 'accepted'
        assert judged(choices(3), open_choices(3, count)) == 'rejected %d 3' % (count + 7)
    for count in (1, 2, 7):
        assert list(nested_rules(count)) == certificate(Core(*nested(count)))
        assert judged(nested(count), nested_rules(count)) == 'accepted'
    for sizes in ((1, 0), (1, 2), (2, 2), (3, 1), (3, 3)):
        assert plan_lines(*sizes) == certificate(Core(*demands(*sizes)))
        assert judged(demands(*sizes), plan_lines(*sizes)) == 'accepted'
    for count in (1, 2, 5):
        assert list(deep_splits(count, 0)) == certificate(Core(*demands(count, 1)))
        for side in (0, 1, 3):
            assert judged(demands(count, 1), deep_splits(count, side)) == 'accepted'
        lines = open_splits(count)
        assert judged(demands(count, 0), lines) == 'rejected %d 3' % (len(lines) + 1)
    for name, schemas, lines, (line, rule) in hostile():
        if len(lines) < 10:
            assert judged(schemas, lines) == 'rejected %d %d' % (line, rule), name


if __name__ == '__main__':
    if sys.argv[1:]:
        write(sys.argv[1])
    else:
        compare()
