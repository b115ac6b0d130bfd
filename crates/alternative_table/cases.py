#!/usr/bin/env python3
"""The cases of this table: writes `stdin` and `stdout` beside it.

A line of `stdin` is a schema. `stdout` has a line with the alternatives of the goal that position 0 of its table holds,
as README.md says. They are worked out here, slowly: core tables by `cases.py` of `norm_table`, trees by that of
`branch_table` (`tables.py`); numbers by going through the candidates, words by going through all words over one
character of each class, in order, with Python's own `re`, plans of arrays by going through the lists of options
(`leaves.py`); cells of names over the rows that `cases.py` of `automaton_table` finds from whole words, and plans of
objects, again by going through the lists of options (`objects.py`). What alternatives build is also held against the
schema, as the keywords are defined (`validity.py`), and where they build nothing, small documents are tried in vain.
Nothing here is taken from the program. The schemas are in `schemas.py`."""
import itertools
import json
import math
import os

import schemas
from leaves import arrays, numbers, strings, truths
from objects import objects
from schemas import compact
from tables import HERE, KINDS, Limit, branch_table, norm_table
from tables import Core as CoreTable
from validity import valid

MOST_PLACES = 1048576


class Core(CoreTable):
    """The table of a schema, with what was found of its goals."""

    def __init__(self, schema):
        super().__init__(schema)
        self.expanded, self.documents = {}, {}

    def expansion(self, goal):
        key = tuple(goal)
        if key not in self.expanded:
            self.expanded[key] = expansion(self, goal)
        return self.expanded[key]


# ---- expansions

def scalar(shape):
    return shape, [], 0, []


def text(word):
    return json.dumps(word, ensure_ascii=False)


def leaf(core, held, kind):
    """The alternatives of a branch: shape, members, need, fillers."""
    if kind in ('array', 'object'):
        return (arrays if kind == 'array' else objects)(core, held)
    if kind == 'boolean':
        return [scalar(text(truth)) for truth in truths(core, held)]
    if kind == 'number':
        return [scalar(str(n)) for n in numbers(core, held)]
    return [scalar(text(word)) for word in strings(core, held)] if kind == 'string' else [scalar('null')]


def expansion(core, goal):
    """The alternatives that are kept, each with its kind and branch, and the first limit."""
    kept, places, limits = [], 0, []
    for kind in KINDS:
        try:
            branches = core.branches(goal, kind)
        except branch_table.TooMany:
            limits.append('branches')
            continue
        for number, held in enumerate(branches):
            try:
                found = leaf(core, held, kind)
                more = sum(1 + len(members) + len(fillers) for _, members, _, fillers in found)
                if places + more > MOST_PLACES:
                    raise Limit('places')
            except Limit as limit:
                limits.append(str(limit))
                continue
            places += more
            kept += [(kind, number) + alternative for alternative in found]
    return kept, limits[:1]


def signed(goal):
    return ''.join('%s%d' % ('+' if sign > 0 else '-', position) for position, sign in goal) or '*'


def shown(kind, number, shape, members, need, fillers):
    words = ['%s %d %s' % (kind, number, shape)]
    words += ['%s:%s' % (slot, signed(goal)) for slot, goal in members]
    words += ['need %d' % need] if need else []
    words += ['fill %s:%sx%d' % (slot, signed(goal), room) for slot, goal, room in fillers]
    return ' '.join(words)


def answer(schema, longest=math.inf):
    """The line of a schema, which is held against the schema where it isn't longer."""
    core = Core(schema)
    goal = core.form([(0, 1)])
    if goal is None:
        return 'clash'
    kept, limits = core.expansion(goal)
    line = ' | '.join([shown(*alternative) for alternative in kept] + ['limit ' + limit for limit in limits]) or 'none'
    if len(line) <= longest:
        hold_against(schema, core, kept, limits)
    return line


# ---- documents

SCALARS = [None, False, True, *range(-13, 40), *map(''.join, itertools.chain.from_iterable(
    itertools.product('ab1A- ', repeat=n) for n in range(4)))]
ELEMENTS = [None, True, 0, 6, '', 'ab', [], [0], [[]]]
VALUES = [None, True, 0, 6, 'ab', [0], {}, {'a': 0}]
SAMPLES = SCALARS + [list(items) for n in range(3) for items in itertools.product(ELEMENTS, repeat=n)] + [
    dict(zip(names, items)) for n in range(3) for names in itertools.combinations(['', 'a', 'b', 'ab', 'c', '1'], n)
    for items in itertools.product(VALUES, repeat=n)]


def document(core, goal, depth):
    """A document of the goal of at most that depth, in a list; none where none is found."""
    if depth == 0:
        return []
    key = (tuple(goal), depth)
    if key not in core.documents:
        found = (built(core, alternative, depth) for alternative in core.expansion(goal)[0])
        core.documents[key] = next((docs for docs in found if docs), [])
    return core.documents[key]


def built(core, alternative, depth):
    """The document of an alternative, in a list; only few fillers are added, from those in order that have documents,
    each up to its room."""
    kind, _, shape, members, need, fillers = alternative
    if kind not in ('array', 'object'):
        return [json.loads(shape)]
    children = [(slot, document(core, goal, depth - 1)) for slot, goal in members]
    for slot, goal, room in fillers if need <= 9 else []:
        docs = document(core, goal, depth - 1)
        used = min(need, room) if docs else 0
        need -= used
        children += [(slot + place, docs) for place in range(used)]
    if need > 0 or not all(docs for _, docs in children):
        return []
    if kind == 'array':
        return [[child for _, [child] in children]]
    found = {slot.name(): child for slot, [child] in children}
    assert len(found) == len(children)
    return [found]


def hold_against(schema, core, kept, limits):
    """What alternatives build is valid. Where no limit was passed, each document that is tried and is valid is of a
    kind at which something is built."""
    if len(compact(schema)) > 3000 or len(kept) > 150:
        return
    docs = [(kind, doc) for kind, *more in kept for doc in built(core, (kind, *more), 4)]
    assert all(valid(schema, schema, doc) for _, doc in docs), schema
    kinds = {kind for kind, _ in docs}
    assert limits or all(norm_table.kind_of(doc) in kinds for doc in SAMPLES if valid(schema, schema, doc)), schema


# ---- the cases

def chosen(chooser, count, longest):
    """That many schemas by chance, without those of long lines, and few of which nothing comes."""
    found = []
    while len(found) < count:
        schema = chooser.root()
        line = answer(schema, longest)
        empty = [line for _, line in found if line == 'none']
        if len(line) <= longest and (line != 'none' or len(empty) < count / 8):
            found.append((schema, line))
    return found


def main():
    cases = [(schema, answer(schema)) for schema in schemas.FIXED] + schemas.WORKED
    cases += chosen(schemas.Chooser(1), 200, 1500)
    cases += [(schema, answer(schema)) for schema in schemas.OF_OBJECTS] + schemas.OBJECTS_WORKED
    cases += chosen(schemas.ObjectChooser(2), 100, 1500)
    with open(os.path.join(HERE, 'stdin'), 'w', encoding='utf-8') as lines:
        lines.writelines(compact(schema) + '\n' for schema, _ in cases)
    with open(os.path.join(HERE, 'stdout'), 'w', encoding='utf-8') as lines:
        lines.writelines(line + '\n' for _, line in cases)


if __name__ == '__main__':
    main()
