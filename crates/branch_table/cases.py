#!/usr/bin/env python3
"""The cases of this table: writes `stdin` and `stdout` beside it.

A line of `stdin` is a schema, or two with a tab between them: position 0 of the first is to hold, and position 0 of the
second isn't. `stdout` has that goal, and for each kind the branches of its tree, each as its set. They are worked out here: the core
tables by `cases.py` of `norm_table`, the goal and the trees by the rules as they are written, with sets copied at each
step. Nothing here is taken from the program."""
import importlib.util
import json
import os

HERE = os.path.dirname(os.path.abspath(__file__))
KINDS = ['null', 'boolean', 'number', 'string', 'array', 'object']
# a tree may have this many ends, and of this many branches the sets are printed
ENDS, SHOWN = 16384, 40
# the kind that each typed position speaks of
TYPED = {
    'boolis': 'boolean', 'nummin': 'number', 'nummax': 'number', 'multiple': 'number', 'numin': 'number',
    'words': 'string', 'match': 'string', 'lengthmin': 'string', 'lengthmax': 'string',
    'items': 'array', 'contains': 'array', 'countmin': 'array', 'countmax': 'array',
    'members': 'object', 'has': 'object', 'propsmin': 'object', 'propsmax': 'object', 'namesin': 'object',
}


def norm_table():
    path = os.path.join(HERE, '..', 'norm_table', 'cases.py')
    spec = importlib.util.spec_from_file_location('norm_table', path)
    module = importlib.util.module_from_spec(spec)
    spec.loader.exec_module(module)
    return module.Table


class TooMany(Exception):
    pass


class Core:
    """The tables of the schemas, one after the other. A position is its word, and the numbers or kinds after it."""

    def __init__(self, schemas, table):
        self.positions, self.firsts = [], []
        for schema in schemas:
            self.firsts.append(len(self.positions))
            lines = table(schema).lines()[1:]
            self.positions += [self.read(words.split(' ')[1:], self.firsts[-1]) for words in lines]

    def read(self, words, moved):
        if words[0] == 'types' or words[0] in TYPED:
            return words[0], words[1:]
        return words[0], [int(number) + moved for number in words[1:]]

    def follow(self, signed):
        position, sign = signed
        word, inside = self.positions[position]
        if word == 'same':
            return self.follow((inside[0], sign))
        if word == 'not':
            return self.follow((inside[0], -sign))
        return signed

    def goal(self):
        """The goal of the first table's position and the second's opposite, or None where they clash."""
        found = [self.follow((first, sign)) for first, sign in zip(self.firsts, (1, -1))]
        words = [(self.positions[position][0], sign) for position, sign in found]
        if ('false', 1) in words or ('true', -1) in words:
            return None
        if any((position, -sign) in found for position, sign in found):
            return None
        return {signed for signed, word in zip(found, words) if word not in (('true', 1), ('false', -1))}

    def choices(self, signed, kind):
        """The choices of a signed position, or None for a literal."""
        position, sign = signed
        word, ps = self.positions[position]
        if word == 'true':
            return [[]] if sign > 0 else []
        if word == 'false':
            return [] if sign > 0 else [[]]
        if word == 'same':
            return [[(ps[0], sign)]]
        if word == 'not':
            return [[(ps[0], -sign)]]
        if (word, sign) in (('all', 1), ('any', -1)):
            return [[(p, sign) for p in ps]]
        if word in ('all', 'any'):
            return [[(p, sign)] for p in ps]
        if word == 'one' and sign > 0:
            # by places, since one position may be named twice
            return [[(p, 1 if i == chosen else -1) for i, p in enumerate(ps)] for chosen in range(len(ps))]
        if word == 'one':
            pairs = [[(ps[i], 1), (ps[j], 1)] for i in range(len(ps)) for j in range(i + 1, len(ps))]
            return [[(p, -1) for p in ps]] + pairs
        if word == 'depends' and sign > 0:
            return [[(ps[0], -1)], [(ps[1], 1)]] if kind == 'object' else [[]]
        if word == 'depends':
            return [[(ps[0], 1), (ps[1], -1)]] if kind == 'object' else []
        return None

    def wrong(self, signed, kind):
        """Whether it is a literal that no document of the kind meets."""
        position, sign = signed
        word, kinds = self.positions[position]
        if word == 'types':
            return (kind in kinds) != (sign > 0)
        return sign < 0 and word in TYPED and TYPED[word] != kind

    def branches(self, goal, kind):
        found, ends = [], 0
        signed_positions = [(position, sign) for position in range(len(self.positions)) for sign in (1, -1)]
        choices_of = {x: self.choices(x, kind) for x in signed_positions}
        wrong = {x for x in signed_positions if self.wrong(x, kind)}

        def grow(held):
            nonlocal ends
            children = None
            if any((position, -sign) in held for position, sign in held) or not wrong.isdisjoint(held):
                children = []
            for signed in sorted(held, key=lambda x: (x[0], -x[1])):
                if children is not None:
                    break
                choices = choices_of[signed]
                if choices is not None and not any(held.issuperset(choice) for choice in choices):
                    children = choices
            for choice in children or []:
                grow(held | set(choice))
            if not children:
                ends += 1
            if children is None:
                found.append(held)
            if ends > ENDS:
                raise TooMany

        grow(frozenset(goal))
        return found


def line(word, held):
    ordered = sorted(held, key=lambda x: (x[0], -x[1]))
    return ' '.join([word] + ['%s%d' % ('+' if sign > 0 else '-', position) for position, sign in ordered])


def answer(schemas, table):
    core = Core(schemas, table)
    goal = core.goal()
    if goal is None:
        return ['clash']
    lines = [line('goal', goal)]
    for kind in KINDS:
        try:
            found = core.branches(goal, kind)
        except TooMany:
            lines.append(kind + ' limit branches')
            continue
        lines.append('%s %d' % (kind, len(found)))
        if len(found) <= SHOWN:
            lines += [line('branch', held) for held in found]
    return lines


def typed(kind):
    return {'type': kind}


def pairs(count, *more):
    """So many choices of one of two."""
    return {'allOf': [{'anyOf': [{}, {}]}] * count + list(more)}


def at(kind, schema):
    """At the kind alone, so that the other trees end at once."""
    return {**typed(kind), **schema}


ANY, NONE = True, False
CASES = [
    # goals without any choice, and goals that clash
    [ANY], [{}], [NONE], [ANY, ANY], [ANY, NONE], [NONE, NONE], [{}, {}], [{'title': 'a'}, NONE], [{}, ANY],
    [{'not': ANY}], [{'not': NONE}], [ANY, {'not': NONE}],
    [{'$ref': '#/definitions/a', 'definitions': {'a': NONE}}], [ANY, {'$ref': '#/definitions/a', 'definitions': {'a': ANY}}],
    [{'$ref': '#/definitions/a', 'definitions': {'a': {'$ref': '#/definitions/b'}, 'b': {'minimum': 1}}}],
    [{'$ref': '#/definitions/a', 'definitions': {'a': ANY}}, {'$ref': '#/definitions/a', 'definitions': {'a': NONE}}],
    # one of several, and not one of several
    [{'oneOf': [typed('null'), typed('string'), typed('object')]}],
    [{'oneOf': [{'minimum': 1}, {'maxLength': 2}, {'maxItems': 3}]}],
    [{'not': {'oneOf': [{'minimum': 1}, {'maximum': 5}, {'multipleOf': 2}]}}],
    [ANY, {'oneOf': [{'minimum': 1}, {'maximum': 5}, {'multipleOf': 2}]}],
    [{'oneOf': [ANY]}, {'oneOf': [NONE]}], [{'not': {'oneOf': [{'minimum': 0}]}}],
    [{'oneOf': [ANY, ANY]}], [{'not': {'oneOf': [ANY, ANY]}}], [{'oneOf': [NONE, ANY, NONE]}],
    [{'not': {'oneOf': [ANY, NONE, ANY, ANY]}}],
    # dependencies, at objects and elsewhere
    [{'dependencies': {'a': ['b', 'c']}}], [{'not': {'dependencies': {'a': ['b', 'c']}}}],
    [{'dependencies': {'a': {'minProperties': 2}}}], [{'not': {'dependencies': {'a': {'minProperties': 2}}}}],
    [ANY, {'dependencies': {'b': ['a'], 'a': {'required': ['c']}}}],
    [{'dependencies': {'a': []}}], [{'not': {'dependencies': {'a': []}}}], [{'not': {'dependencies': {'a': NONE}}}],
    [{'dependencies': {'a': NONE}, 'required': ['a']}], [{'dependencies': {}}],
    # not, within not
    [{'not': {'not': {'not': {'minLength': 3}}}}], [{'not': {'not': {'minLength': 3}}}],
    [{'not': {'anyOf': [{'not': {'allOf': [{'minimum': 1}, {'maximum': 2}]}}, {'not': {'not': {'maxItems': 0}}}]}}],
    [{'not': {'allOf': [{'type': 'array'}, {'not': {'minItems': 1}}]}}, {'not': {'maxItems': 2}}],
    # choices of choices
    [{'anyOf': [{'allOf': [{'minimum': 1}, {'maximum': 2}]}, {'allOf': [{'minLength': 1}, {'maxLength': 2}]}]}],
    [{'allOf': [{'anyOf': [{'minimum': 1}, {'pattern': 'a'}]}, {'anyOf': [{'maximum': 2}, {'required': ['k']}]}]}],
    [ANY, {'anyOf': [{'allOf': [{'minimum': 1}, {'maximum': 2}]}, {'allOf': [typed('null'), typed('string')]}]}],
    [ANY, {'allOf': [{'anyOf': [{'minimum': 1}, {'maximum': 2}]}, {'anyOf': [{'minItems': 1}, {'maxItems': 2}]}]}],
    [{'anyOf': [NONE, NONE]}], [{'allOf': [ANY, NONE]}], [{'allOf': [ANY, ANY], 'anyOf': [NONE, ANY]}],
    # a choice that is in the set before its turn comes
    [{'allOf': [{'$ref': '#/anyOf/1'}], 'anyOf': [{'minimum': 1}, {'maximum': 2}, {'multipleOf': 3}]}],
    [{'anyOf': [{'$ref': '#/definitions/a'}, {}], 'allOf': [{'$ref': '#/definitions/a'}], 'definitions': {'a': {'minLength': 1}}}],
    [{'allOf': [{'anyOf': [{'$ref': '#/not'}, {'not': {'$ref': '#/not'}}]}], 'not': {'minimum': 4}}],
    [{'anyOf': [{'$ref': '#/definitions/a'}, {'$ref': '#/definitions/b'}], 'oneOf': [{'$ref': '#/definitions/b'},
      {'$ref': '#/definitions/a'}], 'definitions': {'a': {'minimum': 1}, 'b': {'minimum': 2}}}],
    [{'allOf': [{'$ref': '#/dependencies/c'}], 'dependencies': {'c': {'minProperties': 1}}}],
    # the same schema more than once
    [{'anyOf': [{'$ref': '#/definitions/a'}, {'$ref': '#/definitions/a'}], 'definitions': {'a': {'minimum': 1}}}],
    [{'oneOf': [{'$ref': '#/definitions/a'}, {'$ref': '#/definitions/a'}], 'definitions': {'a': {'minimum': 1}}}],
    [{'not': {'oneOf': [{'$ref': '#/definitions/a'}, {'$ref': '#/definitions/a'}]}, 'definitions': {'a': {'minimum': 1}}}],
    [{'anyOf': [{'minimum': 1}, {'minimum': 1}]}, {'anyOf': [{'minimum': 1}, {'minimum': 1}]}],
    [{'allOf': [{'$ref': '#/definitions/a'}, {'not': {'$ref': '#/definitions/a'}}], 'definitions': {'a': {'maxItems': 1}}}],
    [{'anyOf': [{'$ref': '#/definitions/a'}, {'not': {'$ref': '#/definitions/a'}}], 'definitions': {'a': {'maxItems': 1}}}],
    # kinds that clash
    [{'allOf': [{'type': ['null', 'string']}, {'type': ['string', 'array']}]}], [{'type': []}], [{'not': {'type': []}}],
    [{'not': {'type': ['boolean', 'number', 'object']}}], [typed('integer'), typed('string')], [typed('null'), typed('null')],
    [ANY, {'minimum': 1, 'minLength': 1, 'minItems': 1, 'minProperties': 1}],
    [{'not': {'maximum': 1}}], [{'not': {'pattern': 'a'}}], [{'not': {'contains': {}}}], [{'not': {'propertyNames': {}}}],
    [{'items': [{}], 'additionalItems': NONE, 'properties': {'a': NONE}}, {'items': {}, 'additionalProperties': NONE}],
    # listed values
    [{'enum': [None, True, 1, 'a', [], {}]}], [{'not': {'enum': [None, True, 1, 'a', [], {}]}}],
    [ANY, {'enum': [False, True, 2, 3, 'b', 'c']}], [{'enum': [[1], {'k': None}]}], [{'not': {'const': {'k': [1]}}}],
    [{'const': True}, {'const': False}], [{'enum': [1, 2, 'x']}, {'const': 'x'}], [{'enum': []}], [{'not': {'enum': []}}],
    [{'enum': [{'a': 1}, {'a': 2}]}, {'enum': [{'a': 2}]}], [{'const': None}, {'enum': [None, 0]}],
    # all together
    [{'type': 'object', 'properties': {'a': {'minimum': 1}}, 'dependencies': {'a': ['b']}, 'oneOf': [{'required': ['a']},
      {'required': ['c']}]}, {'anyOf': [{'required': ['a']}, {'maxProperties': 3}]}],
    [{'definitions': {'t': {'anyOf': [typed('null'), {'properties': {'l': {'$ref': '#/definitions/t'}}}]}},
      'allOf': [{'$ref': '#/definitions/t'}]}, {'not': {'required': ['l']}}],
    # as many ends as there may be, and more; closed ones count
    [pairs(5)], [pairs(6)], [at('null', pairs(14))], [at('array', pairs(15))], [ANY, {'not': at('object', pairs(14))}],
    [at('string', pairs(13, {'anyOf': [{}, NONE]}))], [at('number', pairs(13, {'anyOf': [NONE, {}, NONE]}))],
    [at('boolean', pairs(14)), pairs(1)], [at('array', pairs(15)), pairs(1)], [pairs(15, NONE)],
    [at('string', pairs(13, {'anyOf': [typed('null'), typed('string'), typed('object')]}))],
]


def compact(schema):
    return json.dumps(schema, ensure_ascii=False, separators=(',', ':'))


def main():
    table = norm_table()
    with open(os.path.join(HERE, 'stdin'), 'w', encoding='utf-8') as goals:
        goals.writelines('\t'.join(compact(schema) for schema in schemas) + '\n' for schemas in CASES)
    with open(os.path.join(HERE, 'stdout'), 'w', encoding='utf-8') as branches:
        branches.writelines('\n'.join(answer(schemas, table)) + '\n' for schemas in CASES)


if __name__ == '__main__':
    main()
