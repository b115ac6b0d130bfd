#!/usr/bin/env python3
"""Compares `jsat valid` with the validator of the Python package `jsonschema` for draft-06.

    compare.py [--cases N] [--seed S] PATH-OF-THE-BUILT-jsat
    compare.py [--cases N] [--seed S] --table PATH-OF-THE-BUILT-schema_table

Random schemas and documents of the common ground are made: whole numbers, patterns of ASCII that both engines read the
same way, references that descend or don't. `jsat valid` is run on each pair; the program `schema_table`, which makes the
same calls, takes them all in one run. Each difference is listed; schemas that are refused are counted by the word of the
refusal. The last line is 'N agreed, M differed'."""
import argparse
import collections
import json
import os
import random
import subprocess
import sys
import tempfile

from jsonschema import Draft6Validator

NAMES = ['a', 'b', 'ab', 'ba', 'c1', '', 'x_y', 'é']
PATTERNS = ['a', '^a', 'b$', '^a*b$', 'a|c', '^[a-c]+$', '[^a]', r'\d', r'^\w+$', '^.{2}$', '(ab)*c', '^(a|b){1,2}$', 'x?y', '']
TYPES = ['null', 'boolean', 'object', 'array', 'number', 'string', 'integer']
DEFINITIONS = ['p', 'q', 'r']


def document(rng, depth):
    kind = rng.randrange(7 if depth else 4)
    if kind == 0:
        return None
    if kind == 1:
        return rng.random() < 0.5
    if kind == 2:
        return rng.choice([0, 1, 2, 3, 4, 6, 12, -1, -4, 9223372036854775807, 18446744073709551615, -9223372036854775808])
    if kind == 3:
        return ''.join(rng.choice('abc1é_ y') for _ in range(rng.randrange(5)))
    if kind == 4:
        return [document(rng, depth - 1) for _ in range(rng.randrange(4))]
    return {rng.choice(NAMES): document(rng, depth - 1) for _ in range(rng.randrange(5))}


def schema(rng, depth):
    if depth == 0 or rng.random() < 0.08:
        return rng.choice([True, True, False, {}, {'type': rng.choice(TYPES)}])
    if rng.random() < 0.12:
        return {'$ref': '#/definitions/' + rng.choice(DEFINITIONS), 'type': rng.choice(TYPES)}
    inner = lambda: schema(rng, depth - 1)
    some = lambda make, least=0, most=3: [make() for _ in range(rng.randrange(least, most + 1))]
    named = lambda make, names: {name: make() for name in rng.sample(names, rng.randrange(1, 3))}
    small = lambda: rng.randrange(4)
    makers = {
        'type': lambda: rng.choice([rng.choice(TYPES), rng.sample(TYPES, rng.randrange(1, 4))]),
        'enum': lambda: some(lambda: document(rng, 2), 1, 5),
        'const': lambda: document(rng, 2),
        'multipleOf': lambda: rng.choice([1, 2, 3, 4, 5]),
        'minimum': lambda: rng.choice([-1, 0, 1, 3]),
        'maximum': lambda: rng.choice([0, 3, 4, 12]),
        'exclusiveMinimum': lambda: rng.choice([-1, 0, 2]),
        'exclusiveMaximum': lambda: rng.choice([1, 4, 6]),
        'minLength': small,
        'maxLength': small,
        'pattern': lambda: rng.choice(PATTERNS),
        'items': lambda: inner() if rng.random() < 0.5 else some(inner),
        'additionalItems': inner,
        'contains': inner,
        'minItems': small,
        'maxItems': small,
        'uniqueItems': lambda: False,
        'required': lambda: rng.sample(NAMES, rng.randrange(3)),
        'properties': lambda: named(inner, NAMES),
        'patternProperties': lambda: named(inner, PATTERNS),
        'additionalProperties': inner,
        'propertyNames': inner,
        'dependencies': lambda: named(lambda: rng.sample(NAMES, rng.randrange(3)) if rng.random() < 0.5 else inner(), NAMES),
        'minProperties': small,
        'maxProperties': small,
        'allOf': lambda: some(inner, 1),
        'anyOf': lambda: some(inner, 1),
        'oneOf': lambda: some(inner, 1),
        'not': inner,
    }
    return {word: makers[word]() for word in rng.sample(list(makers), rng.randrange(1, 5))}


def in_python(root):
    """The schema with `\\d` and `\\w` as sets of ASCII: Python's have letters and digits of all scripts, those of the
    profile have not."""
    return json.loads(json.dumps(root).replace(r'\\d', '[0-9]').replace(r'\\w', '[A-Za-z0-9_]'))


def verdict(root, instance):
    """The package's verdict; None where it has none: it fails on `additionalItems` beside `items` that is `true` or
    `false`."""
    try:
        return 'valid' if Draft6Validator(in_python(root)).is_valid(instance) else 'invalid'
    except RecursionError:
        return 'endless'
    except TypeError:
        return None


def of_table(program, cases):
    lines = ''.join('%s\t%s\n' % tuple(json.dumps(x, ensure_ascii=False) for x in case) for case in cases)
    told = subprocess.run([program], input=lines.encode(), capture_output=True, check=True).stdout.decode()
    return told.splitlines()


def of_jsat(program, cases):
    with tempfile.TemporaryDirectory() as folder:
        names = [os.path.join(folder, name) for name in ('schema', 'document')]
        for case in cases:
            for name, value in zip(names, case):
                with open(name, 'w', encoding='utf-8') as f:
                    json.dump(value, f, ensure_ascii=False)
            yield subprocess.run([program, 'valid', *names], capture_output=True).stdout.decode().rstrip('\n')


def main():
    words = argparse.ArgumentParser()
    words.add_argument('--cases', type=int, default=4000)
    words.add_argument('--seed', type=int, default=1)
    words.add_argument('--table', action='store_true')
    words.add_argument('program')
    words = words.parse_args()
    rng = random.Random(words.seed)
    cases = []
    for _ in range(words.cases):
        root = schema(rng, 3)
        if isinstance(root, dict) and '$ref' not in root:
            root['definitions'] = {name: schema(rng, 2) for name in DEFINITIONS}
        elif isinstance(root, dict):
            root = {'allOf': [root], 'definitions': {name: schema(rng, 2) for name in DEFINITIONS}}
        cases.extend((root, document(rng, 3)) for _ in range(3))
    answers = list((of_table if words.table else of_jsat)(words.program, cases))
    assert len(answers) == len(cases), 'as many answers as cases'
    agreed, differed, refused = 0, 0, collections.Counter()
    for (root, instance), answer in zip(cases, answers):
        if answer.startswith('refused'):
            refused[' '.join(answer.split(' ')[1:3])] += 1
            continue
        wanted = verdict(root, instance)
        if wanted is None:
            refused['by the package'] += 1
        elif answer == wanted:
            agreed += 1
        else:
            differed += 1
            print('%s, but %s: %s %s' % (answer, wanted, json.dumps(root), json.dumps(instance)))
    for word, count in sorted(refused.items()):
        print('refused: %s %d' % (word, count))
    print('%d agreed, %d differed' % (agreed, differed))
    sys.exit(1 if differed else 0)


main()
