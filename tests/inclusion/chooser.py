"""Schemas of all keywords, pairs of them, and documents, by chance."""
import json
import random

NAMES = ['a', 'b', 'ab', 'c']
PATTERNS = ['^a', 'b$', '^[ab]+$', 'c']
KINDS = ['null', 'boolean', 'integer', 'string', 'array', 'object']
KEYWORDS = ['type', 'type', 'enum', 'const', 'minimum', 'maximum', 'exclusiveMinimum', 'exclusiveMaximum',
            'multipleOf', 'minLength', 'maxLength', 'pattern', 'items', 'items', 'additionalItems', 'contains',
            'minItems', 'maxItems', 'properties', 'properties', 'patternProperties', 'additionalProperties',
            'propertyNames', 'required', 'minProperties', 'maxProperties', 'dependencies', 'allOf', 'anyOf', 'oneOf',
            'not', '$ref']
COUNTS = ['minLength', 'maxLength', 'minItems', 'maxItems', 'minProperties', 'maxProperties']


class Chooser:
    """Schemas and documents by chance."""

    def __init__(self, seed):
        self.random = random.Random(seed)

    def document(self, depth):
        choose = self.random
        kind = choose.randrange(6 if depth else 4)
        if kind == 0:
            return None
        if kind == 1:
            return choose.random() < 0.5
        if kind == 2:
            return choose.randint(-3, 6)
        if kind == 3:
            return choose.choice(['', 'a', 'b', 'ab', 'aa', 'ba', 'c', 'abc', 'x'])
        if kind == 4:
            return [self.document(depth - 1) for _ in range(choose.randrange(4))]
        return {choose.choice(NAMES + ['d', '']): self.document(depth - 1) for _ in range(choose.randrange(4))}

    def value(self, keyword, depth):
        choose = self.random
        if keyword == 'type':
            return choose.sample(KINDS, choose.randint(1, 3))
        if keyword == 'enum':
            return [self.document(1) for _ in range(choose.randint(1, 3))]
        if keyword == 'const':
            return self.document(1)
        if keyword in ('minimum', 'maximum', 'exclusiveMinimum', 'exclusiveMaximum'):
            return choose.randint(-3, 5)
        if keyword == 'multipleOf':
            return choose.randint(1, 4)
        if keyword in COUNTS:
            return choose.randrange(4)
        if keyword == 'pattern':
            return choose.choice(PATTERNS)
        if keyword == 'items' and choose.random() < 0.4:
            return [self.schema(depth - 1) for _ in range(choose.randint(1, 2))]
        if keyword == 'propertyNames':
            return choose.choice([{'pattern': choose.choice(PATTERNS)}, {'maxLength': 2}, {'enum': ['a', 'b']},
                                  {'not': {'const': 'a'}}])
        if keyword == 'properties':
            return {name: self.schema(depth - 1) for name in choose.sample(NAMES, choose.randint(1, 2))}
        if keyword == 'patternProperties':
            return {text: self.schema(depth - 1) for text in choose.sample(PATTERNS, choose.randint(1, 2))}
        if keyword == 'required':
            return choose.sample(NAMES, choose.randint(1, 2))
        if keyword == 'dependencies':
            return {choose.choice(NAMES): choose.choice([[choose.choice(NAMES)], self.schema(depth - 1)])}
        if keyword in ('allOf', 'anyOf', 'oneOf'):
            return [self.schema(depth - 1) for _ in range(choose.randint(1, 3))]
        return self.schema(depth - 1)

    def schema(self, depth):
        choose = self.random
        if depth == 0 or choose.random() < 0.12:
            return choose.choice([True, False, {}, {'type': 'null'}, {'type': 'string'}, {'type': 'integer'}])
        schema = {}
        for _ in range(choose.randint(1, 3)):
            keyword = choose.choice(KEYWORDS)
            if keyword != '$ref':
                schema[keyword] = self.value(keyword, depth)
            elif choose.random() < 0.3:
                return {'$ref': '#/definitions/r'}
        if isinstance(schema.get('items'), bool):
            # the package fails on both
            schema.pop('additionalItems', None)
        return schema

    def root(self):
        """A schema with a definition that refers to itself."""
        schema = self.schema(3)
        if not isinstance(schema, dict) or '$ref' in schema:
            schema = {'allOf': [schema]}
        again = {'$ref': '#/definitions/r'}
        schema['definitions'] = {'r': {
            'type': self.random.choice([['object', 'null'], ['array', 'string']]),
            'properties': {'a': again}, 'items': again, 'additionalProperties': self.schema(1)}}
        return schema

    def pair(self):
        """Two schemas; sometimes the second is the first without one of its keywords."""
        first, second = self.root(), self.root()
        if self.random.random() < 0.4:
            second = json.loads(json.dumps(first))
            second.pop(self.random.choice(list(second)), None)
            second.setdefault('definitions', first['definitions'])
        return first, second
