#!/usr/bin/env python3
"""The cases of this table: writes `stdin` and `stdout` beside it.

A line of `stdin` is a schema. `stdout` has the text of its core table, worked out here from the rules of the normal form:
positions 0 to n-1 are the entries, in the order of the walk; then come, entry by entry, the nodes of its keywords, each
after the nodes that it needs. Nothing here is taken from the program."""
import json
import os

HERE = os.path.dirname(os.path.abspath(__file__))
KINDS = ['null', 'boolean', 'number', 'string', 'array', 'object']
# the keywords that hold schemas, by the shape of their value
ONE = {'additionalItems', 'additionalProperties', 'contains', 'not', 'propertyNames'}
LISTS = {'allOf', 'anyOf', 'oneOf'}
MAPS = {'properties', 'patternProperties'}


def escaped(token):
    return token.replace('~', '~0').replace('/', '~1')


def at(root, pointer):
    value = root
    for token in pointer.split('/')[1:]:
        token = token.replace('~1', '/').replace('~0', '~')
        value = value[int(token)] if isinstance(value, list) else value[token]
    return value


def kind_of(value):
    if value is None:
        return 'null'
    if isinstance(value, bool):
        return 'boolean'
    if isinstance(value, int):
        return 'number'
    if isinstance(value, str):
        return 'string'
    return 'array' if isinstance(value, list) else 'object'


def children(value, pointer):
    """The places of the schemas in an object, in the order of its keywords' names."""
    if isinstance(value, bool):
        return []
    if '$ref' in value:
        return [value['$ref'][1:]]
    found = []
    for key in sorted(value):
        here, inside = pointer + '/' + key, value[key]
        if key in ONE and (key != 'additionalItems' or isinstance(value.get('items'), list)):
            found.append(here)
        elif key == 'items' and not isinstance(inside, list):
            found.append(here)
        elif key in LISTS or key == 'items':
            found += ['%s/%d' % (here, i) for i in range(len(inside))]
        elif key in MAPS:
            found += [here + '/' + escaped(name) for name in sorted(inside)]
        elif key == 'dependencies':
            found += [here + '/' + escaped(name) for name in sorted(inside) if not isinstance(inside[name], list)]
    return found


def walk(root):
    places, waiting = [], ['']
    while waiting:
        pointer = waiting.pop(0)
        if pointer not in places:
            places.append(pointer)
            waiting = children(at(root, pointer), pointer) + waiting
    return places


def text(word):
    """A JSON string: quotes and backslashes with a backslash, control characters as escapes, and all else as it is."""
    return json.dumps(word, ensure_ascii=False)


class Table:
    def __init__(self, root):
        self.root = root
        self.places = walk(root)
        self.nodes = []

    def add(self, words):
        self.nodes.append(words)
        return len(self.places) + len(self.nodes) - 1

    def naming(self, word, numbers):
        return self.add(' '.join([word] + [str(n) for n in numbers]))

    def number(self, pointer):
        return self.places.index(pointer)

    def of_kind(self, kind, words):
        return self.naming('all', [self.add('types ' + kind), self.add(words)])

    def value(self, value):
        kind = kind_of(value)
        if kind == 'null':
            return self.add('types null')
        if kind == 'boolean':
            return self.of_kind(kind, 'boolis ' + ('true' if value else 'false'))
        if kind == 'number':
            return self.of_kind(kind, 'numin %d' % value)
        if kind == 'string':
            return self.of_kind(kind, 'words ' + text(value))
        named = [self.add('types ' + kind)]
        if kind == 'array':
            inside = [self.value(v) for v in value]
            rest = self.add('true')
            named.append(self.naming('items', [rest] + inside))
            named.append(self.add('countmin %d' % len(value)))
            named.append(self.add('countmax %d' % len(value)))
            return self.naming('all', named)
        for name in sorted(value):
            named.append(self.add('has ' + text(name)))
            inside = self.value(value[name])
            named.append(self.add('members named %s %d' % (text(name), inside)))
        never = self.add('false')
        named.append(self.add('members others %s %d' % (self.others(sorted(value), []), never)))
        return self.naming('all', named)

    def others(self, names, patterns):
        return ' '.join([str(len(names))] + [text(n) for n in names] + [str(len(patterns))] + [text(p) for p in patterns])

    def groups(self, values):
        kinds = [kind_of(v) for v in values]
        named = []
        if 'null' in kinds:
            named.append(self.add('types null'))
        truths = [v for v in values if isinstance(v, bool)]
        if True in truths and False in truths:
            named.append(self.add('types boolean'))
        elif truths:
            named.append(self.value(truths[0]))
        numbers = list(dict.fromkeys(v for v, k in zip(values, kinds) if k == 'number'))
        if numbers:
            named.append(self.of_kind('number', ' '.join(['numin'] + [str(n) for n in numbers])))
        words = list(dict.fromkeys(v for v, k in zip(values, kinds) if k == 'string'))
        if words:
            named.append(self.of_kind('string', ' '.join(['words'] + [text(w) for w in words])))
        named += [self.value(v) for v in values if isinstance(v, (list, dict))]
        return self.naming('any', named)

    def keywords(self, schema, pointer):
        """The numbers of the nodes of an object's keywords."""
        named = []

        def number(*tokens):
            return self.number(pointer + ''.join('/' + escaped(str(t)) for t in tokens))

        def plain(keyword, words, change=0):
            if keyword in schema:
                named.append(self.add('%s %d' % (words, schema[keyword] + change)))

        if 'type' in schema:
            types = schema['type'] if isinstance(schema['type'], list) else [schema['type']]
            types = ['number' if t == 'integer' else t for t in types]
            named.append(self.add(' '.join(['types'] + [k for k in KINDS if k in types])))
        if 'enum' in schema:
            named.append(self.groups(schema['enum']))
        if 'const' in schema:
            named.append(self.value(schema['const']))
        plain('multipleOf', 'multiple')
        plain('minimum', 'nummin')
        plain('exclusiveMinimum', 'nummin', 1)
        plain('maximum', 'nummax')
        plain('exclusiveMaximum', 'nummax', -1)
        plain('minLength', 'lengthmin')
        plain('maxLength', 'lengthmax')
        if 'pattern' in schema:
            named.append(self.add('match ' + text(schema['pattern'])))
        if isinstance(schema.get('items'), list):
            prefix = [number('items', i) for i in range(len(schema['items']))]
            rest = number('additionalItems') if 'additionalItems' in schema else self.add('true')
            named.append(self.naming('items', [rest] + prefix))
        elif 'items' in schema:
            named.append(self.naming('items', [number('items')]))
        if 'contains' in schema:
            named.append(self.naming('contains', [number('contains')]))
        plain('minItems', 'countmin')
        plain('maxItems', 'countmax')
        for name in dict.fromkeys(schema.get('required', [])):
            named.append(self.add('has ' + text(name)))
        names, patterns = sorted(schema.get('properties', {})), sorted(schema.get('patternProperties', {}))
        for name in names:
            named.append(self.add('members named %s %d' % (text(name), number('properties', name))))
        for name in patterns:
            named.append(self.add('members matching %s %d' % (text(name), number('patternProperties', name))))
        if 'additionalProperties' in schema:
            others = self.others(names, patterns)
            named.append(self.add('members others %s %d' % (others, number('additionalProperties'))))
        if 'propertyNames' in schema:
            named.append(self.naming('namesin', [number('propertyNames')]))
        for name in sorted(schema.get('dependencies', {})):
            need = schema['dependencies'][name]
            has = self.add('has ' + text(name))
            if isinstance(need, list):
                needed = self.naming('all', [self.add('has ' + text(n)) for n in need])
            else:
                needed = number('dependencies', name)
            named.append(self.naming('depends', [has, needed]))
        plain('minProperties', 'propsmin')
        plain('maxProperties', 'propsmax')
        for keyword, word in (('allOf', 'all'), ('anyOf', 'any'), ('oneOf', 'one')):
            if keyword in schema:
                named.append(self.naming(word, [number(keyword, i) for i in range(len(schema[keyword]))]))
        if 'not' in schema:
            named.append(self.naming('not', [number('not')]))
        return named

    def entry(self, pointer):
        schema = at(self.root, pointer)
        if isinstance(schema, bool):
            return 'true' if schema else 'false'
        if '$ref' in schema:
            return 'same %d' % self.number(schema['$ref'][1:])
        return ' '.join(['all'] + [str(n) for n in self.keywords(schema, pointer)])

    def lines(self):
        entries = [self.entry(p) for p in self.places]
        table = entries + self.nodes
        return ['core %d' % len(table)] + ['%d %s' % (i, words) for i, words in enumerate(table)]


CASES = [
    # no keywords
    True, False, {}, {'title': 'a', 'format': 'date'},
    # of each kind of document
    {'type': 'integer'}, {'type': ['object', 'null', 'number', 'integer', 'null']}, {'type': []},
    {'enum': []}, {'enum': [None, None]}, {'enum': [True]}, {'enum': [False, False]}, {'enum': [True, None, False]},
    {'enum': [2, 1, 2, -3, 1]}, {'enum': ['b', 'a', 'b', '']}, {'enum': [[], {}, [], [1]]},
    {'enum': [{'b': 1, 'a': [None]}, 'x', 18446744073709551615, [False], -9223372036854775808, None, True]},
    {'const': None}, {'const': True}, {'const': -1}, {'const': 'é"\\\n\u0001😀'}, {'const': []}, {'const': {}},
    {'const': [[1, 'a'], {'k': {'l': None}}]}, {'const': {'z': 1, 'a': {'b': []}, '': 'v'}},
    # of one kind each
    {'multipleOf': 3}, {'minimum': -5}, {'exclusiveMinimum': -9223372036854775808}, {'maximum': 7},
    {'exclusiveMaximum': 18446744073709551615}, {'exclusiveMinimum': 18446744073709551615},
    {'exclusiveMaximum': -9223372036854775808},
    {'minimum': 1, 'maximum': 9, 'exclusiveMinimum': 0, 'exclusiveMaximum': 10, 'multipleOf': 2},
    {'minLength': 0, 'maxLength': 18446744073709551615}, {'pattern': '^a"\\\\[b-d]{2,3}$'}, {'pattern': ''},
    {'items': True}, {'items': []}, {'items': [True, {'type': 'null'}]}, {'items': [{'type': 'null'}], 'additionalItems': False},
    {'items': {}, 'additionalItems': False}, {'contains': {'type': 'string'}}, {'minItems': 1, 'maxItems': 2},
    {'required': []}, {'required': ['b', 'a', 'b', 'c', 'a']}, {'required': ['"', '\\', '\t']},
    {'properties': {'b': True, 'a': False}}, {'properties': {}}, {'patternProperties': {'^b': True, 'a$': {'minimum': 1}}},
    {'additionalProperties': False},
    {'properties': {'b': {}, 'a': {}}, 'patternProperties': {'y': True, 'x': True}, 'additionalProperties': {'type': 'null'}},
    {'properties': {'a/b': True, '~': False}, 'additionalProperties': True},
    {'propertyNames': {'minLength': 2}}, {'minProperties': 1, 'maxProperties': 3},
    {'dependencies': {'b': ['a', 'a'], 'a': {'required': ['c']}, 'c': [], 'd': False}}, {'dependencies': {}},
    # of the same document
    {'allOf': [True, False]}, {'anyOf': [{'type': 'null'}]}, {'oneOf': [True, True, {'minimum': 0}]}, {'not': {}},
    {'allOf': [{'type': 'object'}], 'anyOf': [True], 'oneOf': [False], 'not': {'const': 1}},
    # references
    {'$ref': '#/definitions/a', 'type': 'null', 'definitions': {'a': {'minimum': 1}}},
    {'properties': {'next': {'$ref': '#'}, 'value': {'type': 'number'}}, 'required': ['value']},
    {'definitions': {'a': {'type': 'string'}}, 'anyOf': [{'$ref': '#/definitions/a'}, {'$ref': '#/definitions/a'}]},
    {'items': {'$ref': '#/definitions/list'}, 'definitions': {'list': {'items': {'$ref': '#/definitions/list'}}}},
    {'allOf': [{'$ref': '#/properties/a'}], 'properties': {'a': {'enum': [1, [2]]}}},
    # together
    {'enum': [3, 'x', None], 'not': {'type': 'null'}},
    {'dependencies': {'a': ['b']}, 'required': ['a'], 'type': 'object'},
    {'type': ['array', 'string'], 'enum': [['a'], 'b'], 'const': 'b', 'minLength': 1, 'items': [{'const': 'a'}], 'contains': True,
     'maxItems': 4, 'required': ['q'], 'properties': {'q': {'const': {'r': 0}}}, 'additionalProperties': {'enum': [False]},
     'dependencies': {'q': {'not': False}}, 'maxProperties': 9, 'oneOf': [{'minimum': 2}, {'maximum': 1}]},
    {'properties': {'a': {'properties': {'a': {'properties': {'a': {'enum': [{}]}}}}}}},
]


def main():
    with open(os.path.join(HERE, 'stdin'), 'w', encoding='utf-8') as schemas:
        schemas.writelines(json.dumps(schema, ensure_ascii=False) + '\n' for schema in CASES)
    with open(os.path.join(HERE, 'stdout'), 'w', encoding='utf-8') as texts:
        texts.writelines('\n'.join(Table(schema).lines()) + '\n' for schema in CASES)


if __name__ == '__main__':
    main()
