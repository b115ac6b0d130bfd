#!/usr/bin/env python3
"""Writes large schemas and documents to measure validators with: large.py FOLDER [SEED].

    records        10 MB of records, a schema of 62 places: `$ref`, `enum`, `pattern`, `required`, lists in lists
    alternatives   a schema of 4,882 places: eighty kinds of nodes, told apart by a `const`; below each a node is
                   asked for by an `anyOf` of fifty references, and so on; a document of 1.5 MB of such nodes
    small          a document of one node, with the same schema
    patterns       100,000 members, twenty `patternProperties` that begin with `^` and a letter
    tree           112,000 values, at each an `anyOf` in a `oneOf` that refers to itself
    properties     20,000 members, 2,000 `properties` and `additionalProperties`
    required       20,000 members, 2,000 `required` names
    enum           20,000 texts, an `enum` of 1,000 texts

Each NAME has NAME.schema and NAME.document. All documents are valid. The same seed gives the same files."""
import json
import random
import sys

KINDS, REFERENCES, BYTES = 80, 50, 1500000


def node_schema(kind, rng):
    """A node of a kind: what tells it apart, a few plain members, and nodes below it."""
    below = {'anyOf': [{'$ref': '#/definitions/k%d' % other} for other in alternatives(kind)]}
    return {
        'type': 'object',
        'required': ['class', 'id'],
        'properties': {
            'class': {'const': 'k%d' % kind},
            'id': {'type': 'integer', 'minimum': 0},
            'label': {'type': 'string', 'maxLength': 40 + rng.randrange(20)},
            'marks': {'type': 'array', 'items': {'enum': ['read', 'write', 'run']}},
            'part': below,
            'parts': {'type': 'array', 'items': {'$ref': '#/definitions/k%d/properties/part' % kind}},
        },
        'additionalProperties': False,
    }


def alternatives(kind):
    """The kinds that may stand below one: fifty, in an order of its own."""
    return [(kind * 7 + 11 * at) % KINDS for at in range(REFERENCES)]


def node(kind, depth, rng):
    it = {'class': 'k%d' % kind, 'id': rng.randrange(1 << 40)}
    if rng.random() < 0.5:
        it['label'] = 'label %d' % rng.randrange(10 ** 9)
    if rng.random() < 0.3:
        it['marks'] = rng.choices(['read', 'write', 'run'], k=rng.randrange(4))
    if depth:
        if rng.random() < 0.5:
            it['part'] = node(rng.choice(alternatives(kind)), depth - 1, rng)
        it['parts'] = [node(rng.choice(alternatives(kind)), depth - 1, rng) for _ in range(rng.randrange(4))]
    return it


def alternatives_schema(rng):
    return {'definitions': {'k%d' % kind: node_schema(kind, rng) for kind in range(KINDS)},
            'type': 'array',
            'items': {'anyOf': [{'$ref': '#/definitions/k%d' % kind} for kind in range(KINDS)]}}


def alternatives_document(rng):
    nodes, size = [], 0
    while size < BYTES:
        nodes.append(node(rng.randrange(KINDS), 6, rng))
        size += len(json.dumps(nodes[-1], separators=(',', ':')))
    return nodes


def records(rng):
    schema = {
        'type': 'array',
        'items': {'$ref': '#/definitions/record'},
        'definitions': {
            'name': {'type': 'string', 'minLength': 1, 'maxLength': 60, 'pattern': '^[A-Za-z][A-Za-z0-9 ]*$'},
            'mail': {'type': 'string', 'pattern': '^[a-z0-9]+@[a-z0-9]+\\.[a-z]{2,3}$'},
            'amount': {'type': 'integer', 'minimum': 0, 'maximum': 10 ** 9},
            'address': {
                'type': 'object', 'required': ['street', 'city', 'code'],
                'properties': {'street': {'$ref': '#/definitions/name'}, 'city': {'$ref': '#/definitions/name'},
                               'code': {'type': 'string', 'pattern': '^[0-9]{5}$'},
                               'country': {'enum': ['at', 'be', 'ch', 'de', 'dk', 'es', 'fr', 'it', 'nl', 'pl']}},
                'additionalProperties': False,
            },
            'line': {
                'type': 'object', 'required': ['article', 'count', 'price'],
                'properties': {'article': {'$ref': '#/definitions/name'},
                               'count': {'type': 'integer', 'minimum': 1, 'maximum': 1000},
                               'price': {'$ref': '#/definitions/amount'},
                               'tags': {'type': 'array', 'items': {'type': 'string', 'maxLength': 20}, 'maxItems': 8},
                               'gift': {'type': 'boolean'}},
            },
            'record': {
                'type': 'object', 'required': ['id', 'name', 'mail', 'state', 'lines'],
                'properties': {'id': {'type': 'integer', 'minimum': 1}, 'name': {'$ref': '#/definitions/name'},
                               'mail': {'$ref': '#/definitions/mail'},
                               'state': {'enum': ['new', 'paid', 'packed', 'sent', 'done', 'returned']},
                               'address': {'$ref': '#/definitions/address'},
                               'billing': {'$ref': '#/definitions/address'},
                               'lines': {'type': 'array', 'items': {'$ref': '#/definitions/line'}, 'minItems': 1},
                               'grid': {'type': 'array', 'items': {'type': 'array', 'items': {'type': 'integer'}}},
                               'options': {'$ref': '#/definitions/options'},
                               'history': {'type': 'array', 'items': {'$ref': '#/definitions/event'}},
                               'note': {'type': ['string', 'null'], 'maxLength': 200}},
                'additionalProperties': False,
            },
            'options': {'type': 'object',
                        'properties': {'option%d' % at: {'type': ['boolean', 'integer']} for at in range(20)},
                        'additionalProperties': False},
            'event': {'type': 'object', 'required': ['at', 'what'],
                      'properties': {'at': {'type': 'integer', 'minimum': 0}, 'by': {'$ref': '#/definitions/name'},
                                     'what': {'enum': ['made', 'changed', 'sent', 'closed']},
                                     'old': {'type': 'string'}}},
        },
    }
    def name(): return 'Name%d of things' % rng.randrange(10 ** 6)

    def address():
        return {'street': name(), 'city': name(), 'code': '%05d' % rng.randrange(10 ** 5),
                'country': rng.choice(['at', 'be', 'de', 'fr'])}

    document, size = [], 0
    while size < 10000000:
        record = {'id': len(document) + 1, 'name': name(), 'mail': 'n%d@example.org' % rng.randrange(10 ** 6),
                  'state': rng.choice(['new', 'paid', 'packed', 'sent']), 'address': address(),
                  'lines': [{'article': name(), 'count': rng.randrange(1, 1000), 'price': rng.randrange(10 ** 6),
                             'tags': ['tag%d' % rng.randrange(100) for _ in range(rng.randrange(4))],
                             'gift': rng.random() < 0.5} for _ in range(rng.randrange(1, 5))],
                  'grid': [[rng.randrange(100) for _ in range(4)] for _ in range(3)],
                  'options': {'option%d' % rng.randrange(20): rng.random() < 0.5 for _ in range(3)},
                  'history': [{'at': rng.randrange(10 ** 9), 'what': rng.choice(['made', 'changed', 'sent'])}],
                  'note': rng.choice([None, 'a note'])}
        document.append(record)
        size += len(json.dumps(record, separators=(',', ':')))
    return schema, document


def families(rng):
    letters = 'abcdefghijklmnopqrst'
    yield ('patterns', {'patternProperties': {'^' + letter: {'type': 'integer'} for letter in letters}},
           {'%s%d' % (rng.choice(letters), at): at for at in range(100000)})
    tree = {'oneOf': [{'anyOf': [{'type': 'integer'}, {'type': 'string'}]},
                      {'type': 'array', 'items': {'$ref': '#/definitions/tree'}}]}

    def grown(depth):
        if depth == 0:
            return rng.choice([rng.randrange(1000), 'leaf'])
        return [grown(depth - 1) for _ in range(6)]

    yield 'tree', {'definitions': {'tree': tree}, '$ref': '#/definitions/tree'}, [grown(6) for _ in range(2)]
    yield ('properties', {'properties': {'p%d' % at: {'type': 'integer'} for at in range(2000)},
                          'additionalProperties': {'type': 'string'}},
           {**{'p%d' % at: at for at in range(2000)}, **{'q%d' % at: 'text' for at in range(18000)}})
    yield ('required', {'required': ['p%d' % at for at in range(2000)]}, {'p%d' % at: at for at in range(20000)})
    yield ('enum', {'items': {'enum': ['text %d' % at for at in range(1000)]}},
           ['text %d' % rng.randrange(1000) for _ in range(20000)])


def main():
    folder, seed = sys.argv[1], int(sys.argv[2]) if len(sys.argv) > 2 else 1
    rng = random.Random(seed)

    def write(name, schema, document):
        for end, value in (('schema', schema), ('document', document)):
            with open('%s/%s.%s' % (folder, name, end), 'w', encoding='utf-8') as out:
                json.dump(value, out, separators=(',', ':'))

    write('records', *records(rng))
    schema = alternatives_schema(rng)
    write('alternatives', schema, alternatives_document(rng))
    write('small', schema, [node(0, 1, rng)])
    for family in families(rng):
        write(*family)


if __name__ == '__main__':
    main()
