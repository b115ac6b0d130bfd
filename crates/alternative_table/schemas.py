"""The schemas of this table: lists by subject, and schemas by chance."""
import json
import random

from tables import KINDS


def at(kind, *asked, **keywords):
    """A schema of one kind, with these keywords and all of these schemas."""
    return {'type': kind, **keywords, **({'allOf': list(asked)} if asked else {})}


def no(schema=None, **keywords):
    return {'not': keywords if schema is None else schema}


def ref(name):
    return {'$ref': '#/definitions/' + name}


def compact(schema):
    return json.dumps(schema, ensure_ascii=False, separators=(',', ':'))


ALL, NULL, TRUTH, NUMBER, STRING, ARRAY = True, {'type': 'null'}, *({'type': k} for k in KINDS[1:5])
PLAIN = [
    # what asks nothing, and what clashes
    True, False, {}, no(True), no(False), no({}), no(no(True)), {'title': 'a'}, {'allOf': [False]},
    {'anyOf': [False, False]},
    {'definitions': {'a': False}, '$ref': '#/definitions/a'}, {'definitions': {'a': True}, '$ref': '#/definitions/a'},
    # kinds
    *({'type': kind} for kind in KINDS), *(no(type=kind) for kind in KINDS), {'type': []}, no(type=[]),
    {'type': 'integer'},
    {'type': ['string', 'null', 'array']}, no(type=['string', 'null', 'array']),
    {'allOf': [{'type': ['null', 'string']}, {'type': ['string', 'array']}]},
    {'allOf': [{'type': ['null', 'string']}, no(type='string')]}, {'anyOf': [NULL, TRUTH]},
    {'oneOf': [NULL, TRUTH, NUMBER]},
    # truth values
    {'const': True}, {'const': False}, no(const=True), at('boolean', no(const=False)), {'enum': [True, False]},
    {'enum': [False, None]}, no(enum=[True, None]), at('boolean', no(const=True), no(const=False)),
    at('boolean', {'const': True}, {'const': False}), at('boolean', {'anyOf': [{'const': True}, {'const': False}]}),
    at('boolean', {'oneOf': [{'const': True}, ALL]}), at('boolean', no({'oneOf': [{'const': True}, ALL]})),
    # listed values of several kinds
    {'const': None}, {'const': 5}, {'const': 'ab'}, {'const': []}, {'const': [1]}, {'const': [[], [None, 'x']]},
    {'enum': [None, True, 1, 'a', [], [2]]}, no(enum=[None, True, 1, 'a', [], [2]]), {'enum': []}, no(enum=[]),
    {'enum': [3, 'x', None], 'not': NULL}, {'enum': [1, 2, 'x'], 'allOf': [no(const='x')]}, no(const=[1, 2]),
    at('array', {'enum': [[1, 2], [1], [[1]]]}, no(const=[1])), at('array', no(const=[]), no(const=[1])),
]
NUMBERS = [
    {'minimum': 3}, {'minimum': -3}, {'maximum': 7}, {'maximum': -7}, {'exclusiveMinimum': 3}, {'exclusiveMaximum': 3},
    {'minimum': 3, 'maximum': 3}, {'minimum': 4, 'maximum': 3}, {'exclusiveMinimum': 3, 'exclusiveMaximum': 4},
    {'exclusiveMinimum': 3, 'exclusiveMaximum': 5}, {'multipleOf': 3}, {'multipleOf': 1},
    {'minimum': 1, 'multipleOf': 3},
    {'minimum': -4, 'multipleOf': 3}, {'minimum': 6, 'multipleOf': 3}, {'maximum': -1, 'multipleOf': 3},
    {'maximum': 4, 'multipleOf': 3}, {'maximum': -6, 'multipleOf': 3}, {'minimum': 7, 'maximum': 8, 'multipleOf': 3},
    {'minimum': 7, 'maximum': 9, 'multipleOf': 3}, {'minimum': 1, 'maximum': 11,
        'allOf': [{'multipleOf': 4}, {'multipleOf': 6}]},
    {'minimum': 1, 'allOf': [{'multipleOf': 4}, {'multipleOf': 6}]}, {'enum': [5, 3, 4], 'minimum': 4},
    {'enum': [5, 3, 4], 'maximum': 2}, {'enum': [9, 7, 8, 6], 'multipleOf': 2},
    {'enum': [3, 1, 2], 'allOf': [{'enum': [2, 1]}]},
    {'enum': [3, 1], 'const': 1}, {'enum': [3, 1], 'const': 2}, {'enum': [0, 5], 'not': {'const': 0}},
    {'enum': [6, 4, 3], 'not': {'multipleOf': 2}}, {'const': 18446744073709551615}, {'const': -9223372036854775808},
    {'minimum': 18446744073709551615}, {'exclusiveMinimum': 18446744073709551615}, {'maximum': -9223372036854775808},
    {'exclusiveMaximum': -9223372036854775808}, {'minimum': 18446744073709551615, 'multipleOf': 7},
    {'maximum': -9223372036854775808, 'multipleOf': 7}, {'multipleOf': 18446744073709551615, 'minimum': 1},
]
MORE_NUMBERS = [
    no(minimum=3), no(maximum=3), no(exclusiveMinimum=3), no(exclusiveMaximum=3), no(multipleOf=3), no(multipleOf=1),
    no(const=0), no(enum=[0, 1, -1, 2]), at('number', no(multipleOf=2), minimum=2),
    at('number', no(multipleOf=2), maximum=2),
    at('number', no(multipleOf=2), no(multipleOf=3)), at('number', no(multipleOf=2), multipleOf=4),
    at('number', no(multipleOf=4), multipleOf=2), at('number', no(multipleOf=6), multipleOf=2, minimum=5),
    at('number', no(multipleOf=2), minimum=4, maximum=4), at('number', no(enum=[1, 2, 3]), minimum=1, maximum=3),
    at('number', no(enum=[1, 2, 3]), minimum=1, maximum=4), at('number', no(const=0), no(const=3), no(const=-3),
        multipleOf=3),
    at('number', no(minimum=5), no(maximum=2)), at('number', no(minimum=5), no(maximum=4)),
    at('number', no(minimum=5), minimum=3), at('number', {'minimum': 2}, {'minimum': 5}, {'maximum': 9},
        {'maximum': 7}),
    at('number', {'anyOf': [{'minimum': 5}, {'maximum': -5}, {'multipleOf': 4}]}),
    at('number', {'oneOf': [{'minimum': 5}, {'maximum': 7}, {'multipleOf': 3}]}),
    at('number', no({'oneOf': [{'minimum': 5}, {'maximum': 7}, {'multipleOf': 3}]})),
    at('number', no({'allOf': [{'minimum': 5}, {'multipleOf': 2}]}), minimum=3),
    at('number', no({'anyOf': [{'minimum': 5}, {'multipleOf': 2}]})),
    # a least common multiple of nearly 2^127, and one of more
    at('number', {'multipleOf': 9223372036854775783}, {'multipleOf': 18446744073709551557}, minimum=1),
    at('number', {'multipleOf': 9223372036854775783}, {'multipleOf': 18446744073709551557}, maximum=-1),
    at('number', {'multipleOf': 18446744073709551557}, {'multipleOf': 18446744073709551533}),
    at('number', {'multipleOf': 18446744073709551557}, {'multipleOf': 18446744073709551533}, minimum=2, maximum=1),
    at('number', {'multipleOf': 18446744073709551557}, {'multipleOf': 18446744073709551533}, enum=[4, 0]),
    at('number', {'multipleOf': 18446744073709551557}, {'multipleOf': 18446744073709551533}, no(multipleOf=1)),
]
STRINGS = [
    {'minLength': 3}, {'maxLength': 3}, {'minLength': 0}, {'maxLength': 0}, {'minLength': 2, 'maxLength': 2},
    {'minLength': 3, 'maxLength': 2}, {'minLength': 70000, 'maxLength': 5}, {'const': ''}, {'enum': ['b', 'a', 'ab']},
    {'enum': ['b', 'aa'], 'minLength': 2}, {'enum': ['b', 'aa'], 'maxLength': 0},
    {'enum': ['é', 'Z', '9', '~', '\u007f']},
    {'enum': ['\U0001F600', '\u2028']}, {'enum': ['"\\', '\u0001\n\t\b']}, {'pattern': ''}, {'pattern': 'a'},
    {'pattern': '^a$'}, {'pattern': 'b'}, {'pattern': '^[^a-z]$'}, {'pattern': '^[^a-zA-Z]$'}, {'pattern': r'^\W$'},
    {'pattern': r'^[^ -~]$'}, {'pattern': r'^[^\u0000-\u007f]+$'}, {'pattern': r'^\u{1F600}$'}, {'pattern': r'^\s$'},
    {'pattern': r'\d{3}-\d{4}'}, {'pattern': r'^\d+$', 'minLength': 2}, {'pattern': '^.$'}, {'pattern': r'^[^.]$'},
    {'pattern': '[]'}, {'pattern': '[^]'}, {'pattern': '^$'}, {'pattern': '$^'}, {'pattern': 'a^'}, {'pattern': 'a$b'},
    {'pattern': 'ab|c'}, {'pattern': '^(?:ab|c)+$', 'minLength': 4}, {'pattern': '^a{3}$', 'maxLength': 2},
    {'pattern': '^a{3}$', 'maxLength': 3}, {'pattern': '^(ab)*$', 'minLength': 1},
    {'pattern': '^a?b?c?$', 'minLength': 2},
    {'pattern': '^[b-d]{2,4}$', 'minLength': 3}, {'pattern': '^a{2,}b$'}, {'pattern': '^(a|b){1,2}?c$'},
    {'pattern': '^x-', 'enum': ['name', 'x-b', 'x-a']}, {'pattern': '^x-', 'enum': ['name', 'y']},
    {'pattern': '^A*B$', 'minLength': 3}, {'pattern': r'^\x41\u0042$'}, {'pattern': r'^[\d\-x]{2}$'},
    {'pattern': r'\.'},
]
MORE_STRINGS = [
    no(minLength=3), no(maxLength=3), no(minLength=0), no(pattern='a'), no(pattern=''),
    no(pattern='^[^a]'), no(const=''), no(enum=['', 'a', 'b', 'c']), at('string', no(pattern='a'), minLength=2),
    at('string', no(pattern='a'), no(pattern='b'), minLength=1), at('string', no(pattern='^[ab]*$')),
    at('string', no(pattern='[^a]'), minLength=3), at('string', no(pattern='a|b'), pattern='^[a-c]{2}$'),
    at('string', no(pattern='b$'), pattern='^a'), at('string', {'pattern': 'b$'}, pattern='^a'),
    at('string', {'pattern': 'a'}, {'pattern': 'b'}, {'pattern': 'c'}), at('string', no(pattern='^a'), pattern='^a'),
    at('string', {'pattern': '^(aa)*$'}, {'pattern': '^(aaa)*$'}, minLength=1),
    at('string', {'pattern': '^(aa)*$'}, no(pattern='^(aaa)*$'), minLength=5),
    at('string', {'pattern': '^(aa)*$'}, no(pattern='^a*$')), at('string', no(const='a'), enum=['a', 'b']),
    at('string', no(enum=['a', 'b']), enum=['a', 'b']), at('string', {'enum': ['c', 'b']}, enum=['a', 'b', 'c']),
    at('string', no(enum=['a', 'b', 'c']), pattern='^[a-d]$'), at('string', no(minLength=3), no(maxLength=1)),
    at('string', no(minLength=2), no(maxLength=1)), at('string', no(minLength=2), {'minLength': 1}, maxLength=4),
    at('string', {'anyOf': [{'minLength': 3}, {'pattern': 'b'}, {'const': 'c'}]}),
    at('string', {'oneOf': [{'minLength': 2}, {'pattern': 'b'}]}),
    at('string', no({'oneOf': [{'minLength': 2}, {'pattern': 'b'}]})),
    at('string', no({'anyOf': [{'minLength': 3}, {'pattern': 'a'}, {'const': ''}]})),
    at('string', no({'allOf': [{'minLength': 1}, {'pattern': 'a|^$'}]})),
    at('string', {'enum': [chr(0x100 + i) for i in range(1023)]}),
]
ARRAYS = [
    {'items': TRUTH}, {'items': NULL, 'minItems': 2}, {'items': False}, {'items': False, 'minItems': 1},
    {'items': True, 'minItems': 1},
    {'items': []}, {'items': [NULL]}, {'items': [NULL, TRUTH], 'minItems': 1}, {'items': [NULL, TRUTH], 'minItems': 2},
    {'items': [NULL, TRUTH], 'minItems': 4}, {'items': [NULL], 'additionalItems': False},
    {'items': [NULL], 'additionalItems': False, 'minItems': 2},
    {'items': [NULL], 'additionalItems': TRUTH, 'minItems': 3},
    {'items': NULL, 'additionalItems': False, 'minItems': 2}, {'items': [False]}, {'items': [False], 'minItems': 1},
    {'items': [NULL, False], 'minItems': 1}, {'contains': NULL}, {'contains': NULL, 'minItems': 3},
    {'contains': NULL, 'maxItems': 1}, {'contains': NULL, 'maxItems': 0}, {'contains': False}, {'contains': True},
    {'contains': NULL, 'items': [TRUTH, NUMBER]}, {'contains': NULL, 'items': [TRUTH, NUMBER], 'maxItems': 2},
    {'contains': NULL, 'items': [TRUTH, NUMBER], 'maxItems': 1, 'minItems': 1},
    {'contains': NULL, 'items': [TRUTH, NUMBER], 'additionalItems': STRING, 'minItems': 4}, {'minItems': 2},
    {'maxItems': 2},
    {'minItems': 2, 'maxItems': 2}, {'minItems': 3, 'maxItems': 2}, {'maxItems': 0},
    {'minItems': 0, 'items': [True, True, True]},
    {'minItems': 2, 'items': [True, True, True]}, {'minItems': 65536}, {'minItems': 65536, 'items': [NULL, TRUTH]},
    {'minItems': 65536, 'maxItems': 65536, 'contains': NULL}, {'minItems': 65537}, {'minItems': 65537, 'maxItems': 9},
    {'minItems': 18446744073709551615}, {'minItems': 3, 'contains': {'type': 'array', 'minItems': 1},
        'items': {'minItems': 2}},
]
MORE_ARRAYS = [
    no(items=NULL), no(items=[NULL]), no(items=[NULL, TRUTH]), no(items=[NULL], additionalItems=TRUTH), no(items=True),
    no(items=[True, False]), no(contains=NULL), no(contains=True), no(contains=False), no(minItems=2), no(maxItems=2),
    no(minItems=0),
    no(maxItems=18446744073709551615), at('array', no(contains=NULL), minItems=2),
    at('array', no(contains=True), minItems=1),
    at('array', no(contains=NULL), contains=TRUTH), at('array', no(contains=NULL), contains=NULL),
    at('array', no(contains=ref('a')), contains=ref('a'), definitions={'a': NULL}),
    at('array', no(contains=ref('a')), items=ref('a'), definitions={'a': NULL}),
    at('array', no(contains=ref('a')), items=ref('a'), minItems=1, definitions={'a': NULL}),
    at('array', no(items=ref('a')), items=ref('a'), definitions={'a': NULL}),
    at('array', no(items=[ref('a')]), items=[NULL, ref('a')], definitions={'a': TRUTH}),
    at('array', no(items=[NULL, NULL]), contains=TRUTH), at('array', no(items=[NULL, NULL]), contains=TRUTH,
        maxItems=1),
    at('array', {'contains': NULL}, {'contains': TRUTH}), at('array', {'contains': NULL}, {'contains': TRUTH},
        maxItems=1),
    at('array', {'contains': NULL}, {'contains': TRUTH}, {'contains': NUMBER}),
    at('array', {'contains': NULL}, {'contains': TRUTH}, {'contains': NUMBER}, maxItems=2, minItems=2),
    at('array', {'contains': NULL}, {'contains': TRUTH}, {'contains': NUMBER}, {'contains': STRING}, maxItems=2),
    at('array', {'contains': NULL}, {'contains': TRUTH}, items=[NUMBER]),
    at('array', {'contains': ref('a')}, {'contains': no(ref('a'))},
       items=[ref('a'), True], definitions={'a': NULL}),
    at('array', {'contains': ref('a')}, no(items=ref('a')), definitions={'a': NULL}),
    at('array', {'contains': ref('a')}, no(items=[True, ref('a')]), items=[True, no(ref('a')), NULL], maxItems=3,
        definitions={'a': NULL}),
    at('array', no(items=[False, ref('a')]), no(items=ref('a')), definitions={'a': NULL}),
    at('array', no(items=[NULL]), no(items=[TRUTH, TRUTH]), no(contains=NUMBER)),
    at('array', {'items': [NULL]}, {'items': [True, TRUTH], 'additionalItems': NUMBER}, {'items': {'minimum': 3}},
        minItems=4),
    at('array', {'minItems': 1}, {'minItems': 4}, {'maxItems': 9}, {'maxItems': 6}, no(minItems=6), no(maxItems=4)),
    at('array', {'anyOf': [{'minItems': 2}, {'contains': NULL}, {'items': TRUTH}]}),
    at('array', {'oneOf': [{'minItems': 2}, {'contains': NULL}]}),
    at('array', no({'oneOf': [{'minItems': 2}, {'contains': NULL}]})),
    at('array', no({'anyOf': [{'minItems': 2}, {'contains': NULL}]})),
    at('array', no({'allOf': [{'minItems': 2}, {'contains': NULL}]})),
    at('array', {'items': no(NULL)}, {'contains': {'anyOf': [NULL, TRUTH]}}, minItems=1),
    # an element after all lists, though each list alone is shorter
    at('array', {'items': [NULL]}, {'items': [True, True, NULL]}, {'contains': STRING}, no(items=[True, STRING])),
    at('array', {'contains': NULL}, items=[True, True], minItems=3),
    at('array', {'contains': False}, {'contains': NULL}),
    at('array', *({'contains': {'minimum': k}} for k in range(5)), maxItems=2),
    at('array', *({'contains': {'minimum': k}} for k in range(5))),
    # two ends of the plan tree, the second of which is too long, and neither
    at('array', maxItems=1, contains=NULL, items=[STRING]), at('array', maxItems=2, contains=NULL, items=[STRING]),
]
RECURSIVE = [
    {'items': {'$ref': '#'}}, {'contains': {'$ref': '#'}}, at('array', contains={'$ref': '#'}), no(items={'$ref': '#'}),
    {'anyOf': [NULL, at('array', items={'$ref': '#'}, minItems=1)]},
    {'oneOf': [NULL, at('array', contains={'$ref': '#'})]},
    {**ref('list'), 'definitions': {'list': {'anyOf': [NULL,
        at('array', items=[NUMBER, ref('list')], minItems=2, maxItems=2)]}}},
    {**no(ref('list')), 'definitions': {'list': {'anyOf': [NULL,
        at('array', items=[NUMBER, ref('list')], minItems=2, maxItems=2)]}}},
    {**ref('even'), 'definitions': {'even': at('array', items=ref('odd')),
        'odd': at('array', items=ref('even'), minItems=1)}},
    {'allOf': [ref('a'), no(ref('b'))], 'definitions': {'a': {'items': ref('a')}, 'b': {'items': ref('b')}}},
    {'allOf': [ref('a'), no(ref('a'))], 'definitions': {'a': {'items': ref('a')}}},
    {'anyOf': [ref('a'), no(ref('a'))], 'definitions': {'a': at('array', items=ref('a'))}},
    at('array', items=no({'$ref': '#'}), minItems=1), at('array', contains=no({'$ref': '#'}), items=[{'$ref': '#'}]),
    {**ref('a'), 'definitions': {'a': ref('b'), 'b': ref('c'), 'c': {'const': 7}}},
    at('array', items=[ref('a'), ref('b')], minItems=2, definitions={'a': ref('b'), 'b': {'const': 7}}),
    at('array', {'contains': ref('a')}, items=ref('b'), definitions={'a': no(ref('b')), 'b': {'const': 7}}),
]

OBJECTS = [
    # each keyword alone
    {'required': []}, {'required': ['a']}, {'required': ['b', 'a']}, {'required': ['a', 'a']}, {'required': ['']},
    {'required': ['é', '\U0001F600']}, {'required': ['"\\', '\u0001\n']}, {'properties': {}},
    {'properties': {'a': NULL}}, {'properties': {'a': NULL, 'b': TRUTH}}, {'properties': {'a': False}},
    {'properties': {'a': True}}, {'patternProperties': {}}, {'patternProperties': {'a': NULL}},
    {'patternProperties': {'^a': NULL, 'b$': TRUTH}}, {'patternProperties': {'': NULL}},
    {'patternProperties': {'[]': NULL}}, {'additionalProperties': NULL}, {'additionalProperties': False},
    {'additionalProperties': True}, {'propertyNames': STRING}, {'propertyNames': NUMBER}, {'propertyNames': False},
    {'propertyNames': {'pattern': '^a'}}, {'propertyNames': {'maxLength': 2}}, {'propertyNames': {'minLength': 2}},
    {'propertyNames': {'enum': ['a', 'b']}}, {'propertyNames': {'const': 'a'}}, {'propertyNames': {'minimum': 3}},
    {'minProperties': 0}, {'minProperties': 1}, {'minProperties': 3}, {'maxProperties': 0}, {'maxProperties': 2},
    {'minProperties': 2, 'maxProperties': 2}, {'minProperties': 3, 'maxProperties': 2},
    {'dependencies': {}}, {'dependencies': {'a': []}}, {'dependencies': {'a': ['b']}},
    {'dependencies': {'a': ['b', 'c']}}, {'dependencies': {'a': ['a']}}, {'dependencies': {'a': False}},
    {'dependencies': {'a': True}}, {'dependencies': {'a': {'minProperties': 2}}},
    {'dependencies': {'a': {'properties': {'b': NULL}}, 'b': ['a']}}, {'dependencies': {'a': NULL}},
    # names with what is asked of them
    {'required': ['a'], 'properties': {'a': NULL}}, {'required': ['a'], 'properties': {'a': False}},
    {'required': ['a'], 'properties': {'b': NULL}}, {'required': ['a'], 'additionalProperties': NULL},
    {'required': ['a'], 'additionalProperties': False}, {'required': ['a', 'b'], 'properties': {'a': NULL},
        'additionalProperties': TRUTH},
    {'required': ['a', 'b'], 'properties': {'a': NULL}, 'additionalProperties': False},
    {'required': ['a'], 'patternProperties': {'a': NULL, '^': {'minLength': 2}}},
    {'required': ['ab'], 'patternProperties': {'^a': NULL, 'b$': TRUTH}},
    {'required': ['ab', 'a', 'b', 'c'], 'patternProperties': {'^a': NULL, 'b$': {}}, 'additionalProperties': NUMBER},
    {'required': ['aa', 'ba'], 'properties': {'aa': NUMBER}, 'patternProperties': {'^a': {'minimum': 3}, 'a$': {}}},
    {'required': ['a'], 'propertyNames': {'pattern': '^b'}}, {'required': ['b'], 'propertyNames': {'pattern': '^b'}},
    {'required': ['b', 'bb'], 'propertyNames': {'maxLength': 1}}, {'required': ['a'], 'propertyNames': NULL},
    {'required': ['a', 'b'], 'maxProperties': 1}, {'required': ['a', 'b'], 'maxProperties': 2},
    {'required': ['a', 'b'], 'minProperties': 2}, {'required': ['a', 'b'], 'minProperties': 4},
    {'required': ['a', 'b'], 'minProperties': 4, 'propertyNames': {'pattern': '^[ab]?$'}},
    {'required': ['a'], 'dependencies': {'a': ['b']}}, {'required': ['a'], 'dependencies': {'a': ['b'], 'b': ['c']}},
    {'required': ['a'], 'dependencies': {'a': False}}, {'required': ['a', 'b'], 'dependencies': {'a': {'not':
        {'required': ['b']}}}},
    {'required': ['a'], 'dependencies': {'a': {'properties': {'a': NULL}}, 'b': {'properties': {'a': TRUTH}}}},
    {'required': ['a', 'b'], 'dependencies': {'a': {'required': ['c'], 'maxProperties': 3}}, 'minProperties': 3},
    # counts, and what is left for fillers
    {'minProperties': 1, 'additionalProperties': False}, {'minProperties': 1, 'additionalProperties': NULL},
    {'minProperties': 1, 'properties': {'a': NULL}, 'additionalProperties': False},
    {'minProperties': 2, 'properties': {'a': NULL}, 'additionalProperties': False},
    {'minProperties': 2, 'properties': {'a': NULL, 'b': TRUTH}, 'additionalProperties': False},
    {'minProperties': 3, 'properties': {'a': NULL, 'b': TRUTH}, 'additionalProperties': NUMBER},
    {'minProperties': 2, 'properties': {'a': False, 'b': TRUTH}, 'additionalProperties': NUMBER},
    {'minProperties': 2, 'patternProperties': {'^a$': NULL, '^b?$': TRUTH}, 'additionalProperties': False},
    {'minProperties': 3, 'patternProperties': {'^a$': NULL, '^b?$': TRUTH}, 'additionalProperties': False},
    {'minProperties': 4, 'patternProperties': {'^a$': NULL, '^b?$': TRUTH}, 'additionalProperties': False},
    {'minProperties': 2, 'patternProperties': {'': False}}, {'minProperties': 2, 'patternProperties': {'^[^a]': False}},
    {'minProperties': 2, 'patternProperties': {'[^a]': False}}, {'minProperties': 1, 'patternProperties':
        {'a': NULL, 'b': NUMBER}},
    {'minProperties': 1, 'patternProperties': {'a': NULL, 'b': NUMBER, 'c': {'minimum': 3}}},
    {'minProperties': 1, 'propertyNames': False}, {'minProperties': 1, 'propertyNames': NUMBER},
    {'maxProperties': 0, 'propertyNames': False}, {'maxProperties': 0, 'required': ['a']},
    {'minProperties': 1, 'propertyNames': {'maxLength': 0}}, {'minProperties': 2, 'propertyNames': {'maxLength': 0}},
    {'minProperties': 65536}, {'minProperties': 65537}, {'minProperties': 65536, 'required': ['a']},
    {'minProperties': 65537, 'maxProperties': 65536}, {'minProperties': 65536, 'maxProperties': 65536},
    {'minProperties': 18446744073709551615}, {'maxProperties': 18446744073709551615},
    {'minProperties': 65537, 'propertyNames': {'minLength': 65536}},
    # finite cells, about the number that is counted to
    {'propertyNames': {'enum': ['a', 'b']}, 'minProperties': 2},
    {'propertyNames': {'enum': ['a', 'b']}, 'minProperties': 3},
    {'minProperties': 3, 'propertyNames': {'enum': ['b', 'a', 'ab']}},
    {'minProperties': 4, 'propertyNames': {'enum': ['b', 'a', 'ab']}},
    {'minProperties': 3, 'required': ['a'], 'propertyNames': {'enum': ['b', 'a', 'ab']}},
    {'minProperties': 26, 'propertyNames': {'pattern': '^[a-z]$'}},
    {'minProperties': 27, 'propertyNames': {'pattern': '^[a-z]$'}},
    {'minProperties': 9, 'propertyNames': {'pattern': '^[ab]{3}$'}},
    {'minProperties': 6, 'propertyNames': {'pattern': '^[ab]{1,2}$'}},
    {'minProperties': 15, 'propertyNames': {'pattern': '^[ab]{1,3}$', 'not': {'pattern': 'bb'}}},
    {'minProperties': 65536, 'propertyNames': {'pattern': r'^[\u{10000}-\u{1FFFF}]$'}},
    {'minProperties': 65536, 'propertyNames': {'pattern': r'^[\u{10000}-\u{1FFFE}]$'}},
    {'minProperties': 65536, 'propertyNames': {'pattern': r'^[\u{10000}-\u{20000}]$'}},
    {'minProperties': 65536, 'propertyNames': {'pattern': r'^[\u{10000}-\u{20001}]$'}},
    {'minProperties': 65536, 'propertyNames': {'pattern': r'^[\uD7FE-\uE001]$'}},
    {'minProperties': 65536, 'required': ['a'], 'propertyNames': {'pattern': '^([ab]{16}|a)$'}},
    {'minProperties': 1, 'propertyNames': {'pattern': '^([ab]{16}|a)$'}},
    {'minProperties': 1, 'propertyNames': {'maxLength': 1}},
    {'minProperties': 1, 'propertyNames': {'pattern': '^[^a]$'}},
    {'minProperties': 1, 'propertyNames': {'pattern': '^.{2}$'}},
    {'minProperties': 1, 'propertyNames': {'pattern': '^[a-z]{3,4}$'}},
    {'minProperties': 1, 'propertyNames': {'pattern': '^[0-9a-f]{4}$'}},
    {'minProperties': 1, 'propertyNames': {'pattern': '^(a|b)*c$'}},
    {'minProperties': 1, 'propertyNames': {'pattern': '^(a[]b|c)$'}},
    {'minProperties': 1, 'propertyNames': {'allOf': [{'pattern': 'a$'}, {'pattern': '^a'}, {'maxLength': 2}]}},
]


def each(key, *names, **more):
    """An object of which each of these names has what a definition asks."""
    return at('object', properties={name: ref(key) for name in names}, **more)


MORE_OBJECTS = [
    # each keyword negated, at all kinds and at objects
    no(required=['a']), no(required=['a', 'b']), no(required=[]), no(properties={'a': NULL}),
    no(properties={'a': NULL, 'b': TRUTH}), no(properties={'a': True}), no(properties={'a': False}), no(properties={}),
    no(patternProperties={'a': NULL}), no(patternProperties={'^a': NULL, 'b$': TRUTH}), no(patternProperties={'': {}}),
    no(patternProperties={'[]': NULL}), no(additionalProperties=NULL), no(additionalProperties=False),
    no(additionalProperties=True), no(properties={'a': {}}, patternProperties={'b': {}}, additionalProperties=False),
    no(properties={'a': NULL}, additionalProperties=TRUTH), no(propertyNames={'pattern': '^a'}),
    no(propertyNames={'maxLength': 2}), no(propertyNames={'enum': ['a', '']}), no(propertyNames=STRING),
    no(propertyNames=NUMBER), no(propertyNames=True), no(propertyNames=False), no(minProperties=0), no(minProperties=1),
    no(minProperties=3), no(maxProperties=0), no(maxProperties=2), no(maxProperties=65535), no(maxProperties=65536),
    no(maxProperties=18446744073709551615), no(dependencies={'a': ['b', 'c']}), no(dependencies={'a': []}),
    no(dependencies={'a': False}), no(dependencies={'a': {'maxProperties': 1}}),
    no(dependencies={'a': ['b'], 'b': ['a'], 'c': {'properties': {'a': NULL}}}),
    at('object', no(required=['a']), required=['a']), at('object', no(required=['a']), required=['b']),
    at('object', no(required=['a']), minProperties=1), at('object', no(required=['']), minProperties=1,
        propertyNames={'maxLength': 0}),
    at('object', no(required=['a']), propertyNames={'enum': ['a', 'b']}, minProperties=1),
    at('object', no(required=['a']), propertyNames={'enum': ['a', 'b']}, minProperties=2),
    at('object', no(required=['a']), no(properties={'a': NULL})),
    at('object', no(required=['a', 'b']), minProperties=2, propertyNames={'enum': ['a', 'b']}),
    at('object', no(properties={'a': NULL}), properties={'a': TRUTH}),
    at('object', each('a', 'a'), no(each('a', 'a')), definitions={'a': NULL}),
    at('object', each('a', 'a', 'b'), no(each('a', 'b', 'c')), definitions={'a': NULL}),
    at('object', no(patternProperties={'a': NULL}), propertyNames={'maxLength': 1}),
    at('object', no(patternProperties={'a': NULL}), maxProperties=0),
    at('object', no(additionalProperties=NULL), propertyNames={'enum': ['a']}, properties={'a': NUMBER}),
    at('object', no(properties={'b': {}}, additionalProperties=NULL), propertyNames={'enum': ['a', 'b']}),
    at('object', no(additionalProperties=ref('n')), additionalProperties=ref('n'), definitions={'n': NULL}),
    at('object', no(propertyNames={'pattern': 'a'}), propertyNames={'pattern': 'b'}),
    at('object', no(propertyNames={'pattern': 'a'}), propertyNames={'pattern': '^a*$'}),
    at('object', no(propertyNames={'pattern': 'a'}), no(propertyNames={'pattern': 'b'})),
    at('object', no(propertyNames={'pattern': 'a'}), no(propertyNames={'pattern': 'b'}), maxProperties=1),
    at('object', no(propertyNames={'minLength': 1}), no(propertyNames={'minLength': 2}), maxProperties=1),
    at('object', no(propertyNames={'minLength': 1}), no(propertyNames={'minLength': 2})),
    at('object', no(minProperties=3), minProperties=2), at('object', no(minProperties=3), minProperties=3),
    at('object', no(maxProperties=3), maxProperties=4), at('object', no(maxProperties=3), no(minProperties=5)),
    at('object', {'minProperties': 1}, {'minProperties': 3}, {'maxProperties': 9}, {'maxProperties': 6},
        no(minProperties=6), no(maxProperties=1)),
    # a name that serves two demands, and two names where one could
    at('object', no(patternProperties={'a': NULL}), no(patternProperties={'b': TRUTH})),
    at('object', no(patternProperties={'a': NULL}), no(patternProperties={'b': TRUTH}), maxProperties=1),
    at('object', no(patternProperties={'^a': NULL}), no(patternProperties={'b$': NULL}), maxProperties=1),
    at('object', no(patternProperties={'a': NULL}), no(patternProperties={'a': TRUTH})),
    at('object', no(patternProperties={'a': ref('n')}), no(patternProperties={'a': no(ref('n'))}),
        definitions={'n': NULL}),
    at('object', no(patternProperties={'a': ref('n')}), no(patternProperties={'a': no(ref('n'))}), maxProperties=1,
        definitions={'n': NULL}),
    at('object', no(patternProperties={'^a$': ref('n')}), no(patternProperties={'^a$': no(ref('n'))}),
        definitions={'n': NULL}),
    at('object', no(patternProperties={'^[ab]$': ref('n')}), no(patternProperties={'^a$': no(ref('n'))}),
        definitions={'n': NULL}),
    at('object', no(patternProperties={'a': NULL}), required=['a']),
    at('object', no(patternProperties={'a': NULL}), required=['a'], maxProperties=1),
    at('object', no(patternProperties={'a': NULL}), required=['ba', 'b']),
    at('object', no(properties={'a': NULL}), required=['a']), at('object', no(additionalProperties=NULL),
        no(propertyNames={'pattern': '^a$'}), required=['a', 'b']),
    at('object', no(additionalProperties=NULL), no(propertyNames={'pattern': '^a$'}), required=['a'], maxProperties=1),
    at('object', no(patternProperties={'^a': NULL}), no(patternProperties={'b$': NULL}), no(propertyNames=
        {'maxLength': 1}), maxProperties=2),
    at('object', no(patternProperties={'^[ab]?$': NULL}), no(patternProperties={'^[bc]?$': TRUTH}),
        propertyNames={'maxLength': 1}),
    at('object', no(patternProperties={'^[ab]$': NULL}), no(patternProperties={'^[ab]$': TRUTH}),
        no(patternProperties={'^[ab]$': NUMBER}), propertyNames={'pattern': '^[ab]$'}),
    at('object', no(patternProperties={'^a$': NULL}), no(patternProperties={'^a$': TRUTH}),
        no(patternProperties={'^a$': NUMBER})),
    at('object', no(patternProperties={'^a$': NULL}), no(patternProperties={'^a$': TRUTH}), minProperties=3,
        propertyNames={'maxLength': 1}),
    at('object', no(properties={'a': NULL, 'b': NULL}), no(properties={'b': TRUTH, 'a': TRUTH})),
    # names that other keywords forbid
    at('object', no(patternProperties={'^a': NULL}), propertyNames={'pattern': '^b'}),
    at('object', no(patternProperties={'^a': NULL}), propertyNames=no(pattern='^b')),
    at('object', no(patternProperties={'a|b': NULL}), propertyNames={'enum': ['b', 'c']}),
    at('object', no(propertyNames={'enum': ['a', 'b']}), propertyNames={'enum': ['b', 'c']}),
    at('object', no(propertyNames={'enum': ['a', 'b']}), propertyNames={'enum': ['b', 'a']}),
    at('object', {'propertyNames': {'pattern': '^a'}}, {'propertyNames': {'pattern': 'b$'}}, {'propertyNames':
        {'maxLength': 3}}, minProperties=2),
    at('object', propertyNames={'anyOf': [{'const': 'a'}, {'pattern': 'b'}, {'minLength': 3}]}, minProperties=1),
    at('object', propertyNames={'oneOf': [{'maxLength': 1}, {'pattern': 'b'}, {'type': 'string'}]}, minProperties=1),
    at('object', propertyNames=no({'oneOf': [{'maxLength': 1}, {'pattern': 'b'}]}), minProperties=1),
    at('object', propertyNames={'dependencies': {'a': False}, 'pattern': 'a'}, minProperties=1),
    at('object', propertyNames=no(dependencies={'a': {'pattern': 'a'}}), minProperties=1),
    at('object', propertyNames={'enum': ['a', 1, None, 'b', {}]}, minProperties=1),
    at('object', propertyNames=no(enum=['', 'a', 1]), minProperties=1),
    at('object', propertyNames={'allOf': [ref('n'), no(ref('m'))]}, minProperties=1, definitions={
        'n': {'minLength': 1}, 'm': {'anyOf': [{'pattern': '^a'}, {'maxLength': 1}]}}),
    at('object', propertyNames={'minLength': 0, 'maxLength': 3}, required=['aaa']),
    at('object', propertyNames={'minLength': 2, 'maxLength': 1}), at('object', propertyNames={'minLength': 2,
        'maxLength': 1}, minProperties=1),
    at('object', no(propertyNames={'maxLength': 20})), at('object', propertyNames={'minLength': 40}, minProperties=1),
    # fillers of several cells, some of which have no values
    at('object', patternProperties={'^a': NULL, '^b': False, 'c$': TRUTH}, minProperties=2),
    at('object', patternProperties={'^a$': NULL, '^b$': TRUTH, '^c$': NUMBER}, additionalProperties=False,
        minProperties=3),
    at('object', patternProperties={'^a$': NULL, '^b$': TRUTH, '^c$': NUMBER}, additionalProperties=False,
        minProperties=3, required=['b']),
    at('object', patternProperties={'^a$': ref('n'), '^[ab]$': no(ref('n')), '^c$': ref('n')},
        additionalProperties=ref('n'), minProperties=2, definitions={'n': NULL}),
    at('object', patternProperties={'^a$': ref('n'), '^[ab]$': no(ref('n')), '^c$': ref('n')}, required=['a'],
        additionalProperties=ref('n'), definitions={'n': NULL}),
    at('object', {'properties': {'a': NULL}}, {'properties': {'a': TRUTH}}, minProperties=1),
    at('object', {'properties': {'a': NULL}}, {'properties': {'a': TRUTH}}, required=['a']),
    at('object', {'additionalProperties': NULL}, {'properties': {'a': {}}, 'additionalProperties': TRUTH},
        minProperties=1),
    at('object', {'additionalProperties': False, 'properties': {'a': {}, 'b': {}}}, {'additionalProperties': False,
        'properties': {'b': {}, 'c': {}}}, minProperties=1),
    at('object', {'additionalProperties': False, 'properties': {'a': {}, 'b': {}}}, {'additionalProperties': False,
        'properties': {'b': {}, 'c': {}}}, minProperties=2),
    at('object', properties={'a': True, 'b': {}, 'c': {'minimum': 2}}, patternProperties={'^[a-c]$': {'maximum': 5}},
        additionalProperties={'type': 'string'}, minProperties=4, maxProperties=5, required=['c']),
    # listed objects
    {'const': {}}, {'const': {'a': 1}}, {'const': {'b': None, 'a': [True, {}]}}, {'const': {'': {'': {}}}},
    {'enum': [{}, {'a': 1}, {'a': 2}, {'b': 1}]}, {'enum': [{'a': 1, 'b': 2}, {'b': 2, 'a': 1}, None]},
    no(const={}), no(const={'a': 1}), no(enum=[{}, {'a': 1}]), at('object', no(const={}), maxProperties=1),
    at('object', no(const={'a': 1}), required=['a'], additionalProperties=False, properties={'a': {}}),
    at('object', no(const={}), no(const={'a': 1}), propertyNames={'const': 'a'}),
    at('object', {'enum': [{'a': 1}, {'a': 2}]}, no(const={'a': 1})), {'enum': [{}, []], 'not': {'const': []}},
    {'const': {'a': {'b': {'c': 1}}}}, no(const={'a': {'b': 1}}), {'const': {'ab': 1, 'ba': 2, 'é': 3}},
    # one of several
    at('object', {'anyOf': [{'required': ['a']}, {'required': ['b']}, {'maxProperties': 0}]}),
    at('object', {'oneOf': [{'required': ['a']}, {'required': ['b']}]}),
    at('object', no({'oneOf': [{'required': ['a']}, {'required': ['b']}]})),
    at('object', {'oneOf': [{'properties': {'a': NULL}}, {'patternProperties': {'a': NULL}}]}),
    at('object', no({'oneOf': [{'minProperties': 1}, {'maxProperties': 2}]})),
    at('object', no({'anyOf': [{'required': ['a']}, {'minProperties': 3}, {'propertyNames': {'pattern': 'b'}}]})),
    at('object', no({'allOf': [{'required': ['a']}, {'properties': {'a': NULL}}]}), required=['a', 'b']),
    at('object', {'oneOf': [{'dependencies': {'a': ['b']}}, {'dependencies': {'b': ['a']}}]}),
    {'anyOf': [{'required': ['a'], 'type': 'object'}, {'minItems': 1, 'type': 'array'}, NULL]},
    {'type': ['object', 'array', 'string'], 'minProperties': 1, 'minItems': 1, 'minLength': 1},
]
RECURSIVE_OBJECTS = [
    {'properties': {'a': {'$ref': '#'}}}, {'required': ['a'], 'properties': {'a': {'$ref': '#'}}},
    at('object', required=['a'], properties={'a': {'$ref': '#'}}), {'additionalProperties': {'$ref': '#'}},
    at('object', additionalProperties={'$ref': '#'}, minProperties=1), no(properties={'a': {'$ref': '#'}}),
    {'anyOf': [NULL, at('object', required=['next'], properties={'next': {'$ref': '#'}})]},
    {'oneOf': [NULL, at('object', patternProperties={'^n': {'$ref': '#'}}, minProperties=2)]},
    {**ref('tree'), 'definitions': {'tree': at('object', required=['kids', 'v'], properties={
        'kids': at('array', items=ref('tree'), minItems=1), 'v': NUMBER})}},
    {**ref('l'), 'definitions': {'l': {'anyOf': [NULL, at('object', required=['h', 't'], properties={
        'h': NUMBER, 't': ref('l')}, additionalProperties=False)]}}},
    {**no(ref('l')), 'definitions': {'l': {'anyOf': [NULL, at('object', required=['h', 't'], properties={
        'h': NUMBER, 't': ref('l')}, additionalProperties=False)]}}},
    {'allOf': [ref('a'), no(ref('b'))], 'definitions': {'a': {'additionalProperties': ref('a')},
        'b': {'additionalProperties': ref('b')}}},
    {'allOf': [ref('a'), no(ref('a'))], 'definitions': {'a': {'additionalProperties': ref('a')}}},
    {'anyOf': [ref('a'), no(ref('a'))], 'definitions': {'a': at('object', additionalProperties=ref('a'))}},
    at('object', properties={'a': no({'$ref': '#'})}, required=['a']),
    at('object', no(patternProperties={'a': {'$ref': '#'}}), patternProperties={'^a': {'$ref': '#'}}),
    at('object', dependencies={'a': ref('d')}, required=['a'], definitions={'d': {'properties': {'a': {'$ref': '#'}}}}),
    {'propertyNames': {'$ref': '#'}}, at('object', propertyNames=ref('n'), minProperties=2, definitions={
        'n': {'pattern': '^a', 'propertyNames': ref('n')}}),
]

def exact_plans(extra):
    """Demands on lists that only some of the first three elements can serve, the last one none: a plan tree of 65,536
    ends, or of more. Where of four options one that has none below it is an end, and j of the other three have e ends
    each, there are 4 - j + j * e ends."""
    served = [2, 1, 3, 3, 3, 1, 3, 1, 3, 1, 3, 1, 3, 3, 0]
    demands = [no(items=[False] * j + [True] * (3 - j)) for j in extra + served]
    return at('array', *demands)


def pairs(count):
    return [{'anyOf': [{}, {}]}] * count


PRIMES = [n for n in range(2, 256) if all(n % d for d in range(2, n))]
ROUGH = [n for n in range(65536) if all(n % p for p in PRIMES)]
STRUCK = no({'anyOf': [{'multipleOf': p} for p in PRIMES] + [{'enum': ROUGH}]})
LIMITS = [
    # ends of trees
    at('number', *pairs(14), minimum=2, maximum=1), at('null', *pairs(15)),
    {'allOf': [{'anyOf': [NULL, NUMBER]}] + pairs(15)}, at('number', *pairs(3), minimum=2),
    at('array', *pairs(3), contains=NULL), at('string', *pairs(2), pattern='b'),
    # candidates
    at('number', STRUCK, minimum=0, maximum=65535), at('number', STRUCK, minimum=0), at('number', STRUCK, maximum=-1),
    # plans
    exact_plans([]), exact_plans([1]), at('array', *({'contains': {'minimum': k}} for k in range(10))),
    at('array', *({'contains': {'minimum': k}} for k in range(12)), maxItems=1),
    # places
    at('array', {'contains': NULL}, items=[True] * 1024, minItems=1024, maxItems=1024),
    at('array', {'anyOf': [{'contains': NULL, 'items': [True] * 1024, 'minItems': 1024}, {'items': NULL}]},
        maxItems=1024),
    # several limits, of which the first one is reported
    {'allOf': [{'multipleOf': 18446744073709551557}, {'multipleOf': 18446744073709551533}], 'minItems': 65537},
    {'anyOf': [at('array', minItems=65537), at('array', *({'contains': {'minimum': k}} for k in range(10)))]},
    {'anyOf': [at('array', *({'contains': {'minimum': k}} for k in range(10))), at('array', minItems=65537),
        at('array', minItems=1)]},
]


def served_by_two(count, *first):
    """Demands on objects, each of which two names can serve, and the first one these too, whose values clash."""
    letters = [chr(ord('a') + i) for i in range(count)]
    listed = [[letter + 'a', letter + 'b'] for letter in letters]
    demands = [no(propertyNames=no(enum=names + list(first if i == 0 else []))) for i, names in enumerate(listed)]
    return {'allOf': demands, 'properties': {**{a: True for a, _ in listed}, **{name: False for name in first}}}


def served_by_each(count, *patterns, **keywords):
    """Demands on objects, each of which names of several patterns can serve."""
    return at('object', *(no(patternProperties={p: {'minimum': k}}) for k, p in zip(range(count), patterns * count)),
              **keywords)


OBJECT_LIMITS = [
    # ends of trees
    at('object', *pairs(3), required=['a']), at('object', *pairs(14), minProperties=2, maxProperties=1),
    at('object', *pairs(15)), {'dependencies': {name: ['z'] for name in 'abcdefghijklmno'}},
    # plans
    {'type': 'object', **served_by_two(3)}, {'type': 'object', **served_by_two(3, 'c')},
    {'type': 'object', **served_by_two(3, 'c'), 'maxProperties': 2}, {'type': 'object', **served_by_two(16),
        'maxProperties': 15}, {'type': 'object', **served_by_two(16, 'c'), 'maxProperties': 15},
    {'type': 'object', **served_by_two(15, 'c'), 'maxProperties': 14}, {'type': 'object', **served_by_two(17),
        'maxProperties': 1}, {'type': 'object', **served_by_two(17), 'maxProperties': 16},
    served_by_each(4, 'a'), served_by_each(4, 'a', 'b'), served_by_each(3, 'a', 'b', '^c'),
    served_by_each(3, 'a', 'b', maxProperties=1), served_by_each(5, '^[a-c]$', maxProperties=2),
    served_by_each(4, '^[a-c]$', propertyNames={'maxLength': 1}), served_by_each(5, '^a$'),
    served_by_each(12, 'a'), served_by_each(12, 'a', 'b', 'c'), served_by_each(12, 'a', 'b', 'c', maxProperties=1),
    served_by_each(12, '^a$'), served_by_each(12, 'a', minProperties=3, maxProperties=2),
    # places
    {'type': 'object', **served_by_two(16)},
    # several limits, of which the first one is reported
    {'anyOf': [at('object', minProperties=65537), served_by_each(12, 'a')]},
    {'anyOf': [served_by_each(12, 'a'), at('object', minProperties=65537), at('object', required=['a'])]},
    {'anyOf': [at('array', minItems=65537), served_by_each(12, 'a')]}, served_by_each(12, 'a', minProperties=65537),
    {'type': ['object', 'null'], 'minProperties': 65537},
    {'type': ['object', 'boolean'], 'allOf': [{'not': {'maxProperties': 65536}}, {'maxProperties': 65536}]},
]
# what is too large to go through: positions of patterns, one of them in the set of no characters; n + 1 states of words
# up to a length; the 2^16 last letters of words; letters that are each a class
WORKED = [
    (at('string', pattern='[]a{16384}'), 'limit positions'), (at('string', pattern='[]a{16383}'), 'none'),
    (at('string', {'pattern': '[]a{8191}'}, {'pattern': '[]b{8192}'}), 'limit positions'),
    (at('string', {'enum': [chr(0x100 + i) for i in range(1024)]}), 'limit classes'),
    (at('string', {'pattern': '[]a{16384}'}, {'enum': [chr(0x100 + i) for i in range(1024)]}, minLength=65536),
        'limit positions'),
    (at('string', {'enum': [chr(0x100 + i) for i in range(1024)]}, minLength=65536), 'limit classes'),
    (at('string', minLength=65535), 'string 0 "%s"' % ('a' * 65535)), (at('string', minLength=65536), 'limit states'),
    (at('string', minLength=65536, maxLength=65535), 'none'),
    (at('string', no(maxLength=18446744073709551615)), 'limit states'),
    (at('string', pattern='a[ab]{14}$'), 'string 0 "%s"' % ('a' * 15)),
    (at('string', pattern='a[ab]{15}$'), 'limit states'),
    ({'minLength': 65536, 'minItems': 65537, 'type': ['null', 'string', 'array']}, 'null 0 null | limit states'),
    # lines that aren't schemas that can be read
    ({'type': 5}, 'refused'), ({'not': {'$ref': '#'}}, 'refused'), ({'minimum': 0.5}, 'refused'), (7, 'refused'),
]

LETTERS = [chr(0x100 + i) for i in range(1024)]
OBJECTS_WORKED = [
    (at('object', patternProperties={'[]a{16384}': NULL}), 'limit positions'),
    (at('object', patternProperties={'[]a{16383}': NULL}, minProperties=1), 'object 0 members need 1 fill 0/0:*x65537'),
    (at('object', patternProperties={'[]a{8191}': NULL, '[]b{8192}': NULL}), 'limit positions'),
    (at('object', propertyNames={'allOf': [{'pattern': '[]a{8191}'}, {'pattern': '[]b{8192}'}]}), 'limit positions'),
    # an atom that is met twice counts once
    (at('object', {'patternProperties': {'[]a{8191}': NULL}}, propertyNames=no(pattern='[]a{8191}'), minProperties=2),
        'object 0 members need 2 fill 0/0:*x65537'),
    (at('object', required=[''.join(LETTERS)]), 'limit classes'),
    (at('object', required=[''.join(LETTERS[1:])]), 'object 0 members 1/0:*'),
    (at('object', propertyNames={'enum': LETTERS}), 'limit classes'),
    (at('object', propertyNames={'enum': LETTERS[1:]}, minProperties=1023),
        'object 0 members need 1023 fill 1/0:*x1023'),
    (at('object', propertyNames={'minLength': 65536}), 'limit states'),
    (at('object', propertyNames={'minLength': 65535}, minProperties=1), 'object 0 members need 1 fill 1/0:*x65537'),
    (at('object', propertyNames={'maxLength': 65535}), 'limit states'),
    (at('object', propertyNames={'maxLength': 65534}, minProperties=65536),
        'object 0 members need 65536 fill 0/0:*x65537'),
    (at('object', propertyNames=no(maxLength=18446744073709551615)), 'limit states'),
    (at('object', propertyNames={'pattern': 'a[ab]{14}$'}, minProperties=1),
        'object 0 members need 1 fill 1/0:*x65537'),
    (at('object', propertyNames={'pattern': 'a[ab]{15}$'}), 'limit states'),
    # several limits
    (at('object', propertyNames={'pattern': '[]a{16384}', 'enum': LETTERS, 'minLength': 65536}), 'limit positions'),
    (at('object', propertyNames={'enum': LETTERS, 'minLength': 65536}), 'limit classes'),
    (at('object', propertyNames={'minLength': 65536}, minProperties=65537), 'limit counts'),
    (at('object', propertyNames={'minLength': 65536}, minProperties=65537, maxProperties=65536), 'none'),
    (served_by_each(12, 'a', propertyNames={'minLength': 65536}), 'limit states'),
    ({'minLength': 65536, 'minProperties': 65537, 'type': ['object', 'string']}, 'limit states'),
]

TYPED = [at(kind, **schema) for kind, schemas in (('number', NUMBERS), ('string', STRINGS), ('array', ARRAYS))
         for schema in schemas]
FIXED = PLAIN + TYPED + MORE_NUMBERS + MORE_STRINGS + MORE_ARRAYS + RECURSIVE + LIMITS
OF_OBJECTS = [at('object', **schema) for schema in OBJECTS] + MORE_OBJECTS + RECURSIVE_OBJECTS + OBJECT_LIMITS


class Chooser:
    """Schemas by chance, always the same ones."""
    PATTERNS = ['a', '^a', 'b$', '^[ab]*$', '^a+b?$', 'ab|ba', '^(ab)*$', '[^a]', '^.$', '^[b-d]{2}$', r'\d',
        '^a{1,2}$', '^$']
    NAMES = ['a', 'b', 'c']
    POOL = [None, True, False, 0, 1, 2, 6, -3, '', 'a', 'ab', 'b', [], [0], ['a', None]]

    def __init__(self, seed):
        self.random = random.Random(seed)

    def some(self, choices, least, most):
        return [self.random.choice(choices) for _ in range(self.random.randint(least, most))]

    def number(self):
        key = self.random.choice(['minimum', 'maximum', 'exclusiveMinimum', 'exclusiveMaximum', 'multipleOf'])
        return {key: self.random.randint(1, 6) if key == 'multipleOf' else self.random.randint(-9, 9)}

    def string(self):
        key = self.random.choice(['minLength', 'maxLength', 'pattern', 'pattern'])
        return {key: self.random.choice(self.PATTERNS) if key == 'pattern' else self.random.randint(0, 3)}

    def listed(self):
        if self.random.random() < 0.5:
            return {'const': self.random.choice(self.POOL)}
        return {'enum': self.some(self.POOL, 1, 4)}

    def array(self, depth):
        def inside():
            return self.schema(depth - 1, True)

        key = self.random.choice(['items', 'items', 'listed', 'contains', 'contains', 'minItems', 'maxItems'])
        if key == 'listed':
            more = {'additionalItems': inside()} if self.random.random() < 0.5 else {}
            return {'items': [inside() for _ in range(self.random.randint(1, 2))], **more}
        return {key: self.random.randint(0, 3) if key.endswith('Items') else inside()}

    def combined(self, depth):
        key = self.random.choice(['allOf', 'anyOf', 'oneOf', 'not', 'not'])
        count = 1 if key == 'not' else self.random.randint(1, 3)
        schemas = [self.schema(depth - 1, False) for _ in range(count)]
        return {key: schemas[0] if key == 'not' else schemas}

    def schema(self, depth, below):
        """With references to the root only below an element, so that none leads in a circle."""
        chance = self.random.random()
        if depth <= 0 or chance < 0.2:
            if chance < 0.1:
                return self.random.choice([True, False, NULL, {}])
            if below and chance > 0.9:
                return {'$ref': '#'}
            return ref(self.random.choice(self.NAMES)) if chance < 0.5 else self.listed()
        makers = [self.number, self.string, self.listed] + [lambda: self.array(depth), lambda: self.combined(depth)] * 2
        found = {}
        for _ in range(self.random.randint(1, 3)):
            found.update(self.random.choice(makers)())
        if self.random.random() < 0.2:
            found['type'] = self.random.choice(KINDS[:5])
        return found

    def root(self):
        kind = self.random.choice([None, 'number', 'string', 'array', 'array'])
        found = self.schema(3, False)
        found = {'allOf': [found]} if isinstance(found, bool) or '$ref' in found else found
        found = {**found, **({'type': kind} if kind else {})}
        simple = [self.number, self.string, self.listed, lambda: self.array(0) if self.random.random() < 0.5 else NULL]
        return {**found, 'definitions': {name: self.random.choice(simple)() for name in self.NAMES}}


class ObjectChooser(Chooser):
    """Schemas with many keywords of objects, side by side, negated and in choices."""
    POOL = Chooser.POOL + [{}, {'a': 0}, {'b': None, 'a': 0}]
    KEYS = ['a', 'b', 'ab', 'ba', '']
    KEYWORDS = ['required', 'properties', 'patternProperties', 'patternProperties', 'additionalProperties',
        'propertyNames', 'dependencies', 'minProperties', 'maxProperties']

    def value(self):
        """Mostly references, so that values clash."""
        name = ref(self.random.choice(self.NAMES))
        return self.random.choice([name, name, no(name), {'$ref': '#'}, True, NULL, self.number(), self.listed()])

    def name(self):
        name = self.random.choice([self.string(), self.string(), {'enum': self.some(self.KEYS, 1, 4)}])
        return self.random.choice([name, name, no(name), ref(self.random.choice(self.NAMES)), {'anyOf': [name,
            self.string()]}])

    def of(self, keyword, depth):
        if keyword == 'required':
            return self.some(self.KEYS, 0, 2)
        if keyword in ('properties', 'patternProperties'):
            names = self.some(self.KEYS if keyword == 'properties' else self.PATTERNS, 1, 2)
            return {name: self.value() for name in names}
        if keyword == 'dependencies':
            return {name: self.some(self.KEYS, 0, 2) if self.random.random() < 0.6 else self.object(depth - 1)
                    for name in self.some(self.KEYS, 1, 2)}
        if keyword in ('minProperties', 'maxProperties'):
            return self.random.randint(0, 4)
        return self.name() if keyword == 'propertyNames' else self.value()

    def object(self, depth):
        keywords = self.some(self.KEYWORDS, 1, 3 if depth > 0 else 2)
        found = {keyword: self.of(keyword, depth) for keyword in keywords if depth > 0 or keyword != 'dependencies'}
        return no(found) if depth < 2 and self.random.random() < 0.4 else found

    def root(self):
        found = {'type': 'object', **self.object(2)}
        for keyword in self.some(['allOf', 'allOf', 'anyOf', 'oneOf'], 0, 2):
            found[keyword] = [self.object(1) for _ in range(self.random.randint(1, 3))]
        simple = [self.number, self.string, self.listed, lambda: NULL, lambda: at('object', **self.object(2))]
        return {**found, 'definitions': {name: self.random.choice(simple)() for name in self.NAMES}}
