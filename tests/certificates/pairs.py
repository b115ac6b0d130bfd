"""Small pairs of schemas of which the first is included in the second, by name."""


def at(kind, **keywords):
    return {'type': kind, **keywords}


def no(**keywords):
    return {'not': keywords}


def tree_of(name):
    kids = at('array', minItems=1, items={'$ref': '#/definitions/' + name})
    return at('object', required=['k'], properties={'k': kids})


NULL, TEXT, ANY, NONE = {'type': 'null'}, {'type': 'string'}, True, False
# no document is valid for it, and it has a goal of its own
NEVER = at('integer', minimum=3, maximum=2)

PAIRS = {
    # kinds
    'the root clashes': (NONE, NONE),
    'kinds': ({'type': ['string', 'null']}, {'type': ['string', 'null', 'boolean']}),
    'nothing listed': ({'enum': []}, NONE),
    'by reference': ({'$ref': '#/definitions/a', 'definitions': {'a': at('null')}}, {'not': at('string')}),
    'one of two': ({'oneOf': [at('integer'), at('integer', minimum=3)]}, at('integer', maximum=2)),
    'one of the same': ({'oneOf': [ANY, ANY]}, NONE),
    'not one of': (at('number', minimum=1, **no(oneOf=[{'minimum': 1}, {'minimum': 9}])), {'minimum': 9}),
    # what holds and doesn't hold
    'both signs': ({'anyOf': [{'$ref': '#/definitions/a'}, NONE], 'not': {'$ref': '#/definitions/a'},
                    'definitions': {'a': at('boolean')}}, NONE),
    # truth values
    'no truth value': (at('boolean', allOf=[no(const=True), no(const=False)]), NONE),
    'one truth value': ({'const': True}, {'enum': [True, None]}),
    # numbers
    'crossed bounds': (at('integer', minimum=3, exclusiveMaximum=3), NONE),
    'multiples': (at('integer', multipleOf=6, **no(multipleOf=3)), NONE),
    'few numbers': (at('integer', minimum=1, maximum=9, multipleOf=4, **no(enum=[4, 8])), NONE),
    'listed numbers': ({'enum': [1, 2, 3]}, {'minimum': 1}),
    # strings
    'runs': (at('string', pattern='^a+$', maxLength=0), NONE),
    'listed words': ({'enum': ['a', 'ab']}, {'pattern': '^a'}),
    'two letters': (at('string', pattern='^[ab]{2}$'), {'minLength': 2}),
    'too short': (at('string', pattern='x$', minLength=2, **no(pattern='x')), NONE),
    'crossed lengths': (at('string', minLength=3, maxLength=2), NONE),
    'no length': (at('string', **no(minLength=0)), NONE),
    # arrays
    'crossed counts': (at('array', minItems=3, maxItems=2), NONE),
    'each element': (at('array', items=TEXT, additionalItems=NONE), at('array', items=TEXT)),
    'one place': (at('array', maxItems=1, contains=NULL, items=[TEXT]), NONE),
    'one place for two': (at('array', maxItems=1, allOf=[{'contains': NULL}, {'contains': TEXT}]), NONE),
    'no element': (at('array', minItems=2, items=NONE), NONE),
    'no such element': (at('array', minItems=1, items=NEVER), NONE),
    'no such first': (at('array', minItems=1, items=[NEVER]), NONE),
    'no first': (at('array', minItems=2, items=[NONE]), NONE),
    'closed list': (at('array', contains=NULL, items=[TEXT, TEXT], additionalItems=NONE), NONE),
    'lists': (at('array', items=[NULL, TEXT], additionalItems=at('integer')),
              at('array', items=[ANY, ANY], additionalItems=at('number'))),
    'arrays in arrays': (at('array', minItems=1, items={'$ref': '#'}), NONE),
    # objects
    'crossed numbers': (at('object', minProperties=2, maxProperties=1), NONE),
    'next': (at('object', required=['next'], properties={'next': {'$ref': '#'}}), NONE),
    'few names': (at('object', propertyNames={'enum': ['a', 'b']}, minProperties=3), NONE),
    'few letters': (at('object', propertyNames={'pattern': '^[a-c]$'}, minProperties=4), NONE),
    'few members': (at('object', required=['a', 'b'], maxProperties=1), NONE),
    'closed': (at('object', minProperties=1, additionalProperties=NONE), NONE),
    'one name left': (at('object', propertyNames={'enum': ['a', 'b']}, properties={'a': TEXT}, minProperties=2,
                         additionalProperties=NONE), NONE),
    'no value left': (at('object', propertyNames={'enum': ['a', 'b']}, properties={'a': NEVER}, minProperties=2), NONE),
    'forbidden name': (at('object', required=['b'], propertyNames={'pattern': '^a'}), NONE),
    'narrow': (at('object', properties={'a': NULL}), {'properties': {'a': {'type': ['null', 'string']}}}),
    'longer patterns': (at('object', patternProperties={'^a': NULL}), {'patternProperties': {'^ab': NULL}}),
    'other names': (at('object', properties={'a': NULL}, additionalProperties=NULL), {'additionalProperties': NULL}),
    'names needed': (at('object', dependencies={'a': ['b']}, required=['a']), {'required': ['b']}),
    'more needed': (at('object', dependencies={'a': {'minProperties': 2}}, required=['a']), {'minProperties': 2}),
    'short names': (at('object', required=['ab'], maxProperties=1, **no(propertyNames={'minLength': 2})), NONE),
    'two served': (at('object', maxProperties=1, allOf=[no(patternProperties={'^a': NULL}), no(patternProperties={
        '^b': NULL})]), NONE),
    'never there': (at('object', properties={'a': NONE}, required=['a']), NONE),
    # recursion and values
    'trees': ({'$ref': '#/definitions/t0', 'definitions': {'t0': tree_of('t1'), 't1': tree_of('t0')}}, NONE),
    'a value': ({'const': {'a': [1]}}, at('object', properties={'a': at('array')})),
    'elements of a value': ({'const': [None, 'a']}, {'items': {'type': ['null', 'string']}}),
    # more is listed than is asked
    'contained': (at('array', minItems=1, items=NONE), at('array', maxItems=4)),
}
