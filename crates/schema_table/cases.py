#!/usr/bin/env python3
"""The cases of this table: writes `stdin` and `stdout` beside it.

A line of `stdin` has a schema, a tab and a document. The line of `stdout` says what is wrong with one of them, with the
file's role, or whether the document is valid. The expected
answers are written here by hand, from the standard; where the package `jsonschema` is there, its verdict on each case
without `ours` is compared with the one that is written."""
import json
import os
import re
import sys

HERE = os.path.dirname(os.path.abspath(__file__))
CASES = []
PARTS = []


def refuse(schema, words, document='null'):
    """A schema text, and the words of its refusal."""
    CASES.append((schema, document, 'refused first ' + words, True))


def read(schema, answer='valid', document='null'):
    """A schema text that is read, with the answer for a document."""
    CASES.append((schema, document, answer, True))


def group(schema, good=(), bad=(), ours=False):
    """A schema with documents that are valid for it, and others that aren't. `ours`: another validator may differ."""
    text = schema if isinstance(schema, str) else json.dumps(schema, ensure_ascii=False)
    for documents, answer in ((good, 'valid'), (bad, 'invalid')):
        for document in documents:
            CASES.append((text, document, answer, ours))


# ---- no JSON, and no schema
refuse('', 'notjson')
refuse('{"type":', 'notjson')
refuse('{"a":1,}', 'notjson')
refuse('nul', 'notjson')
refuse('{} {}', 'notjson')
refuse('{"a":"\\ud800"}', 'notjson')
refuse('{"minimum":1e999}', 'notjson')
refuse('{"minimum":01}', 'notjson')
refuse('null', 'notaschema ""')
refuse('1', 'notaschema ""')
refuse('1.5', 'notaschema ""')
refuse('"type"', 'notaschema ""')
refuse('[]', 'notaschema ""')
read('true')
read('false', 'invalid')
read('{}')
read(' { } ')
read('{"unknown":{"type":5},"title":7,"default":[1.5],"examples":0,"format":3,"$schema":false,"description":null}')

# ---- the wrong shape of each keyword
for word in ('additionalProperties', 'contains', 'not', 'propertyNames'):
    for value in ('5', 'null', '"a"', '[]', '[true]'):
        if value in ('5', '[true]') or word == 'not':
            refuse('{"%s":%s}' % (word, value), 'wrongshape %s "/%s"' % (word, word))
refuse('{"items":5}', 'wrongshape items "/items"')
refuse('{"items":null}', 'wrongshape items "/items"')
refuse('{"additionalItems":5,"items":[]}', 'wrongshape additionalItems "/additionalItems"')
refuse('{"additionalItems":[],"items":[]}', 'wrongshape additionalItems "/additionalItems"')
for word in ('allOf', 'anyOf', 'oneOf'):
    refuse('{"%s":{}}' % word, 'wrongshape %s "/%s"' % (word, word))
    refuse('{"%s":true}' % word, 'wrongshape %s "/%s"' % (word, word))
    refuse('{"%s":[]}' % word, 'emptylist "/%s"' % word)
for word in ('properties', 'patternProperties', 'dependencies'):
    refuse('{"%s":[]}' % word, 'wrongshape %s "/%s"' % (word, word))
    refuse('{"%s":true}' % word, 'wrongshape %s "/%s"' % (word, word))
refuse('{"enum":{}}', 'wrongshape enum "/enum"')
refuse('{"enum":1.5}', 'wrongshape enum "/enum"')
refuse('{"required":"a"}', 'wrongshape required "/required"')
refuse('{"required":true}', 'wrongshape required "/required"')
refuse('{"required":[1]}', 'wrongshape required "/required/0"')
refuse('{"required":["a",null]}', 'wrongshape required "/required/1"')
refuse('{"type":5}', 'wrongshape type "/type"')
refuse('{"type":"any"}', 'wrongshape type "/type"')
refuse('{"type":"Null"}', 'wrongshape type "/type"')
refuse('{"type":{}}', 'wrongshape type "/type"')
refuse('{"type":["null","float"]}', 'wrongshape type "/type/1"')
refuse('{"type":[["null"]]}', 'wrongshape type "/type/0"')
refuse('{"type":["null","null",7]}', 'wrongshape type "/type/2"')
refuse('{"pattern":5}', 'wrongshape pattern "/pattern"')
refuse('{"pattern":["a"]}', 'wrongshape pattern "/pattern"')
refuse('{"uniqueItems":1}', 'wrongshape uniqueItems "/uniqueItems"')
refuse('{"uniqueItems":"false"}', 'wrongshape uniqueItems "/uniqueItems"')
refuse('{"uniqueItems":true}', 'uniqueitems "/uniqueItems"')
read('{"uniqueItems":false}')
numeric = ('multipleOf', 'minimum', 'maximum', 'exclusiveMinimum', 'exclusiveMaximum')
counts = ('minLength', 'maxLength', 'minItems', 'maxItems', 'minProperties', 'maxProperties')
for word in numeric + counts:
    refuse('{"%s":"1"}' % word, 'wrongshape %s "/%s"' % (word, word))
    refuse('{"%s":0.5}' % word, 'notwhole "/%s"' % word)
refuse('{"exclusiveMinimum":true,"minimum":1}', 'wrongshape exclusiveMinimum "/exclusiveMinimum"')
refuse('{"minimum":1.0}', 'notwhole "/minimum"')
refuse('{"minimum":1e2}', 'notwhole "/minimum"')
refuse('{"maximum":18446744073709551616}', 'notwhole "/maximum"')
refuse('{"minimum":-9223372036854775809}', 'notwhole "/minimum"')
refuse('{"minLength":18446744073709551616}', 'notwhole "/minLength"')
read('{"maximum":18446744073709551615,"minimum":-9223372036854775808}')
read('{"minLength":18446744073709551615}')
refuse('{"multipleOf":0}', 'notpositive "/multipleOf"')
refuse('{"multipleOf":-3}', 'notpositive "/multipleOf"')
for word in counts:
    refuse('{"%s":-1}' % word, 'negative "/%s"' % word)
read('{"minimum":-1,"maximum":-1,"exclusiveMinimum":-1,"exclusiveMaximum":-1}')
refuse('{"minItems":-9223372036854775808}', 'negative "/minItems"')

# ---- numbers that aren't whole in values
refuse('{"const":1.5}', 'notwhole "/const"')
refuse('{"const":[1,{"b":2.5,"a":[3,4.5]}]}', 'notwhole "/const/1/a/1"')
refuse('{"enum":[1,2,3.0]}', 'notwhole "/enum/2"')
refuse('{"enum":[{"a/b":{"c~d":1e1}}]}', 'notwhole "/enum/0/a~1b/c~0d"')
refuse('{"default":0.5,"enum":[[0.5]]}', 'notwhole "/enum/0/0"')
read('{"default":0.5,"const":null}')
read('{"enum":[]}', 'invalid')
read('{"type":[]}', 'invalid')
read('{"required":[],"properties":{},"patternProperties":{},"dependencies":{},"items":[]}')
read('{"required":["a","a"],"type":["null","null"],"enum":[null,null]}')

# ---- values in the place of a schema are reported after the keywords of their object
refuse('{"allOf":[5]}', 'notaschema "/allOf/0"')
refuse('{"allOf":[true,null]}', 'notaschema "/allOf/1"')
refuse('{"items":[1]}', 'notaschema "/items/0"')
refuse('{"properties":{"a":5}}', 'notaschema "/properties/a"')
refuse('{"patternProperties":{"a":5}}', 'notaschema "/patternProperties/a"')
refuse('{"dependencies":{"a":5}}', 'notaschema "/dependencies/a"')
refuse('{"dependencies":{"a":"b"}}', 'notaschema "/dependencies/a"')
refuse('{"dependencies":{"a":["b",1]}}', 'wrongshape dependencies "/dependencies/a/1"')
refuse('{"dependencies":{"b":[2],"a":5}}', 'wrongshape dependencies "/dependencies/b/0"')
refuse('{"allOf":[5],"type":5}', 'wrongshape type "/type"')
refuse('{"properties":{"a":5},"required":[1]}', 'wrongshape required "/required/0"')
refuse('{"type":5,"allOf":[]}', 'emptylist "/allOf"')
refuse('{"anyOf":[],"allOf":{}}', 'wrongshape allOf "/allOf"')
refuse('{"anyOf":[{"type":5}],"allOf":[{"minimum":"a"}]}', 'wrongshape minimum "/allOf/0/minimum"')
refuse('{"not":{"type":5},"allOf":[{"not":{"enum":1}}]}', 'wrongshape enum "/allOf/0/not/enum"')
refuse('{"properties":{"b":{"type":5},"a":{"type":6}}}', 'wrongshape type "/properties/a/type"')
refuse('{"additionalProperties":{"minLength":-1},"properties":{"x":{"pattern":"("}}}',
       'negative "/additionalProperties/minLength"')
refuse('{"items":[{"items":[{"maxItems":0.5}]},7]}', 'notwhole "/items/0/items/0/maxItems"')

# ---- what isn't looked at
read('{"definitions":{"a":{"type":5}}}')
read('{"additionalItems":5}')
read('{"additionalItems":5,"items":{}}')
read('{"additionalItems":{"type":7},"items":true}')
refuse('{"additionalItems":{"type":7},"items":[]}', 'wrongshape type "/additionalItems/type"')
read('{"$ref":"#/definitions/x","uniqueItems":true,"definitions":{"x":true}}')
read('{"$ref":"#/definitions/x","type":5,"$id":7,"allOf":[],"definitions":{"x":{}}}')
read('{"enum":[{"type":5}],"default":{"type":5}}', 'invalid')

# ---- identifiers
read('{"$id":"http://example.org/a.json"}')
read('{"$id":""}')
refuse('{"$id":5}', 'wrongshape $id "/$id"')
refuse('{"$id":5,"type":7}', 'wrongshape $id "/$id"')
refuse('{"properties":{"a":{"$id":"b"}}}', 'innerid "/properties/a/$id"')
refuse('{"properties":{"a":{"$id":5}}}', 'innerid "/properties/a/$id"')
refuse('{"not":{"$id":"b","type":7}}', 'innerid "/not/$id"')
read('{"definitions":{"a":{"$id":"b"}}}')
read('{"allOf":[{"$id":"b","$ref":"#/definitions/c"}],"definitions":{"c":true}}')
read('{"$ref":"#/definitions/a/not","definitions":{"a":{"$id":"b","not":{}}}}')

# ---- references
refuse('{"$ref":5}', 'wrongshape $ref "/$ref"')
refuse('{"not":{"$ref":null}}', 'wrongshape $ref "/not/$ref"')
refuse('{"$ref":"o.json"}', 'ref remote ""')
refuse('{"$ref":"o.json#/a"}', 'ref remote ""')
refuse('{"$ref":"o.json","$id":"p.json"}', 'ref remote ""')
refuse('{"$ref":"#x"}', 'ref badpointer ""')
refuse('{"$ref":"#x","$id":"x"}', 'ref badpointer ""')
refuse('{"$ref":"#/~"}', 'ref badpointer ""')
refuse('{"$ref":"#/definitions/~2","definitions":{"~2":true}}', 'ref badpointer ""')
refuse('{"$ref":"#/%ff"}', 'ref badpointer ""')
refuse('{"not":{"$ref":"#/%ff"}}', 'ref badpointer "/not"')
refuse('{"$ref":"#/a"}', 'ref missing ""')
refuse('{"properties":{"p":{"$ref":"#/a"}}}', 'ref missing "/properties/p"')
refuse('{"$ref":"#/anyOf/00","anyOf":[true]}', 'ref missing ""')
refuse('{"$ref":"#/anyOf/1","anyOf":[true]}', 'ref missing ""')
refuse('{"$ref":"#/anyOf/-","anyOf":[true]}', 'ref missing ""')
refuse('{"$ref":"#/anyOf/99999999999999999999999","anyOf":[true]}', 'ref missing ""')
refuse('{"$ref":"#/definitions","definitions":[]}', 'ref notaschema ""')
refuse('{"$ref":"#/title","title":"a"}', 'ref notaschema ""')
refuse('{"$ref":"#/a/b","a":{"b":null}}', 'ref notaschema ""')
read('{"$ref":"#/anyOf/0","anyOf":[true]}')
read('{"$ref":"#/definitions/a","definitions":{"a":{"$ref":"#/definitions/b"},"b":true}}')
read('{"$ref":"#/definitions/a~1b%25","definitions":{"a/b%":{"const":7}}}', 'invalid')
read('{"$ref":"#/definitions/a~1b%25","definitions":{"a/b%":{"const":7}}}', 'valid', '7')
read('{"$ref":"#/definitions/%C3%A9","definitions":{"é":{"const":7}}}', 'valid', '7')
read('{"$ref":"#/definitions/%7E01","definitions":{"~1":{"const":7}}}', 'valid', '7')
read('{"$ref":"#/definitions/a%2Fb","definitions":{"a":{"b":{"const":7}}}}', 'valid', '7')
read('{"$ref":"#/definitions/","definitions":{"":{"const":7}}}', 'valid', '7')
read('{"allOf":[{"$ref":"#/enum/0"}],"enum":[{"type":"null"},null]}')
refuse('{"allOf":[{"$ref":"#/enum/0"}],"enum":[{"type":5}]}', 'wrongshape type "/enum/0/type"')
refuse('{"allOf":[{"$ref":"#/const"}],"const":{"minimum":{}}}', 'wrongshape minimum "/const/minimum"')
read('{"$id":"http://a/b.json","properties":{"p":{"$ref":"http://a/b.json#/definitions/x"}},"definitions":{"x":true}}')
read('{"$id":"http://a/b.json#","properties":{"p":{"$ref":"http://a/b.json#/definitions/x"}},"definitions":{"x":true}}')
read('{"$id":"http://a/b.json","properties":{"p":{"$ref":"http://a/b.json"}}}')
refuse('{"$id":"http://a/b.json","properties":{"p":{"$ref":"http://a/c.json"}}}', 'ref remote "/properties/p"')
refuse('{"properties":{"b":{"$ref":"#/definitions/x"},"a":{"$ref":"#/definitions/y"}},"definitions":{"x":{"type":1},"y":{"type":2}}}',
       'wrongshape type "/definitions/y/type"')
refuse('{"$ref":"#/definitions/x","definitions":{"x":{"not":{"$ref":"#/definitions/y"}},"y":{"allOf":[]}}}',
       'emptylist "/definitions/y/allOf"')
refuse('{"properties":{"type":{"$ref":"#/properties"}}}', 'wrongshape type "/properties/type"')
refuse('{"$ref":"","type":5}', 'cycle ""')

# ---- patterns
refuse('{"pattern":"a{3,2}"}', 'pattern quantifierorder 1 "/pattern"')
refuse('{"pattern":"(?=a)"}', 'pattern unsupported lookaround 0 "/pattern"')
refuse('{"pattern":"a)"}', 'pattern syntax 1 "/pattern"')
refuse('{"pattern":"a(b"}', 'pattern syntax 3 "/pattern"')
refuse('{"pattern":"é*+"}', 'pattern syntax 2 "/pattern"')
refuse('{"pattern":"a{16385}"}', 'pattern repeattoowide 1 "/pattern"')
refuse('{"pattern":"[b-a]"}', 'pattern rangeorder 1 "/pattern"')
refuse('{"pattern":"(a)\\\\1"}', 'pattern unsupported backreference 3 "/pattern"')
refuse('{"pattern":"\\\\bx"}', 'pattern unsupported boundary 0 "/pattern"')
refuse('{"pattern":"\\\\01"}', 'pattern unsupported octal 0 "/pattern"')
refuse('{"pattern":"\\\\p{L}"}', 'pattern unsupported property 0 "/pattern"')
refuse('{"pattern":"\\\\cA"}', 'pattern unsupported control 0 "/pattern"')
refuse('{"pattern":"(?<n>a)"}', 'pattern unsupported namedgroup 0 "/pattern"')
refuse('{"pattern":"x\\\\ud800"}', 'pattern unsupported surrogate 1 "/pattern"')
refuse('{"patternProperties":{"a":true,"(":true}}', 'pattern syntax 1 "/patternProperties/("')
refuse('{"patternProperties":{"b{2,1}":5,"a":5}}', 'pattern quantifierorder 1 "/patternProperties/b{2,1}"')
refuse('{"patternProperties":{"/(":true}}', 'pattern syntax 2 "/patternProperties/~1("')
refuse('{"patternProperties":{"\\"(":true}}', 'pattern syntax 2 "/patternProperties/\\"("')
refuse('{"patternProperties":{"(?!a)":true}}', 'pattern unsupported lookaround 0 "/patternProperties/(?!a)"')
refuse('{"patternProperties":{"x[z-a]":true}}', 'pattern rangeorder 2 "/patternProperties/x[z-a]"')
refuse('{"patternProperties":{"ab{0,16385}":true}}', 'pattern repeattoowide 2 "/patternProperties/ab{0,16385}"')
refuse('{"properties":{"(":{"pattern":"["}}}', 'pattern syntax 1 "/properties/(/pattern"')

# ---- cycles in place, and circles that descend
refuse('{"$ref":"#"}', 'cycle ""')
refuse('{"allOf":[{"$ref":"#"}]}', 'cycle "" "/allOf/0"')
refuse('{"not":{"anyOf":[true,{"$ref":"#/not"}]}}', 'cycle "/not" "/not/anyOf/1"')
refuse('{"dependencies":{"a":{"$ref":"#"}}}', 'cycle "" "/dependencies/a"')
refuse('{"oneOf":[{"$ref":"#/definitions/a"}],"definitions":{"a":{"allOf":[{"$ref":"#/definitions/b"}]},"b":{"$ref":"#/definitions/a"}}}',
       'cycle "/definitions/a" "/definitions/a/allOf/0" "/definitions/b"')
refuse('{"allOf":[{"allOf":[{"$ref":"#"}]},{"$ref":"#"}]}', 'cycle "" "/allOf/1"')
refuse('{"items":{"$ref":"#/definitions/a"},"definitions":{"a":{"$ref":"#/definitions/a"}}}', 'cycle "/definitions/a"')
read('{"items":{"$ref":"#"},"type":"array"}', 'valid', '[[],[[]]]')
read('{"properties":{"a":{"$ref":"#"}},"required":["a"]}', 'valid', '5')
read('{"propertyNames":{"$ref":"#"},"contains":{"$ref":"#"},"additionalProperties":{"$ref":"#"}}')
read('{"dependencies":{"a":["a"]}}')

# ---- repeated names keep their last value
refuse('{"type":"null","type":5}', 'wrongshape type "/type"')
read('{"type":5,"type":"null"}')

# ---- documents
refuse_document = lambda schema, document, words: CASES.append((schema, document, 'refused document ' + words, True))
refuse_document('{"contains":true}', '[0.5]', 'notwhole "/0"')
refuse_document('true', '1.0', 'notwhole ""')
refuse_document('true', '{"b":[1,2.5],"a":{"c":3,"d":1e1}}', 'notwhole "/a/d"')
refuse_document('false', '{"a/b":{"~":18446744073709551616}}', 'notwhole "/a~1b/~0"')
refuse_document('true', '{"a":', 'notjson')
refuse_document('true', '', 'notjson')
refuse_document('true', 'parts 1', 'parts 1')
CASES.append(('{"type":5}', '{', 'refused first wrongshape type "/type"', True))

# ---- types
KINDS = {'null': ['null'], 'boolean': ['true', 'false'], 'number': ['0', '-7', '18446744073709551615'],
         'string': ['""', '"null"'], 'array': ['[]', '[null]'], 'object': ['{}', '{"type":"null"}']}
for word, own in KINDS.items():
    group({'type': word}, own, [d for other, ds in KINDS.items() if other != word for d in ds[:1]])
group({'type': 'integer'}, ['0', '-9223372036854775808'], ['"0"', 'null'])
group({'type': ['integer', 'null']}, ['5', 'null'], ['[]', 'false'])
group({'type': []}, [], ['null', '{}'], ours=True)

# ---- enum, const
group({'enum': [1, 'a', None, [1, {'b': 2, 'a': 3}], {}]}, ['1', '"a"', 'null', '[1,{"a":3,"b":2}]', '{}'],
      ['2', '"1"', '[]', '[1]', '[{"a":3,"b":2},1]', '{"a":1}', 'false'])
group({'const': {'a': [1, 2], 'b': 'é'}}, ['{"b":"\\u00e9","a":[1,2]}'], ['{"a":[2,1],"b":"é"}', '{"a":[1,2]}', 'null'])
group({'const': 0}, ['0'], ['false', '""', '[]', 'null'])
group({'const': False}, ['false'], ['0', 'true', 'null'])
group({'enum': []}, [], ['null', '[]'], ours=True)
group({'enum': [-1, 18446744073709551615]}, ['-1', '18446744073709551615'], ['1'])

# ---- numbers
group({'multipleOf': 3}, ['0', '-3', '9', '"4"', 'null', '[4]'], ['1', '-4'])
group({'minimum': 2, 'maximum': 4}, ['2', '3', '4', '"9"', '{}'], ['1', '5', '-3'])
group({'exclusiveMinimum': 2, 'exclusiveMaximum': 4}, ['3', 'true'], ['2', '4'])
group({'exclusiveMinimum': 3, 'minimum': 5}, ['5'], ['4', '3'])
group({'maximum': -9223372036854775808}, ['-9223372036854775808'], ['-9223372036854775807'])
group({'exclusiveMinimum': 18446744073709551615}, ['null'], ['18446744073709551615'])

# ---- strings
group({'minLength': 2, 'maxLength': 3}, ['"ab"', '"abc"', '"éé"', '"😀😀😀"', '5', '[]'], ['"a"', '""', '"abcd"', '"😀"'])
group({'maxLength': 0}, ['""', '{"a":1}'], ['" "'])
group({'pattern': 'b'}, ['"abc"', '"b"', '7', '[]'], ['""', '"a"'])
group({'pattern': '^b$'}, ['"b"'], ['"ab"', '"b\\n"'], ours=True)
group({'pattern': '^a{2,3}$'}, ['"aa"', '"aaa"'], ['"a"', '"aaaa"'])
group({'pattern': '^(a|bc)*d?$'}, ['""', '"abcad"', '"d"'], ['"b"', '"dd"'])
group({'pattern': '^.$'}, ['"a"', '"😀"'], ['""', '"ab"', '"\\n"'])
group({'pattern': '\\d{3}-\\d{4}'}, ['"x123-4567y"'], ['"12-3456"'])
group({'pattern': '^[^a-c]+$'}, ['"xyz"'], ['"xaz"', '""'])
group({'pattern': ''}, ['""', '"a"'], [])
group({'pattern': '(^a|b$)'}, ['"ax"', '"xb"'], ['"xa"', '"bx"'])

# ---- patterns that repeat
refuse('{"pattern":"(a{2,1})*"}', 'pattern quantifierorder 2 "/pattern"')
group({'pattern': '^(a*)*$'}, ['""', '"aaa"'], ['"ab"'])
group({'pattern': '^((a*)*)*b$'}, ['"b"', '"aab"'], ['"aa"', '"ba"'])
group({'pattern': '^(a{2}){3}$'}, ['"aaaaaa"'], ['"aaaaa"', '"aaaaaaa"'])
group({'pattern': '^(a{2,3}){2}$'}, ['"aaaa"', '"aaaaa"', '"aaaaaa"'], ['"aaa"', '"aaaaaaa"'])
group({'pattern': '^a{0}$'}, ['""'], ['"a"'])
group({'pattern': '^(ab){0}c$'}, ['"c"'], ['"abc"'])
group({'pattern': '^(a|aa){2,}$'}, ['"aa"', '"aaaaa"'], ['""', '"a"'])
group({'pattern': '^(|a){3}$'}, ['""', '"aa"', '"aaa"'], ['"aaaa"'])
group({'pattern': '^(a||b)+$'}, ['""', '"abba"'], ['"abc"'])
group({'pattern': '^(^a)*b$'}, ['"b"', '"ab"'], ['"aab"'])
group({'pattern': '^(a$)*$'}, ['""', '"a"'], ['"aa"'])
group({'pattern': '(^|b)a{2}'}, ['"aa"', '"xbaax"'], ['"xaa"', '"ba"'])
group({'pattern': '^(a?){3}a{3}$'}, ['"aaa"', '"aaaaaa"'], ['"aa"', '"aaaaaaa"'])
group({'pattern': '^((ab?)*c)+$'}, ['"c"', '"abaac"', '"cc"'], ['""', '"abca"'])
group({'pattern': '^[ab]{2,4}c+?$'}, ['"abc"', '"bbbbcc"'], ['"ac"', '"abababc"'])

# ---- arrays
group({'items': {'type': 'null'}}, ['[]', '[null,null]', '{"0":5}', '5'], ['[5]', '[null,false]'])
group({'items': False}, ['[]', 'null'], ['[null]'])
group({'items': [{'type': 'null'}, {'type': 'string'}]}, ['[]', '[null]', '[null,"a"]', '[null,"a",5]'],
      ['["a"]', '[null,null]'])
group({'items': [{'type': 'null'}], 'additionalItems': False}, ['[]', '[null]'], ['[null,null]', '[5]'])
group({'items': [{'type': 'null'}], 'additionalItems': {'type': 'string'}}, ['[null,"a","b"]'], ['[null,"a",5]'])
group({'items': {}, 'additionalItems': False}, ['[1,2]'], [])
group({'additionalItems': False}, ['[1,2]', '[]'], [])
group({'additionalItems': {'type': 'null'}}, ['[5]'], [])
group({'items': [], 'additionalItems': {'type': 'null'}}, ['[null]', '[]'], ['[5]'])
group({'contains': {'minimum': 5}}, ['[5]', '[1,7]', '5', '{}'], ['[]', '[1]', '[4,3]'])
group({'contains': True}, ['[0]', '"a"'], ['[]'])
group({'contains': False}, ['{}', '5'], ['[]', '[1]'])
group({'contains': {'type': 'number'}, 'items': {'type': 'string'}}, ['null'], ['[]', '["a"]', '[1]'])
group({'minItems': 1, 'maxItems': 2}, ['[1]', '[1,2]', '"abc"', '{}'], ['[]', '[1,2,3]'])

# ---- objects
group({'required': ['a', 'b']}, ['{"a":1,"b":2}', '{"b":null,"a":null,"c":0}', '[]', '"a"'], ['{}', '{"a":1}', '{"b":1}'])
group({'required': ['a', 'a', '']}, ['{"a":1,"":2}'], ['{"a":1}'], ours=True)
group({'properties': {'a': {'type': 'null'}, 'b': False}}, ['{}', '{"a":null}', '{"c":5}', '[5]'], ['{"a":5}', '{"b":null}'])
group({'patternProperties': {'a': {'type': 'number'}, '^b': {'minimum': 5}}},
      ['{}', '{"xay":1}', '{"b":5,"c":null}', '{"ba":6}'], ['{"a":null}', '{"b":4}', '{"ba":4}', '{"ba":"x"}'])
group({'properties': {'foo': {'type': 'string'}}, 'patternProperties': {'^f': {'maxLength': 2}}},
      ['{"foo":"ab"}', '{"fo":[]}'], ['{"foo":"abc"}', '{"foo":5}', '{"f":"abc"}'])
group({'properties': {'a': {}}, 'patternProperties': {'^x': {}}, 'additionalProperties': False},
      ['{}', '{"a":1,"x1":2}', '[1]'], ['{"b":1}', '{"a":1,"y":2}', '{"ax":1}'])
group({'additionalProperties': {'type': 'null'}}, ['{}', '{"a":null}', '5'], ['{"a":1}'])
group({'patternProperties': {'a': True}, 'additionalProperties': {'type': 'null'}}, ['{"ba":5,"c":null}'], ['{"c":5}'])
group({'propertyNames': {'maxLength': 2}}, ['{}', '{"ab":1}', '["abc"]'], ['{"abc":1}', '{"a":1,"abc":2}'])
group({'propertyNames': {'enum': ['a', 'b']}}, ['{"a":1,"b":2}'], ['{"c":1}'])
group({'propertyNames': False}, ['{}', '5'], ['{"a":1}'])
group({'propertyNames': {'type': 'object'}}, ['{}'], ['{"a":1}'])
group({'propertyNames': {'not': {'pattern': '^_'}}}, ['{"a_":1}'], ['{"_a":1}'])
group({'dependencies': {'a': ['b', 'c']}}, ['{}', '{"b":1}', '{"a":1,"b":2,"c":3}', '["a"]'], ['{"a":1}', '{"a":1,"b":2}'])
group({'dependencies': {'a': {'maxProperties': 1}}}, ['{"a":1}', '{"b":1,"c":2}', '"a"'], ['{"a":1,"b":2}'])
group({'dependencies': {'a': [], 'b': False}}, ['{"a":1}'], ['{"b":1}', '{"a":1,"b":1}'])
group({'dependencies': {'a': {'type': 'array'}}}, ['{}', '[]', '5'], ['{"a":1}'])
group({'minProperties': 1, 'maxProperties': 2}, ['{"a":1}', '{"a":1,"b":2}', '[]', 'null'], ['{}', '{"a":1,"b":2,"c":3}'])

# ---- in place
group({'allOf': [{'minimum': 2}, {'maximum': 4}]}, ['3', '"a"'], ['1', '5'])
group({'anyOf': [{'type': 'null'}, {'minimum': 5}]}, ['null', '7', '"x"'], ['4'])
group({'oneOf': [{'type': 'number'}, {'minimum': 5}]}, ['4', '"x"'], ['5', '7'])
group({'oneOf': [True, True]}, [], ['null'])
group({'oneOf': [True, False, False]}, ['null'], [])
group({'oneOf': [False, False]}, [], ['null'])
group({'oneOf': [{'multipleOf': 2}, {'multipleOf': 3}, {'multipleOf': 5}]}, ['2', '9', '25'], ['6', '10', '1', '30', '"a"'])
group({'not': {'type': 'null'}}, ['5', '[]'], ['null'])
group({'not': {}}, [], ['null', '{}'])
group({'not': {'not': {'type': 'null'}}}, ['null'], ['5'])
group({'anyOf': [{'properties': {'a': {'type': 'null'}}}, {'required': ['b']}]}, ['{}', '{"a":5,"b":1}'], ['{"a":5}'])

# ---- references
group({'$ref': '#/definitions/a', 'type': 'null', 'definitions': {'a': {'type': 'string'}}}, ['"x"'], ['null'])
group({'properties': {'a': {'$ref': '#'}}, 'additionalProperties': False}, ['{}', '{"a":{"a":{}}}', '{"a":5}'],
      ['{"b":1}', '{"a":{"a":{"c":1}}}'])
group({'type': 'object', 'required': ['kids'], 'properties': {'kids': {'type': 'array', 'items': {'$ref': '#'}}}},
      ['{"kids":[]}', '{"kids":[{"kids":[]},{"kids":[{"kids":[]}]}]}'], ['{}', '{"kids":[{}]}', '{"kids":[5]}'])
group({'allOf': [{'$ref': '#/definitions/n'}, {'$ref': '#/definitions/n'}], 'definitions': {'n': {'minimum': 1}}}, ['1'], ['0'])
group({'$ref': '#/properties/a', 'properties': {'a': {'type': 'null'}}}, ['null'], ['{}'])

# ---- larger schemas, those of `examples`
EXAMPLES = os.path.join(HERE, '..', '..', 'examples')


def example(folder, name):
    """An example on one line."""
    with open(os.path.join(EXAMPLES, folder, name + '.json'), encoding='utf-8') as f:
        return json.dumps(json.load(f), ensure_ascii=False, separators=(',', ':'))


for schema in ('before', 'after'):
    group(example('orders', schema), [example('orders', 'order')], [example('orders', 'order_without_quantity')])
    group(example('pipeline', schema), [example('pipeline', 'pipeline')], [example('pipeline', 'pipeline_with_two_ways')])


# ---- parts that are shared: a part's answer is that of the document that it stands for

def parts(schema, lines, answer):
    """A schema, and the lines of a table's parts, of which the last one is validated."""
    numbered = ['%d %s' % (number, line) for number, line in enumerate(lines)]
    PARTS.append((json.dumps(schema), '\t'.join(['parts %d' % len(lines)] + numbered), answer))


def unshared(lines):
    """The document of the last part, as Python has it."""
    made = []
    for line in lines:
        value = json.loads(re.sub('#([0-9]+)', r'{"#":\1}', line))
        made.append(replaced(value, made))
    return made[-1]


def replaced(value, made):
    if isinstance(value, list):
        return [made[v['#']] for v in value]
    if isinstance(value, dict):
        return {k: made[v['#']] for k, v in value.items()}
    return value


def shared(schema, lines, answer):
    """The same, where the document is small: another validator may say."""
    parts(schema, lines, answer)
    CASES.append((json.dumps(schema), json.dumps(unshared(lines)), answer, False))


def doubled(depth, leaf='null'):
    """Both members of each part but the lowest are the part before it: unshared, 2 ^ depth leaves."""
    return [leaf] + ['{"l":#%d,"r":#%d}' % (i, i) for i in range(depth)]


TREE = {'anyOf': [{'type': 'null'}, {'type': 'object', 'properties': {'l': {'$ref': '#'}, 'r': {'$ref': '#'}},
                                     'required': ['l', 'r'], 'additionalProperties': False}]}
RIGHT = {'properties': {'r': {'$ref': '#'}}, 'not': {'const': {'l': None, 'r': None}}}
parts(TREE, doubled(64), 'valid')
parts(TREE, doubled(64, '0'), 'invalid')
parts(RIGHT, doubled(64), 'invalid')
parts(RIGHT, doubled(64, 'false'), 'valid')
# a part is asked for what stands above it, and not for what its own number says
shared({'items': [{'items': {'type': 'null'}}, {'items': {'type': 'string'}}]}, ['null', '[#0,#0]', '[#1,#1]'], 'invalid')
shared({'items': [{'items': {'type': 'null'}}, {'maxItems': 2}]}, ['null', '[#0,#0]', '[#1,#1]'], 'valid')
shared({'items': [{'maxItems': 1}, {'minItems': 2}]}, ['null', '[#0,#0]', '[#1,#1]'], 'invalid')
shared({'contains': {'contains': {'type': 'integer'}}}, ['0', 'null', '[#1,#0]', '[#1]', '[#3,#2]'], 'valid')
shared({'contains': {'contains': {'type': 'integer'}}}, ['0', 'null', '[#1,#1]', '[#1]', '[#3,#2]'], 'invalid')
# values in parts
shared({'const': {'a': [[1], [1]], 'b': [1]}}, ['1', '[#0]', '[#1,#1]', '{"a":#2,"b":#1}'], 'valid')
shared({'const': {'a': [[1], [1]], 'b': [[1]]}}, ['1', '[#0]', '[#1,#1]', '{"a":#2,"b":#1}'], 'invalid')
shared({'const': {'a': [[1], [2]], 'b': [1]}}, ['1', '[#0]', '[#1,#1]', '{"a":#2,"b":#1}'], 'invalid')
shared({'enum': [[], [[['x']]], 5]}, ['"x"', '[#0]', '[#1]', '[#2]'], 'valid')
shared({'enum': [[], [[['y']]], 5]}, ['"x"', '[#0]', '[#1]', '[#2]'], 'invalid')
# members by name, and names
shared({'properties': {'b': {'type': 'null'}}, 'additionalProperties': {'type': 'integer'}},
       ['null', '7', '{"a":#1,"b":#0,"c":#1}'], 'valid')
shared({'properties': {'b': {'type': 'null'}}, 'additionalProperties': {'type': 'integer'}},
       ['null', '7', '{"a":#1,"b":#0,"c":#0}'], 'invalid')
shared({'patternProperties': {'^x': {'type': 'null'}, 'y$': {'minimum': 3}}}, ['null', '2', '{"x":#0,"z":#1}'], 'valid')
shared({'patternProperties': {'^x': {'type': 'null'}, 'y$': {'minimum': 3}}}, ['null', '2', '{"x":#0,"zy":#1}'], 'invalid')
shared({'propertyNames': {'anyOf': [{'maxLength': 1}, {'const': 'long'}]}}, ['null', '{"a":#0,"long":#0}'], 'valid')
shared({'propertyNames': {'anyOf': [{'maxLength': 1}, {'const': 'long'}]}}, ['null', '{"a":#0,"lone":#0}'], 'invalid')
shared({'required': ['a'], 'dependencies': {'a': ['b'], 'b': {'maxProperties': 2}}}, ['0', '{"a":#0,"b":#0}'], 'valid')
shared({'required': ['a'], 'dependencies': {'a': ['b'], 'b': {'maxProperties': 1}}}, ['0', '{"a":#0,"b":#0}'], 'invalid')
# the last part is the document; lines that are wrong
shared({'type': 'array'}, ['0', '{}', '[]'], 'valid')
shared({'type': 'array'}, ['[]', '{}', '0'], 'invalid')
parts(True, ['[#0]'], 'refused document parts 2')
parts(True, ['null', '[#0, #0]'], 'refused document parts 3')


def main():
    try:
        from jsonschema import Draft6Validator
    except ImportError:
        Draft6Validator = None
    compared = 0
    for schema, document, answer, ours in CASES:
        assert '\n' not in schema + document and '\t' not in schema + document, schema
        if Draft6Validator and not ours:
            verdict = 'valid' if Draft6Validator(json.loads(schema)).is_valid(json.loads(document)) else 'invalid'
            if verdict != answer:
                sys.exit('jsonschema says %s of %s and %s' % (verdict, schema, document))
            compared += 1
    with open(os.path.join(HERE, 'stdin'), 'w', encoding='utf-8', newline='') as f:
        f.writelines('%s\t%s\n' % case[:2] for case in CASES + PARTS)
    with open(os.path.join(HERE, 'stdout'), 'w', encoding='utf-8', newline='') as f:
        f.writelines('%s\n' % case[2] for case in CASES + PARTS)
    print('%d cases, %d of them compared' % (len(CASES) + len(PARTS), compared))


main()
