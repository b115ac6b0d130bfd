"""Validity, as the keywords are defined."""
import operator

from leaves import compiled
from tables import norm_table


def valid(root, schema, doc):
    if isinstance(schema, bool):
        return schema
    if '$ref' in schema:
        return valid(root, norm_table.at(root, schema['$ref'][1:]), doc)
    return all(is_met(root, schema, keyword, asked, doc) for keyword, asked in schema.items())


def same(a, b):
    if norm_table.kind_of(a) != norm_table.kind_of(b):
        return False
    if isinstance(a, dict):
        return a.keys() == b.keys() and all(same(a[name], b[name]) for name in a)
    return a == b if not isinstance(a, list) else len(a) == len(b) and all(map(same, a, b))


TESTS = {
    'number': {'multipleOf': lambda n, of: n % of == 0, 'minimum': operator.ge, 'maximum': operator.le,
               'exclusiveMinimum': operator.gt, 'exclusiveMaximum': operator.lt},
    'string': {'minLength': lambda word, n: len(word) >= n, 'maxLength': lambda word, n: len(word) <= n,
               'pattern': lambda word, pattern: bool(compiled(pattern).search(word))},
    'array': {'minItems': lambda items, n: len(items) >= n, 'maxItems': lambda items, n: len(items) <= n},
    'object': {'minProperties': lambda members, n: len(members) >= n,
               'maxProperties': lambda members, n: len(members) <= n,
               'required': lambda members, names: all(name in members for name in names)},
}


def is_met(root, schema, keyword, asked, doc):
    kind = norm_table.kind_of(doc)
    if keyword == 'type':
        return kind in ['number' if t == 'integer' else t for t in ([asked] if isinstance(asked, str) else asked)]
    if keyword in ('enum', 'const'):
        return any(same(value, doc) for value in (asked if keyword == 'enum' else [asked]))
    if keyword in ('allOf', 'anyOf', 'oneOf'):
        count = sum(valid(root, s, doc) for s in asked)
        return {'allOf': count == len(asked), 'anyOf': count > 0, 'oneOf': count == 1}[keyword]
    if keyword == 'not':
        return not valid(root, asked, doc)
    if keyword in TESTS.get(kind, {}):
        return TESTS[kind][keyword](doc, asked)
    if kind == 'object':
        return is_met_by_members(root, schema, keyword, asked, doc)
    return kind != 'array' or is_met_by_elements(root, schema, keyword, asked, doc)


def is_met_by_elements(root, schema, keyword, asked, doc):
    if keyword == 'items' and isinstance(asked, list):
        return all(valid(root, s, child) for s, child in zip(asked, doc))
    if keyword == 'items':
        return all(valid(root, asked, child) for child in doc)
    if keyword == 'additionalItems' and isinstance(schema.get('items'), list):
        return all(valid(root, asked, child) for child in doc[len(schema['items']):])
    if keyword == 'contains':
        return any(valid(root, asked, child) for child in doc)
    return True


def is_met_by_members(root, schema, keyword, asked, doc):
    if keyword == 'properties':
        return all(valid(root, s, doc[name]) for name, s in asked.items() if name in doc)
    if keyword == 'patternProperties':
        return all(valid(root, s, doc[name]) for pattern, s in asked.items() for name in doc
                   if compiled(pattern).search(name))
    if keyword == 'additionalProperties':
        named, patterns = schema.get('properties', {}), schema.get('patternProperties', {})
        return all(valid(root, asked, doc[name]) for name in doc
                   if name not in named and not any(compiled(pattern).search(name) for pattern in patterns))
    if keyword == 'propertyNames':
        return all(valid(root, asked, name) for name in doc)
    if keyword == 'dependencies':
        return all(is_needed_met(root, needed, doc) for name, needed in asked.items() if name in doc)
    return True


def is_needed_met(root, needed, doc):
    """What a member makes needed: names, or a schema."""
    return all(name in doc for name in needed) if isinstance(needed, list) else valid(root, needed, doc)
