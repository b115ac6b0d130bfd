#!/usr/bin/env python3
"""Files as deep, as long or as wide as the program takes them, and one step beyond: deepest.py PROGRAM [NAME ..]

Prints a table with what came, the processor time and the memory of each run, and ends with status 1 where an answer isn't the
one that stands here, or a run takes more than two minutes. It needs GNU `time`."""
import json
import os
import subprocess
import sys
import tempfile

MOST_BYTES = 16_777_216
MOST_SECONDS = 120


def definitions(count, body):
    return {'$ref': '#/definitions/d0', 'definitions': {'d%d' % i: body(i) for i in range(count)}}


def following(i):
    return {'$ref': '#/definitions/d%d' % (i + 1)}


def reference_chain(count):
    """A reference to a reference, so many times, and at its end the schema of null."""
    return definitions(count, lambda i: following(i) if i + 1 < count else {'type': 'null'})


def reference_circle(count):
    return definitions(count, lambda i: {'$ref': '#/definitions/d%d' % ((i + 1) % count)})


def doubling(count):
    """Each definition asks for the next one twice."""
    return definitions(count, lambda i: {'allOf': [following(i)] * 2} if i + 1 < count else {'type': 'null'})


def nested(levels, value, wrap):
    for _ in range(levels):
        value = wrap(value)
    return value


def groups(levels):
    return {'pattern': '^' + '(?:' * levels + 'a' + ')' * levels + '$'}


def alternatives(count):
    return {'pattern': '^(?:' + '|'.join(chr(0x4E00 + i) for i in range(count)) + ')$', 'type': 'string'}


def pairs(count, members):
    """So many choices of two, whose branches each have all of these members."""
    return {'type': 'object', 'required': ['k'],
            'properties': {'k%d' % i: {'type': 'integer'} for i in range(members)},
            'allOf': [{'anyOf': [{'minProperties': 2 * i + 1}, {'minProperties': 2 * i + 2}]} for i in range(count)]}


def table_of_parts(count):
    """A list of a list, so many times, as a table of parts."""
    return 'parts %d\n0 []\n' % count + ''.join('%d [#%d]\n' % (i, i - 1) for i in range(1, count))


DEEP_LIST = {'items': {'$ref': '#'}, 'type': 'array'}

# name: what it is, the command with its files (text, or a value for JSON), the status, how what is printed begins
CASES = {
    'document 127': ('a list of a list, 127 levels', 'valid', [DEEP_LIST, nested(126, [], lambda v: [v])], 0, 'valid'),
    'document 128': ('128 levels', 'valid', [DEEP_LIST, nested(127, [], lambda v: [v])], 3, 'refused document notjson'),
    'document long': ('a list of 8,388,607 numbers', 'valid',
                      [{'items': {'type': 'integer'}}, '[' + ','.join(['0'] * (MOST_BYTES // 2 - 1)) + ']'], 0, 'valid'),
    'document wide': ('an object of 1,000,000 members', 'valid',
                      [{'additionalProperties': {'minimum': 0}},
                       '{' + ','.join('"%06x":1' % i for i in range(1_000_000)) + '}'], 0, 'valid'),
    'document text': ('a text of 16,777,214 characters, with a pattern', 'valid',
                      [{'pattern': 'ab$'}, '"' + 'a' * (MOST_BYTES - 2) + '"'], 1, 'invalid'),
    'document number': ('a number of 16,777,216 digits', 'valid',
                        [{'type': 'integer'}, '1' * MOST_BYTES], 3, 'refused document'),
    'document beyond': ('a file one byte too long', 'valid', [True, ' ' * MOST_BYTES + '1'], 3, 'refused document toolong'),
    'parts deep': ('a list of a list, 900,000 levels, as parts', 'valid', [DEEP_LIST, table_of_parts(900_000)], 0, 'valid'),
    'references': ('a chain of 200,000 references', 'sat', [reference_chain(200_000)], 0, 'document'),
    'references both': ('the same against itself', 'include', [reference_chain(200_000)] * 2, 0, 'certificate 1'),
    'circle': ('a circle of 200,000 references', 'sat', [reference_circle(200_000)], 3, 'refused first cycle'),
    'doubling': ('30 definitions that each ask for the next one twice', 'valid', [doubling(30), None], 0, 'valid'),
    'doubling long': ('100,000 of them', 'valid', [doubling(100_000), None], 0, 'valid'),
    'doubling sat': ('30 of them', 'sat', [doubling(30)], 0, 'document'),
    'schemas 126': ('schemas in one another, 126 levels', 'sat', [nested(126, True, lambda v: {'not': v})], 0, 'document'),
    'schemas 128': ('128 levels', 'sat', [nested(128, True, lambda v: {'not': v})], 3, 'refused first notjson'),
    'groups 1,000': ('a pattern of 1,000 groups in one another', 'sat', [{**groups(1000), 'type': 'string'}], 0, 'document'),
    'groups 1,001': ('1,001 groups', 'sat', [groups(1001)], 3, 'refused first pattern'),
    'repeat 16,384': ('`^a{16384}$`', 'sat', [{'pattern': '^a{16384}$', 'type': 'string'}], 0, 'document'),
    'repeat within': ('`^a{8191}` in `^a{8190}`', 'include',
                      [{'pattern': '^a{8191}', 'type': 'string'}, {'pattern': '^a{8190}'}], 0, 'certificate 1'),
    'repeat beyond': ('`^a{16384}` and `^b`', 'sat',
                      [{'type': 'string', 'allOf': [{'pattern': '^a{16384}'}, {'pattern': '^b'}]}], 4, 'limit positions'),
    'letters 1,022': ('a pattern of 1,022 letters as alternatives', 'sat', [alternatives(1022)], 0, 'document'),
    'letters 1,024': ('1,024 letters', 'sat', [alternatives(1024)], 4, 'limit classes'),
    'elements': ('`minItems` 65,536', 'sat', [{'type': 'array', 'minItems': 65536}], 0, 'document'),
    'elements beyond': ('`minItems` 65,537', 'sat', [{'type': 'array', 'minItems': 65537}], 4, 'limit counts'),
    'length': ('`minLength` 65,535', 'sat', [{'type': 'string', 'minLength': 65535}], 0, 'document'),
    'length beyond': ('`minLength` 65,536', 'sat', [{'type': 'string', 'minLength': 65536}], 4, 'limit states'),
    'contains 9': ('9 `contains`', 'sat',
                   [{'type': 'array', 'allOf': [{'contains': {'const': i}} for i in range(9)]}], 0, 'document'),
    'contains 16': ('16 `contains`', 'sat',
                    [{'type': 'array', 'allOf': [{'contains': {'const': i}} for i in range(16)]}], 4, 'limit plans'),
    'listed': ('1,023 listed schemas', 'sat', [{'type': 'array', 'items': [{}] * 1023, 'minItems': 1023}], 0, 'document'),
    'required': ('1,000,000 names that are required', 'valid',
                 [{'type': 'object', 'required': ['%06x' % i for i in range(1_000_000)]}, {}], 1, 'invalid'),
    'enum': ('an `enum` of 1,000,000 texts', 'valid', [{'enum': ['%06x' % i for i in range(1_000_000)]}, '"f423f"'], 1, 'invalid'),
    'names 5,000': ('5,000 names in `propertyNames`', 'sat',
                    [{'type': 'object', 'minProperties': 1, 'propertyNames': {'enum': ['n%05d' % i for i in range(5000)]}}],
                    0, 'document'),
    'branches': ('14 choices of two over 1,000 members', 'sat', [pairs(14, 1000)], 0, 'document'),
    'branches beyond': ('15 choices of two', 'sat', [pairs(15, 1)], 4, 'limit branches'),
    'const nested': ('references into a `const` of 100 levels, from each of them', 'norm',
                     [{'allOf': [{'$ref': '#/properties/c/const' + '/a' * i} for i in range(100)],
                       'properties': {'c': {'const': nested(100, {}, lambda v: {'a': v})}}}], 0, ''),
}


def measured(program, words, folder):
    """The status, the start of what was printed, the processor time in seconds and the bytes of memory of one run."""
    with open(os.path.join(folder, 'printed'), 'wb') as out:
        timed = ['/usr/bin/time', '-q', '-f', '%U %S %M', '-o', 'used', program, *words]
        ended = subprocess.run(timed, stdout=out, stderr=subprocess.DEVNULL, cwd=folder, check=False).returncode
    with open(os.path.join(folder, 'printed'), 'rb') as out:
        printed = out.read(4096)
    with open(os.path.join(folder, 'used'), encoding='ascii') as out:
        user, system, memory = out.read().split()
    return ended, printed.decode('utf-8', 'replace'), float(user) + float(system), int(memory) * 1024


def time_text(seconds):
    if seconds < 0.015:
        return 'under 15 ms'
    return '%d ms' % round(seconds * 1000) if seconds < 0.1 else '%.2g s' % seconds


def main():
    program, names = os.path.abspath(sys.argv[1]), sys.argv[2:] or list(CASES)
    wrong = []
    print('| What | Command | Bytes | Answer | Time | Memory |')
    print('|---|---|---|---|---|---|')
    for name in names:
        what, command, files, status, begins = CASES[name]
        with tempfile.TemporaryDirectory() as folder:
            words, size = [command], 0
            for place, value in enumerate(files):
                text = value if isinstance(value, str) else json.dumps(value, ensure_ascii=False)
                words.append('file%d' % place)
                with open(os.path.join(folder, words[-1]), 'w', encoding='utf-8') as out:
                    out.write(text)
                size += os.path.getsize(os.path.join(folder, words[-1]))
            ended, printed, seconds, memory = measured(program, words, folder)
        answer = ' '.join(printed.split('\n')[0].split()[:3])[:40]
        print('| %s | `%s` | %s | `%s`, status %d | %s | %.3g MB |'
              % (what, command, f'{size:,}', answer, ended, time_text(seconds), memory / 1e6), flush=True)
        if ended != status or not printed.startswith(begins) or seconds > MOST_SECONDS:
            wrong.append('%s: status %d, and not %d; printed %r' % (name, ended, status, printed[:80]))
    print(*wrong, sep='\n', file=sys.stderr)
    sys.exit(1 if wrong else 0)


if __name__ == '__main__':
    sys.setrecursionlimit(10_000)
    main()
