#!/usr/bin/env python3
"""Measures `jsat include` on large pairs of schemas, and `check` of what it printed: measure.py [WORKERS].

JSAT names the program. Prints the table of `docs/performance.md`: the least processor time of three runs each, with the
wall time where there are several workers, and the memory that one held. It needs GNU `time`."""
import json
import os
import resource
import subprocess
import sys
import tempfile
import time

JSAT = os.path.abspath(os.environ.get('JSAT', 'jsat'))
HERE = os.path.dirname(os.path.abspath(__file__))
EXAMPLES = os.path.join(HERE, '..', '..', 'examples')
RUNS = 3
TEXT = {'type': 'string'}


def closed(count):
    """An object with so many optional texts and nothing else."""
    return {'type': 'object', 'properties': {'p%d' % i: TEXT for i in range(count)}, 'additionalProperties': False}


def patterns(count, last):
    """Names by so many patterns that overlap, the last of them with another schema."""
    kinds = [['string', 'null'] if i % 2 else ['string', 'integer'] for i in range(count - 1)] + [last]
    texts = {'^%s.*%s' % (chr(97 + i % 26), chr(97 + i // 26)): {'type': kind} for i, kind in enumerate(kinds)}
    return {'type': 'object', 'patternProperties': texts, 'required': ['aa', 'ba', 'cb']}


def names(count, members):
    return {'type': 'object', 'propertyNames': {'enum': ['name%d' % i for i in range(count)]},
            'minProperties': members, 'additionalProperties': TEXT}


def circle(count, ends):
    """So many definitions, each of which asks for a member of the next; the last one for the first, or for a text."""
    def ref(i):
        return {'$ref': '#/definitions/d%d' % i}

    inner = {'d%d' % i: {'type': 'object', 'required': ['next'], 'properties': {'next': ref((i + 1) % count)}}
             for i in range(count)}
    if ends:
        inner['d%d' % (count - 1)]['properties']['next'] = TEXT
    return {**ref(0), 'definitions': inner}


def served_twice(count):
    """So many members are asked for, each of which several patterns may serve."""
    asked = [{'not': {'patternProperties': {'^.?%s' % chr(97 + i): {'type': 'null'}}}} for i in range(count)]
    return {'type': 'object', 'allOf': asked}


def pairs():
    for count in (50, 100, 200, 400):
        yield '%d closed optional properties in %d' % (count, count + 1), closed(count), closed(count + 1)
        yield '%d in %d' % (count + 1, count), closed(count + 1), closed(count)
    yield '60 overlapping patterns in themselves', patterns(60, 'null'), patterns(60, 'null')
    yield 'in 60 of which one differs', patterns(60, 'null'), patterns(60, 'boolean')
    yield 'and back', patterns(60, 'boolean'), patterns(60, 'null')
    yield 'twelve members asked for, each served by several cells, in `false`', served_twice(12), False
    yield '1,000 listed names and as many members, in `false`', names(1000, 1000), False
    yield 'one member more', names(1000, 1001), False
    yield '1,000 definitions in a circle of required members, in `false`', circle(1000, False), False
    yield 'the same, where one ends', circle(1000, True), False
    for name in ('events', 'expressions', 'manifest', 'service'):
        before = example(name, 'before')
        for change in ('compatible', 'incompatible'):
            after = example(name, change)
            yield '`examples/%s`, to the %s change' % (name, change), before, after
            yield 'and back', after, before


def example(name, version):
    with open(os.path.join(EXAMPLES, name, version + '.json'), encoding='utf-8') as file:
        return json.load(file)


def run(words, folder):
    """Processor time and wall time in seconds, and the bytes of one run."""
    used = resource.getrusage(resource.RUSAGE_CHILDREN)
    start, began = used.ru_utime + used.ru_stime, time.monotonic()
    ran = subprocess.run([JSAT, *words], cwd=folder, capture_output=True, check=False)
    wall, used = time.monotonic() - began, resource.getrusage(resource.RUSAGE_CHILDREN)
    if ran.returncode not in (0, 1, 4):
        sys.exit('%s ended with %d' % (' '.join(words), ran.returncode))
    return used.ru_utime + used.ru_stime - start, wall, ran.stdout


def measured(words, folder):
    """Time and memory as they are shown, and what is printed."""
    runs = [run(words, folder) for _ in range(RUNS)]
    spent = min(seconds for seconds, _, _ in runs)
    shown = '%.2f s' % spent if spent >= 0.1 else '%.1f ms' % (1000 * spent)
    if '--workers' in words and words[-1] != '1':
        shown += ', in %.2f s' % min(wall for _, wall, _ in runs)
    held = subprocess.run(['/usr/bin/time', '-f', '%M', JSAT, *words], cwd=folder, capture_output=True, check=False)
    return shown, '%.1f MB' % (int(held.stderr.split()[-1]) / 1024), runs[0][2]


def main():
    more = ['--workers', sys.argv[1]] if len(sys.argv) > 1 else []
    print('| Pair | Printed | `include` | Memory | `check` | Memory |')
    print('|---|---|---|---|---|---|')
    with tempfile.TemporaryDirectory() as folder:
        for title, first, second in pairs():
            for name, schema in (('a', first), ('b', second)):
                with open(os.path.join(folder, name), 'w', encoding='utf-8') as file:
                    json.dump(schema, file)
            took, memory, text = measured(['include', 'a', 'b', *more], folder)
            answer, judged = text.split(b'\n', 1)[0].decode(), ('-', '-')
            if answer == 'certificate 1':
                answer = '%.2f MB' % (len(text) / 1e6)
                with open(os.path.join(folder, 'c'), 'wb') as file:
                    file.write(text)
                judged = measured(['check', 'a', 'b', 'c', *more], folder)
                if judged[2] != b'accepted\n':
                    sys.exit('%s: %s' % (title, judged[2].decode()))
            print('| %s | %s | %s | %s | %s | %s |' % (title, answer, took, memory, *judged[:2]), flush=True)


if __name__ == '__main__':
    main()
