#!/usr/bin/env python3
"""Measures `jsat gen` on its four families, and prints the table of `docs/performance.md`: measure.py [WORKERS].

JSAT names the program. Each row is the least processor time and the least wall time of five runs, with the memory that
one held, what was printed, how many times the row before it the processor time is, and the bytes that `include` prints
of the family's schemas, which are written here by their definition. It needs GNU `time`."""
import json
import os
import resource
import subprocess
import sys
import tempfile
import time

JSAT = os.environ.get('JSAT', 'jsat')
SIZES = {'chain': (1, 10, 100, 1000), 'tree': (1, 10, 100, 1000), 'wide': (2, 25, 50, 100, 200),
         'patterns': (2, 4, 6, 8)}
RUNS = 5


def pair(first, schema, second, other):
    """Objects that have two members, each as its schema says."""
    return {'type': 'object', 'required': [first, second], 'properties': {first: schema, second: other}}


def defined(letter, schemas):
    return {'$ref': '#/definitions/%s0' % letter, 'definitions': {letter + str(i): s for i, s in enumerate(schemas)}}


def numbers(leasts):
    named = {'p%d' % i: {'type': 'integer', 'minimum': least} for i, least in enumerate(leasts)}
    return {'type': 'object', 'properties': named, 'additionalProperties': False}


def schemas(family, n):
    """The two schemas of a family at n."""
    if family == 'chain':
        refs = [{'$ref': '#/definitions/d%d' % (i + 1)} for i in range(n - 1)]
        return defined('d', [pair('l', ref, 'r', ref) for ref in refs] + [{'type': 'null'}]), False
    if family == 'tree':
        kids = [{'type': 'array', 'minItems': 1, 'items': {'$ref': '#/definitions/t%d' % ((i + 1) % n)}}
                for i in range(n)]
        return defined('t', [pair('kids', kid, 'v', {'type': 'integer'}) for kid in kids]), False
    if family == 'wide':
        return {**numbers(range(n)), 'required': ['p%d' % i for i in range(n)]}, numbers([0] * n)
    named = {chr(97 + i): {'minimum': i} for i in range(n)}
    return {'type': 'object', 'minProperties': 1, 'patternProperties': named}, {'maxProperties': n}


def printed(family, n):
    """How many bytes `include` prints."""
    with tempfile.TemporaryDirectory() as folder:
        for name, schema in zip('ab', schemas(family, n)):
            with open(os.path.join(folder, name), 'w', encoding='utf-8') as file:
                json.dump(schema, file)
        ran = subprocess.run([os.path.abspath(JSAT), 'include', 'a', 'b'], cwd=folder, capture_output=True, check=False)
    return len(ran.stdout)


def spent():
    """The processor time of all runs so far."""
    used = resource.getrusage(resource.RUSAGE_CHILDREN)
    return used.ru_utime + used.ru_stime


def run(words):
    """The processor time and the wall time in seconds, and the lines of one run."""
    start, began = spent(), time.monotonic()
    ran = subprocess.run(words, capture_output=True, text=True, check=False)
    wall, seconds = time.monotonic() - began, spent() - start
    if ran.returncode not in (0, 1):
        sys.exit('%s ended with %d: %s' % (' '.join(words), ran.returncode, ran.stdout))
    return seconds, wall, ran.stdout.splitlines()


def memory(words):
    """The bytes that a run held at most."""
    ran = subprocess.run(['/usr/bin/time', '-f', '%M', *words], capture_output=True, text=True, check=False)
    return int(ran.stderr.split()[-1]) * 1024


def shown_time(seconds):
    return '%.2f s' % seconds if seconds >= 0.1 else '%d ms' % round(1000 * seconds)


def rows(workers):
    for family, sizes in SIZES.items():
        last = None
        for number in sizes:
            words = [JSAT, 'gen', family, str(number), '--workers', workers]
            runs = [run(words) for _ in range(RUNS)]
            seconds, wall, lines = min(it[0] for it in runs), min(it[1] for it in runs), runs[0][2]
            told = dict(line.split(' ', 1) for line in lines[1:3])
            ratio = '-' if last is None else '%.1f' % (seconds / last)
            yield (family, number, told['goals'], told['rounds'], lines[3], shown_time(seconds), shown_time(wall), ratio,
                   '%.1f MB' % (memory(words) / 1e6), '{:,}'.format(printed(family, number)))
            last = seconds


def main():
    workers = sys.argv[1] if len(sys.argv) > 1 else '1'
    print('| Family | N | Goals | Rounds | Answer | Time | Wall time | Times the row above | Memory | Bytes |')
    print('|---|---|---|---|---|---|---|---|---|---|')
    for row in rows(workers):
        print('| `%s` | %d | %s | %s | %s | %s | %s | %s | %s | %s |' % row, flush=True)


if __name__ == '__main__':
    main()
