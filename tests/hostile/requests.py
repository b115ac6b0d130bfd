#!/usr/bin/env python3
"""Refuses each request for memory of `jsat` in turn: requests.py JSAT [--most N].

A library that stands before glibc's own calls (`failing.c`, compiled here by `cc`) refuses one request. The status has
to be 7 with nothing written, or the report and the status have to be those without a refusal. Of a run with more than N
requests, N are refused, evenly spread. What is wrong is reported, and the last line counts runs by how they ended."""
import argparse
import collections
import os
import subprocess
import sys
import tempfile

from memory import SMALL

HERE = os.path.dirname(os.path.abspath(__file__))
VERSION = ('{"$schema":"http://json-schema.org/draft-06/schema#","title":"v%d","type":"object","required":["name"],'
           '"properties":{"name":{"type":"string","minLength":1,"format":"hostname"}%s},"additionalProperties":false}')
FILES = {
    'before': VERSION % (1, ''),
    'after': VERSION % (2, ',"tags":{"type":"array","items":{"type":"string"}}'),
    'string': '{"type":"string"}',
    'text': '{"type":["string","null"]}',
    'false': 'false',
    'document': '{"name":"a","list":[1,2,{"deep":[null,true]}]}',
    'endless': SMALL[0],
    'patterns': SMALL[1],
    'named': SMALL[2],
    'chain': '{"$ref":"#/definitions/d0","definitions":{%s,"d39":{"type":"null"}}}' % ','.join(
        '"d%d":{"type":"object","required":["l","r"],"properties":{"l":{"$ref":"#/definitions/d%d"},'
        '"r":{"$ref":"#/definitions/d%d"}}}' % (at, at + 1, at + 1) for at in range(39)),
}
COMMANDS = [
    ('sat', 'endless'), ('sat', 'patterns'), ('sat', 'named'), ('sat', 'chain'), ('sat', '--workers', '4', 'chain'),
    ('include', 'string', 'text'), ('include', 'text', 'string'), ('include', 'before', 'after'),
    ('include', 'after', 'before'), ('check', 'endless', 'false', 'certificate'),
    ('valid', 'named', 'document'), ('norm', 'patterns'), ('gen', 'tree', '5'),
]


def run(jsat, words, folder, refused=0):
    """The status, what was written, and how many requests there were."""
    count = os.path.join(folder, 'count')
    child = subprocess.run([jsat, *words], cwd=folder, capture_output=True, check=False, env={
        'LD_PRELOAD': os.path.join(folder, 'failing.so'), 'FAIL_REQUEST': str(refused), 'COUNT_FILE': count})
    with open(count, encoding='ascii') as file:
        return child.returncode, child.stdout, int(file.read())


def main():
    options = argparse.ArgumentParser()
    options.add_argument('jsat')
    options.add_argument('--most', type=int, default=2000)
    options = options.parse_args()
    jsat = os.path.abspath(options.jsat)
    counts, wrong = collections.Counter(), 0
    with tempfile.TemporaryDirectory() as folder:
        subprocess.run(['cc', '-O2', '-shared', '-fPIC', os.path.join(HERE, 'failing.c'), '-o',
                        os.path.join(folder, 'failing.so')], check=True)
        for name, text in FILES.items():
            with open(os.path.join(folder, name), 'w', encoding='utf-8') as file:
                file.write(text)
        with open(os.path.join(folder, 'certificate'), 'wb') as file:
            file.write(run(jsat, ['sat', 'endless'], folder)[1])
        for words in COMMANDS:
            status, report, requests = run(jsat, words, folder)
            tries = min(requests, options.most)
            print('%s: %d requests' % (' '.join(words), requests), flush=True)
            for at in range(tries):
                number = 1 + at * requests // tries
                ran = run(jsat, words, folder, number)[:2]
                counts['the answer' if ran == (status, report) else 'want of memory'] += 1
                if ran not in ((status, report), (7, b'')):
                    wrong += 1
                    print('request %d: status %d, %r' % (number, ran[0], ran[1][:60]), flush=True)
    print('%d runs: %s; %d wrong' % (sum(counts.values()), ', '.join('%s %d' % it for it in counts.items()), wrong))
    sys.exit(bool(wrong))


if __name__ == '__main__':
    main()
