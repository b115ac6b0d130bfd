#!/usr/bin/env python3
"""Runs `jsat` with less and less memory: memory.py JSAT [--steps N].

Each command over the examples, and over a few small schemas, is run with a limit on its address space that falls step
by step from what it takes without one. Where memory is refused the status has to be 7 with nothing written; else the
report and the status have to be those without a limit. What is wrong is reported, and the last line counts runs by how they
ended. A run with so little that the program can't be started at all is the last one."""
import argparse
import collections
import glob
import os
import resource
import subprocess
import sys
import tempfile

HERE = os.path.dirname(os.path.abspath(__file__))
EXAMPLES = os.path.join(HERE, '..', '..', 'examples')
SMALL = [
    '{"type":"object","required":["next"],"properties":{"next":{"$ref":"#"}}}',
    '{"type":"object","maxProperties":1,"allOf":[{"not":{"patternProperties":{"^a":{"type":"null"}}}},'
    '{"not":{"patternProperties":{"b$":{"type":"null"}}}}]}',
    '{"type":"object","required":["name"],"properties":{"name":{"type":"string","minLength":1}},'
    '"additionalProperties":false}',
]


def run(words, limit=None):
    """The status, and what was written; none where the program can't be started."""
    def limited():
        if limit is not None:
            resource.setrlimit(resource.RLIMIT_AS, (limit, limit))

    try:
        child = subprocess.run(words, capture_output=True, preexec_fn=limited, check=False)
    except (OSError, subprocess.SubprocessError):
        return None
    return child.returncode, child.stdout


def is_started(jsat, limit):
    """Whether the program can be started at all with this limit: other words take next to no memory."""
    ran = run([jsat], limit)
    return ran is not None and ran[0] in (2, 7)


def commands(jsat, folder):
    """The commands that are tried, with certificates that were printed before."""
    files = sorted(glob.glob(os.path.join(EXAMPLES, '*', '*.json')))
    for number, text in enumerate(SMALL):
        files.append(os.path.join(folder, 'small%d.json' % number))
        with open(files[-1], 'w', encoding='utf-8') as file:
            file.write(text)
    for name in files:
        yield [jsat, 'sat', name]
        yield [jsat, 'norm', name]
        # (a schema is a document too)
        yield [jsat, 'valid', name, name]
    for before in glob.glob(os.path.join(EXAMPLES, '*', 'before.json')):
        for after in glob.glob(os.path.join(os.path.dirname(before), '[aci]*.json')):
            for pair in ((before, after), (after, before)):
                yield [jsat, 'include', *pair]
                printed = run([jsat, 'include', *pair])
                if printed[0] == 0:
                    certificate = os.path.join(folder, 'certificate')
                    with open(certificate, 'wb') as file:
                        file.write(printed[1])
                    yield [jsat, 'check', *pair, certificate]
    for family, number in (('chain', '40'), ('tree', '3'), ('wide', '20')):
        yield [jsat, 'gen', family, number]


def most_memory(words):
    """A limit with which nothing is refused, in halves from a gigabyte on."""
    limit = 1 << 30
    whole = run(words)
    while limit > 1 << 21 and run(words, limit // 2) == whole:
        limit //= 2
    return limit


def main():
    options = argparse.ArgumentParser()
    options.add_argument('jsat')
    options.add_argument('--steps', type=int, default=32)
    options = options.parse_args()
    jsat = os.path.abspath(options.jsat)
    counts, wrong = collections.Counter(), 0
    with tempfile.TemporaryDirectory() as folder:
        for words in commands(jsat, folder):
            whole, most = run(words), most_memory(words)
            for step in range(options.steps):
                limit = most - most // 2 * step // options.steps
                if not is_started(jsat, limit):
                    break
                ran = run(words, limit)
                counts['the answer' if ran == whole else 'want of memory'] += 1
                if ran not in (whole, (7, b'')):
                    wrong += 1
                    told = 'no start' if ran is None else 'status %d, %r' % (ran[0], ran[1][:60])
                    print('%d bytes: %s: %s' % (limit, told, ' '.join(words[1:])), flush=True)
    print('%d runs: %s; %d wrong' % (sum(counts.values()), ', '.join('%s %d' % it for it in counts.items()), wrong))
    sys.exit(bool(wrong))


if __name__ == '__main__':
    main()
