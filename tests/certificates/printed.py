#!/usr/bin/env python3
"""Compares what `jsat include` prints with what `printer.py` says: printed.py JSAT [--pairs N] [--seed N].

On the pairs of `pairs.py`, and on so many pairs of schemas by chance: the same certificate, byte for byte, or that there
is a document. `jsat check` has to accept each certificate. Differences are listed, and the last line counts them. Pairs
that take long here are left out."""
import argparse
import json
import os
import signal
import subprocess
import sys
import tempfile

from compare import LONGEST, SECONDS, Pairs, TooSlow, stop
from definitions import Core, Limit
from pairs import PAIRS
from printer import NO_DOCUMENT, certificate


def wanted(pair):
    """The certificate; an empty text where there is a document; none where nothing is said here."""
    signal.alarm(SECONDS)
    try:
        lines = certificate(Core(*pair))
        return '\n'.join(lines) + '\n' if len(lines) <= LONGEST else None
    except AssertionError as told:
        if str(told) != NO_DOCUMENT:
            raise
        return ''
    except (TooSlow, Limit):
        return None
    finally:
        signal.alarm(0)


class Program:
    def __init__(self, program, folder):
        self.program, self.folder = os.path.abspath(program), folder

    def run(self, *words):
        done = subprocess.run([self.program, *words], cwd=self.folder, capture_output=True, text=True, check=False)
        return done.returncode, done.stdout

    def write(self, name, text):
        with open(os.path.join(self.folder, name), 'w', encoding='utf-8') as out:
            out.write(text)

    def difference(self, pair, text):
        """What is wrong with the answers to a pair, if anything."""
        self.write('a', json.dumps(pair[0]))
        self.write('b', json.dumps(pair[1]))
        status, answer = self.run('include', 'a', 'b')
        if text == '':
            return None if status == 1 and answer.startswith(('document\n', 'parts ')) else answer
        if (status, answer) != (0, text):
            return answer + '\nin place of\n' + text
        self.write('c', text)
        told = self.run('check', 'a', 'b', 'c')
        return None if told == (0, 'accepted\n') else 'judged as %d %s' % told


def main():
    options = argparse.ArgumentParser()
    options.add_argument('jsat')
    options.add_argument('--pairs', type=int, default=300)
    options.add_argument('--seed', type=int, default=1)
    options = options.parse_args()
    signal.signal(signal.SIGALRM, stop)
    chance = Pairs(options.seed)
    pairs = list(PAIRS.values()) + [chance.pair() for _ in range(options.pairs)]
    counts = {'certificates': 0, 'documents': 0, 'left out': 0, 'differ': 0}
    with tempfile.TemporaryDirectory() as folder:
        program = Program(options.jsat, folder)
        for pair in pairs:
            text = wanted(pair)
            counts['left out' if text is None else 'certificates' if text else 'documents'] += 1
            wrong = text is not None and program.difference(pair, text)
            if wrong:
                counts['differ'] += 1
                print(json.dumps(pair), wrong, sep='\n')
    print(', '.join('%s %d' % count for count in counts.items()))
    sys.exit(counts['differ'] > 0)


if __name__ == '__main__':
    main()
