#!/usr/bin/env python3
"""Compares `jsat include` on random pairs of schemas with the package `jsonschema`.

    compare.py JSAT SEED SECONDS

A document that is printed, plain or in parts, has to be valid for the first schema and invalid for the second; where
there is none, `jsat check` has to accept the certificate, and random documents are tried in vain. What is wrong is reported
with the schemas. The last lines count the answers, and the pairs that weren't compared: for a document in parts of more
values than MOST_VALUES, or where the package goes too deep. The status is 1 where something is wrong, and else 0."""
import json
import os
import re
import subprocess
import sys
import tempfile
import time

from jsonschema import Draft6Validator

from chooser import Chooser

MOST_VALUES = 100000

# A string as JSON writes it, or the number of a part.
TOKEN = re.compile(r'"(?:[^"\\]|\\.)*"|#(\d+)')


class TooLarge(Exception):
    """A document has more than MOST_VALUES values."""


def of_parts(text):
    """The document that a table of parts stands for. It shares the parts, so it takes no more memory than the table."""
    documents, sizes = [], []
    for line in text.split('\n')[1:-1]:
        part = json.loads(TOKEN.sub(lambda token: token.group(1) or token.group(), line.split(' ', 1)[1]))
        numbers = part if isinstance(part, list) else list(part.values()) if isinstance(part, dict) else []
        if isinstance(part, list):
            part = [documents[number] for number in part]
        elif isinstance(part, dict):
            part = {name: documents[number] for name, number in part.items()}
        documents.append(part)
        sizes.append(1 + sum(sizes[number] for number in numbers))
    if sizes[-1] > MOST_VALUES:
        raise TooLarge
    return documents[-1]


def is_wrong(chooser, answer, text, first, second):
    """What is wrong with an answer; None where nothing is found."""
    valid = Draft6Validator(first).is_valid
    valid_too = Draft6Validator(second).is_valid
    if answer in ('document', 'parts'):
        document = of_parts(text) if answer == 'parts' else json.loads(text.split('\n', 1)[1])
        return None if valid(document) and not valid_too(document) else (answer, json.dumps(text))
    if answer == 'certificate':
        for _ in range(60):
            document = chooser.document(3)
            if valid(document) and not valid_too(document):
                return 'none', json.dumps(document)
    return None


def is_accepted(jsat, folder, certificate):
    """Whether the program's own checker accepts what it printed."""
    with open(os.path.join(folder, 'c'), 'w', encoding='utf-8') as file:
        file.write(certificate)
    run = subprocess.run([jsat, 'check', 'a', 'b', 'c'], cwd=folder, capture_output=True, text=True, timeout=60)
    return run.stdout == 'accepted\n' and run.returncode == 0


def main():
    jsat, seed, seconds = os.path.abspath(sys.argv[1]), int(sys.argv[2]), float(sys.argv[3])
    chooser = Chooser(seed)
    counts, left_out, differ, start = {}, {'too large': 0, 'too deep': 0}, 0, time.time()
    with tempfile.TemporaryDirectory() as folder:
        while time.time() - start < seconds:
            first, second = chooser.pair()
            for name, schema in (('a', first), ('b', second)):
                with open(os.path.join(folder, name), 'w', encoding='utf-8') as file:
                    json.dump(schema, file)
            run = subprocess.run([jsat, 'include', 'a', 'b'], cwd=folder, capture_output=True, text=True, timeout=60)
            answer = run.stdout.split()[0] if run.stdout else 'nothing'
            counts[answer] = counts.get(answer, 0) + 1
            if answer == 'nothing' or answer == 'certificate' and not is_accepted(jsat, folder, run.stdout):
                print('REJECTED', answer, json.dumps(first), json.dumps(second))
                differ += 1
            try:
                wrong = is_wrong(chooser, answer, run.stdout, first, second)
            except TooLarge:
                left_out['too large'] += 1
                continue
            except RecursionError:
                left_out['too deep'] += 1
                continue
            if wrong:
                print('WRONG', *wrong, json.dumps(first), json.dumps(second))
                differ += 1
    print(counts)
    print('not compared:', left_out)
    return 1 if differ else 0


if __name__ == '__main__':
    sys.exit(main())
