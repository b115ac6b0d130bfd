#!/usr/bin/env python3
"""Runs `jsat` on bad input by chance, and looks for what must not be.

    campaign.py JSAT [--seed N] [--runs N] [--keep FOLDER]

Each run is a command over files that are made by chance: bytes, JSON texts and broken ones, schemas of all keywords,
printed certificates and tables of parts with something changed, and words. Told are a run that ends by a signal or with
a status that its report doesn't have, one that takes more than ten seconds or a gigabyte, a document that another
validator (`jsonschema` for Python) sees otherwise, a certificate that is accepted beside a document, and a verdict that
isn't that of `tests/certificates/judge.py`. The files of each such run are kept in FOLDER. The last line counts runs by
command and status."""
import argparse
import collections
import json
import os
import random
import resource
import subprocess
import sys
import tempfile
import threading

from jsonschema import Draft6Validator

HERE = os.path.dirname(os.path.abspath(__file__))
sys.path += [os.path.join(HERE, '..', 'inclusion'), os.path.join(HERE, '..', 'certificates')]
from chooser import Chooser  # noqa: E402
from definitions import Core  # noqa: E402
from judge import Lines, judged, shown  # noqa: E402

SECONDS, MEMORY = 10, 1 << 30
DOCUMENT = ('document\n', 'parts ')
# what the report of a command with a status begins with, and that of any command
REPORTS = {
    ('sat', 0): DOCUMENT, ('sat', 1): 'certificate 1\n', ('sat', 4): 'limit ',
    ('include', 0): 'certificate 1\n', ('include', 1): DOCUMENT, ('include', 4): 'limit ',
    ('valid', 0): 'valid\n', ('valid', 1): 'invalid\n', ('check', 0): 'accepted\n', ('check', 1): 'rejected ',
    ('norm', 0): 'core ', ('gen', 0): 'generated ', ('gen', 1): 'generated ', ('gen', 4): 'generated ',
}
ANY = {2: 'usage\n', 3: 'refused ', 5: 'readfault\n'}
WORDS = ['sat', 'include', 'valid', 'check', 'norm', 'gen', 'a', 'b', 'c', '-', '--', '--workers', '--workers=2',
         '--workers=', '64', '65', '0', '', '-x', 'chain', 'wide', 'patterns', 'tree', '3', '03', '+3', 'é', '--help',
         '-V', 'help']
SOME = b'{}[]":,0123456789-+eE.\\u ntrufalse\n\xff\x00\xc3\xa9$#/'
# certificates that are longer aren't judged here, where it takes long
JUDGED = 4000


def limit():
    """More than any run may take, so that none takes the machine."""
    resource.setrlimit(resource.RLIMIT_CPU, (3 * SECONDS, 3 * SECONDS))
    resource.setrlimit(resource.RLIMIT_AS, (4 * MEMORY, 4 * MEMORY))


class Run:
    """A command, its files, and what came of it."""

    def __init__(self, jsat, folder, words, files):
        self.words, self.files = words, files
        for name, data in files.items():
            with open(os.path.join(folder, name), 'wb') as file:
                file.write(data)
        child = subprocess.Popen([jsat, *words], cwd=folder, stdout=subprocess.PIPE, stderr=subprocess.DEVNULL,
                                 preexec_fn=limit)
        timer = threading.Timer(6 * SECONDS, child.kill)
        timer.start()
        self.text = child.stdout.read()
        _, status, used = os.wait4(child.pid, 0)
        timer.cancel()
        child.returncode = self.status = os.waitstatus_to_exitcode(status)
        self.seconds, self.memory = used.ru_utime + used.ru_stime, used.ru_maxrss * 1024

    def report(self):
        return self.text.decode('utf-8', 'replace')

    def faults(self):
        """What no run may do, whatever it is asked."""
        front = ANY.get(self.status, REPORTS.get((self.words[0] if self.words else '', self.status)))
        if front is None:
            yield 'it ended with %d' % self.status
        elif not self.report().startswith(front) or not self.text.endswith(b'\n'):
            yield 'status %d has another report' % self.status
        if self.seconds > SECONDS:
            yield 'it took %.1f s' % self.seconds
        if self.memory > MEMORY:
            yield 'it took %d MB' % (self.memory >> 20)


class Campaign:
    def __init__(self, jsat, seed, folder):
        self.jsat, self.folder, self.random, self.chooser = jsat, folder, random.Random(seed), Chooser(seed)
        self.counts = collections.Counter()
        # certificates that were printed for other schemas
        self.printed = collections.deque([b'certificate 1\ngoals 0\nend\n'], 200)

    def run(self, words, **files):
        run = Run(self.jsat, self.folder, words, files)
        self.counts[words[0] if words and words[0] in WORDS[:6] else 'other words', run.status] += 1
        return run

    # ---- what is made by chance

    def any_bytes(self):
        size = self.random.choice([0, 1, 2, 5, 20, 100, 1000])
        return bytes(self.random.choice(SOME) for _ in range(size))

    def changed(self, data):
        """The bytes with something changed: some left out, doubled, moved, or others in their place."""
        data = bytearray(data)
        for _ in range(self.random.choice([1, 1, 1, 2, 5])):
            at = self.random.randrange(len(data) + 1)
            end = min(len(data), at + self.random.choice([1, 1, 2, 8, 40]))
            kind = self.random.randrange(5)
            if kind == 0:
                del data[at:end]
            elif kind == 1:
                data[at:at] = data[at:end]
            elif kind == 2:
                data[at:end] = self.any_bytes()[:end - at + 1]
            elif kind == 3:
                data[at:end] = bytes(reversed(data[at:end]))
            else:
                piece = data[at:end]
                del data[at:end]
                to = self.random.randrange(len(data) + 1)
                data[to:to] = piece
        return bytes(data)

    def changed_line(self, data):
        """The lines with one left out, doubled, moved, or with another number."""
        lines = data.decode('latin-1').split('\n')
        at = self.random.randrange(len(lines))
        kind = self.random.randrange(4)
        if kind == 0:
            del lines[at]
        elif kind == 1:
            lines.insert(at, lines[self.random.randrange(len(lines))])
        elif kind == 2:
            lines.insert(self.random.randrange(len(lines)), lines.pop(at))
        else:
            words = lines[at].split(' ')
            places = [i for i, word in enumerate(words) if word.strip('+-').isdigit()]
            if places:
                number = self.random.choice([0, 1, 2, 7, 4294967295])
                words[self.random.choice(places)] = self.random.choice(['', '+', '-']) + str(number)
            lines[at] = ' '.join(words)
        return '\n'.join(lines).encode('latin-1')

    def schema(self):
        return json.dumps(self.chooser.root()).encode()

    # ---- runs, each with what is wrong

    def bad_bytes(self):
        make = self.random.choice([self.any_bytes, lambda: self.changed(self.schema())])
        words = self.random.choice([['sat', 'a'], ['include', 'a', 'b'], ['valid', 'a', 'b'], ['norm', 'a'],
                                    ['check', 'a', 'b', 'c'], ['valid', 'b', 'a']])
        run = self.run(words, a=make(), b=self.schema(), c=self.any_bytes())
        yield from ((run, fault) for fault in run.faults())

    def other_words(self):
        words = [self.random.choice(WORDS) for _ in range(self.random.randrange(6))]
        run = self.run(words, a=self.schema(), b=self.schema(), c=b'')
        yield from ((run, fault) for fault in run.faults())

    def validity(self):
        schema, document = self.chooser.root(), self.chooser.document(3)
        run = self.run(['valid', 'a', 'b'], a=json.dumps(schema).encode(), b=json.dumps(document).encode())
        yield from ((run, fault) for fault in run.faults())
        if run.status in (0, 1) and Draft6Validator(schema).is_valid(document) != (run.status == 0):
            yield run, 'another validator says otherwise'

    def by_workers(self, words):
        """The words, with a number of workers or without one."""
        count = self.random.choice([None, None, '1', '2', '4', '64'])
        return words if count is None else words + ['--workers', count]

    def search(self):
        """The first schema in the second, or whether it has a document, which is to ask for it in `false`."""
        first, second = self.chooser.pair()
        words = ['include', 'a', 'b']
        if self.random.random() < 0.2:
            words, second = ['sat', 'a'], False
        files = {'a': json.dumps(first).encode(), 'b': json.dumps(second).encode()}
        run = self.run(self.by_workers(words), **files)
        yield from ((run, fault) for fault in run.faults())
        if run.report().startswith('document'):
            document = json.loads(run.report().split('\n', 1)[1])
            if not Draft6Validator(first).is_valid(document) or Draft6Validator(second).is_valid(document):
                yield run, 'another validator says otherwise of the document'
            for certificate in self.random.sample(list(self.printed), min(3, len(self.printed))):
                yield from self.against(files, certificate, True)
        elif run.report().startswith('certificate'):
            self.printed.append(run.text)
            yield from self.against(files, run.text, False)
            for change in (self.changed, self.changed_line, self.changed_line):
                yield from self.against(files, change(run.text), None)
        elif run.report().startswith('parts'):
            yield from self.parts(files['a'], run.text, 0)
            yield from self.parts(files['b'], run.text, 1)

    def against(self, files, certificate, has_document):
        """The certificate is judged. `has_document`: whether only the first schema accepts some document, None where
        that isn't known."""
        run = self.run(self.by_workers(['check', 'a', 'b', 'c']), **files, c=certificate)
        yield from ((run, fault) for fault in run.faults())
        if has_document is not None and (run.status == 0) == has_document:
            yield run, 'accepted beside a document' if has_document else 'what was printed is rejected'
        if has_document is None and len(certificate) < JUDGED and self.random.random() < 0.2:
            verdict = shown(judged(Core(json.loads(files['a']), json.loads(files['b'])), Lines(certificate)))
            if run.report() != verdict + '\n':
                yield run, 'the judge says ' + verdict

    def parts(self, schema, table, status):
        """A table whose document has this validity for the schema, and changes of it."""
        for text in (table, self.changed(table), self.changed_line(table)):
            run = self.run(['valid', 'a', 'b'], a=schema, b=text)
            yield from ((run, fault) for fault in run.faults())
            if text is table and run.status != status:
                yield run, 'a document in parts is judged otherwise'

    def listing(self):
        run = self.run(['norm', 'a'], a=self.schema())
        yield from ((run, fault) for fault in run.faults())

    def family(self):
        kind, most = self.random.choice([('chain', 200), ('wide', 25), ('patterns', 6), ('tree', 100)])
        words = ['gen', kind, str(self.random.randint(1, most)), '--workers', self.random.choice(['1', '2', '4'])]
        run = self.run(words)
        yield from ((run, fault) for fault in run.faults())

    def deep_parts(self):
        """A table whose document doubles with each part."""
        count = self.random.choice([1, 2, 30, 200])
        lines = ['parts %d' % (count + 1), '0 null'] + ['%d [#%d,#%d]' % (i, i - 1, i - 1) for i in range(1, count + 1)]
        text = ('\n'.join(lines) + '\n').encode()
        yield from self.parts(self.random.choice([b'true', b'{"type":["array","null"],"items":{"$ref":"#"}}']), text, 0)

    def turn(self):
        kinds = [self.search] * 12 + [self.bad_bytes] * 4 + [self.validity] * 4
        kinds += [self.other_words, self.deep_parts] * 2 + [self.listing, self.family]
        return self.random.choice(kinds)()


def keep(folder, number, run, fault):
    to = os.path.join(folder, '%04d' % number)
    os.makedirs(to, exist_ok=True)
    for name, data in run.files.items():
        with open(os.path.join(to, name), 'wb') as file:
            file.write(data)
    with open(os.path.join(to, 'fault.json'), 'w', encoding='utf-8') as file:
        told = {'words': run.words, 'fault': fault, 'status': run.status, 'seconds': run.seconds}
        json.dump({**told, 'report': run.report()[:1000]}, file)


def main():
    options = argparse.ArgumentParser()
    options.add_argument('jsat')
    options.add_argument('--seed', type=int, default=1)
    options.add_argument('--runs', type=int, default=1000)
    options.add_argument('--keep', default='found')
    options = options.parse_args()
    if os.path.isdir(options.keep) and os.listdir(options.keep):
        sys.exit('%s has the finds of another campaign; name another folder, or remove it' % options.keep)
    found = left_out = 0
    with tempfile.TemporaryDirectory() as folder:
        campaign = Campaign(os.path.abspath(options.jsat), options.seed, folder)
        while sum(campaign.counts.values()) < options.runs:
            try:
                for run, fault in campaign.turn():
                    found += 1
                    keep(options.keep, found, run, fault)
                    print('%s: %s' % (fault, ' '.join(run.words)), flush=True)
            except RecursionError:
                # of the other validator, or of the judge
                left_out += 1
    for (command, status), count in sorted(campaign.counts.items()):
        print('%s, status %d: %d' % (command, status, count))
    print('%d runs, %d faults, %d not compared' % (sum(campaign.counts.values()), found, left_out))
    sys.exit(bool(found))


if __name__ == '__main__':
    main()
