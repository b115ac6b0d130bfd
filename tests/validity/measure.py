#!/usr/bin/env python3
"""Measures `jsat valid` against two other validators, and prints the tables of `docs/performance.md`: measure.py [FOLDER].

JSAT names the program. The files are those of `large.py`, written into FOLDER, or into one that is removed again. The
others are `ajv` under node (`ajv.js`, the package node-ajv) and `valijson` over rapidjson (`valijson.cpp`, the package
libvalijson-dev), which is compiled with `c++ -O2`. Each figure is the least processor time of five runs of the whole
process, and the memory that one held; all runs of one file follow one another. It needs GNU `time`."""
import os
import resource
import subprocess
import sys
import tempfile

HERE = os.path.dirname(os.path.abspath(__file__))
JSAT = os.environ.get('JSAT', 'jsat')
NAMES = 'records alternatives small patterns tree properties required enum'.split()
RUNS = 5


def spent():
    """The processor time of all runs so far."""
    used = resource.getrusage(resource.RUSAGE_CHILDREN)
    return used.ru_utime + used.ru_stime


def measured(words):
    """The least processor time, and the memory of one run; none of both where the validator itself fails."""
    env = {**os.environ, 'NODE_PATH': '/usr/share/nodejs'}
    least = None
    for _ in range(RUNS):
        start = spent()
        ran = subprocess.run(words, capture_output=True, text=True, check=False, env=env)
        seconds = spent() - start
        if ran.stdout == 'invalid\n':
            sys.exit('%s: %s' % (' '.join(words), ran.stdout))
        if ran.stdout != 'valid\n':
            return None, 0
        least = seconds if least is None else min(least, seconds)
    ran = subprocess.run(['/usr/bin/time', '-f', '%M', *words], capture_output=True, text=True, check=False, env=env)
    return least, int(ran.stderr.split()[-1]) * 1024


def main(folder):
    os.makedirs(folder, exist_ok=True)
    subprocess.run([sys.executable, os.path.join(HERE, 'large.py'), folder], check=True)
    built = os.path.join(folder, 'valijson')
    subprocess.run(['c++', '-O2', '-o', built, os.path.join(HERE, 'valijson.cpp')], check=True)
    print('| Files | Document | `jsat valid` | Memory | `ajv` | Memory | `valijson` | Memory |')
    print('|---|---|---|---|---|---|---|---|')
    for name in NAMES:
        schema, document = ('%s/%s.%s' % (folder, name, end) for end in ('schema', 'document'))
        size = os.path.getsize(document)
        time, memory = measured([JSAT, 'valid', schema, document])
        if time is None:
            sys.exit('%s fails on %s' % (JSAT, document))
        cells = ['`%s`' % name, '%.1f MB' % (size / 1e6) if size > 1e5 else '%d B' % size,
                 '%.3f s' % time, '%.0f MB' % (memory / 1e6)]
        for words in (['node', os.path.join(HERE, 'ajv.js')], [built]):
            other, memory = measured([*words, schema, document])
            cells += ['fails', '-'] if other is None else ['%.2f' % (other / time), '%.0f MB' % (memory / 1e6)]
        print('| %s |' % ' | '.join(cells), flush=True)


if __name__ == '__main__':
    if len(sys.argv) > 1:
        main(sys.argv[1])
    else:
        with tempfile.TemporaryDirectory() as made:
            main(made)
