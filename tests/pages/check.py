#!/usr/bin/env python3
"""Holds the pages against the tree: what a page names exists, what it quotes is in the source, what it prints is printed. Code and
comments are looked at too: lines, functions, first comments, and words that are the project's own where plain ones would do.

    tests/pages/check.py [--jsat PROGRAM] [--known]

Silent and status 0 where all is well; else a line for each finding, `FILE:LINE: what is wrong; remedy`, and status 1. Printed
examples are run where `--jsat` or the variable JSAT names a built program. `--known` writes `known.txt` anew from today's code.
"""

import argparse
import os
import re
import subprocess
import sys

# Words in backquotes that look like a file, a crate or a name of the tree, and are none: files that a reader makes, names of other
# languages and of the kit, and the folders of any crate.
WORDS = {
    'old.json', 'new.json', 'tests/patterns/patterns.txt', 'RegExp', 'http_server',
    'Draft6Validator.is_valid', 'src/', 'specs/', 'proofs/', 'must-fail/', 'data/',
}

LONGEST_LINE = 120
LONGEST_FUNCTION = 60

# Files that are named for what they hold: modules of a folder, answers and invariants of the function whose folder they are in.
NAMED_FOR_CONTENT = {'Lib.antt', 'Answers.antt', 'Invariants.antt'}

ENDINGS = ('.antt', '.rt', '.md', '.py', '.mjs', '.json', '.edit', '.txt')
TOP_FOLDERS = ('crates', 'docs', 'examples', 'tests')
PAGE_FOLDERS = ('', 'specs', 'proofs', 'src')
SKIPPED_FOLDERS = {'.git', 'out', 'target', '__pycache__'}

HERE = os.path.dirname(os.path.abspath(__file__))
ROOT = os.path.dirname(os.path.dirname(HERE))
KNOWN = os.path.join(HERE, 'known.txt')

SPAN = re.compile(r'`([^`]+)`')
PATH = re.compile(r'[\w.+-]+(?:/[\w.+-]+)*/?')
NAMES = r'`\w+`(?:(?:, and |, | and )`\w+`)*'
FUNCTIONS = r'`(?:\w+::)*[a-z]\w*`'
CLAUSES = re.compile(r'\bclauses? (' + NAMES + r')(?: of (' + FUNCTIONS + r'(?:(?:, and |, | and )' + FUNCTIONS + r')*))?')
CRATE = re.compile(r'js_\w+|\w+_laws|\w+_table')
NAME = re.compile(r'[A-Za-z_]\w*(?:-\w+)*')
FUNCTION = re.compile(r'( *)(?:pub(?:\([a-z]+\))? )?(?:ghost )?(?:const )?(?:unsafe )?fn (\w+)')
OWNER = re.compile(r'(?:pub(?:\([a-z]+\))? )?(?:unsafe )?(?:impl(?:<[^{]*?>)? (?:[\w:<>, ]+ for )?|trait )(\w+)')


def squeezed(text):
    """A text up to white space."""
    return ' '.join(text.split())


def braced(text, start):
    """The end of the first group in braces from `start` on, or None where it isn't closed."""
    depth = 0
    for at in range(text.find('{', start), len(text)):
        if text[at] == '{':
            depth += 1
        elif text[at] == '}':
            depth -= 1
            if depth == 0:
                return at + 1
    return None


class Unit:
    """A paragraph, an item of a list, a row of a table or a block of code, with the line that it begins at."""

    def __init__(self, line, is_code, lines):
        self.line, self.is_code, self.text = line, is_code, '\n'.join(lines)
        self.heading = self.columns = self.before = ''

    def line_at(self, offset):
        return self.line + self.text.count('\n', 0, offset)

    def spans(self):
        """What stands in backquotes, with its line."""
        for found in SPAN.finditer(self.text):
            yield self.line_at(found.start()), squeezed(found.group(1))


def units_of(text):
    units, lines, first, is_code, fenced = [], [], 0, False, False

    def close():
        while lines and not lines[-1].strip():
            lines.pop()
        if lines:
            units.append(Unit(first, is_code, list(lines)))
        lines.clear()

    for number, line in enumerate(text.split('\n'), 1):
        if line.startswith('```'):
            close()
            fenced = not fenced
            continue
        code = fenced or (line.startswith('    ') and (is_code and bool(lines) or not lines))
        if not line.strip() and not (is_code and lines):
            close()
            continue
        if line.strip() and (code != is_code or not code and re.match(r'[|#]|[-*] |\d+\. ', line)):
            close()
        if not lines:
            first, is_code = number, code
        lines.append(line)
    close()
    return units


class Page:
    def __init__(self, tree, path):
        self.path = path
        self.folder = os.path.dirname(path)
        parts = path.split('/')
        self.crate = parts[1] if parts[0] == 'crates' else None
        self.units = units_of(tree.text(path))
        heading = columns = before = ''
        for unit in self.units:
            if unit.text.startswith('#') and not unit.is_code:
                heading = unit.text
            if not unit.text.startswith('|'):
                columns = ''
            elif not columns:
                columns = unit.text
            unit.heading, unit.columns, unit.before = heading, columns, before
            if not unit.is_code:
                before += unit.text + '\n'


class Crate:
    """The clauses of a crate's functions, and the names that its code declares."""

    def __init__(self, tree, name):
        self.name = name
        self.files = tree.of_crate.get(name, [])
        self.clauses = []   # type, function, clause, text up to white space, where it stands
        self.names = set()
        for path in self.files:
            if path.endswith('.rt'):
                self.read(path, tree.text(path))

    def read(self, path, text):
        owner = function = ''
        lines = text.split('\n')
        starts = [0]
        for line in lines:
            starts.append(starts[-1] + len(line) + 1)
        for number, line in enumerate(lines):
            found = OWNER.match(line)
            if found:
                owner = found.group(1)
            elif line == '}':
                owner = ''
            found = FUNCTION.match(line)
            if found:
                function = found.group(2)
            found = re.match(r'\s*(?:ghost )?ensures ?([\w-]*) *\{', line)
            if found:
                start = starts[number] + found.end() - 1
                end = braced(text, start)
                place = '%s:%d' % (path, number + 1)
                self.clauses.append((owner, function, found.group(1), squeezed(text[start:end]), place))
        self.names.update(re.findall(r'\b(?:fn|struct|enum|trait|const|static|type|mod|union) (\w+)', text))

    def has_clause(self, name, function=None):
        parts = function.split('::') if function else []
        for owner, called, clause, _, _ in self.clauses:
            if clause == name and (not parts or called == parts[-1] and (len(parts) == 1 or parts[-2] == owner or
                                                                         parts[-2] == self.name)):
                return True
        return False


class Tree:
    def __init__(self):
        self.files, self.folders, self.texts = [], set(), {}
        for folder, names, files in os.walk(ROOT):
            names[:] = sorted(n for n in names if n not in SKIPPED_FOLDERS)
            where = os.path.relpath(folder, ROOT).replace(os.sep, '/')
            where = '' if where == '.' else where + '/'
            self.folders.add(where.rstrip('/'))
            self.files.extend(where + f for f in sorted(files))
        self.all = set(self.files) | self.folders
        self.by_name, self.of_crate = {}, {}
        for path in self.files:
            self.by_name.setdefault(os.path.basename(path), []).append(path)
            if path.startswith('crates/'):
                self.of_crate.setdefault(path.split('/')[1], []).append(path)
        self.uses = {}   # crate: what it uses, with the kit's crates
        self.lines = {}
        for number, line in enumerate(self.text('crates.txt').split('\n'), 1):
            if line.strip() and not line.startswith('#'):
                name, _, uses = line.partition(':')
                self.uses[name.split()[0]] = uses.split()
                self.lines[name.split()[0]] = number
        self.kit = {used for uses in self.uses.values() for used in uses} - set(self.uses)
        self.read_crates = {}
        self.pages = [Page(self, p) for p in self.files if self.is_page(p)]

    @staticmethod
    def is_page(path):
        return (path in ('README.md', 'CONTRIBUTING.md') or re.fullmatch(r'docs/[^/]+\.md', path) is not None
                or re.fullmatch(r'crates/[^/]+/README\.md', path) is not None
                or re.fullmatch(r'(?:examples|tests)/(?:.+/)?README\.md', path) is not None)

    def text(self, path):
        if path not in self.texts:
            with open(os.path.join(ROOT, path), encoding='utf-8') as file:
                self.texts[path] = file.read()
        return self.texts[path]

    def crate(self, name):
        if name not in self.read_crates:
            self.read_crates[name] = Crate(self, name)
        return self.read_crates[name]

    def crates_in(self, page, text):
        """The crates that a text names in backquotes, and the page's own."""
        found = [page.crate] if page.crate else []
        for span in SPAN.findall(text):
            first = re.split(r'::|/', span.replace('crates/', '', 1))[0]
            if first in self.uses and first not in found:
                found.append(first)
        return found

    def paths_named(self, page, unit, path):
        """Whether a file or folder of this name is there, seen from the page and from the crates that the unit names."""
        path = path.rstrip('/')
        crates = self.crates_in(page, unit.text)
        bases = ['', 'crates', page.folder]
        bases += ['/'.join(filter(None, ('crates', c, f))) for c in crates for f in PAGE_FOLDERS]
        for base in bases:
            for ending in ('', '.antt', '.rt'):
                if (base + '/' if base else '') + path + ending in self.all:
                    return True
        if '/' in path:
            return False
        places = self.by_name.get(path, [])
        within = ['crates/%s/' % c for c in crates] or [page.folder + '/' if page.folder else '']
        if page.crate is None and page.folder:
            within.append(page.folder + '/')
        return any(place.startswith(base) for place in places for base in within)


class Findings:
    def __init__(self):
        self.list = []

    def add(self, path, line, wrong, remedy):
        self.list.append((path, line, '%s; %s' % (wrong, remedy)))


# 1. Files and folders.

def words_with_paths(text):
    """The words of commands that begin at a folder of the top, seen from any folder."""
    for word in re.split(r'[\s`()"\']+', text):
        word = re.sub(r'^(?:\.\./)+', '', word).rstrip('.,;:')
        if word.split('/')[0] in TOP_FOLDERS and '/' in word and PATH.fullmatch(word):
            yield word


def check_paths(tree, findings):
    for page in tree.pages:
        for unit in page.units:
            found = set()
            for line, span in ([] if unit.is_code else unit.spans()):
                if PATH.fullmatch(span) and ('/' in span or span.endswith(ENDINGS)) and span not in ENDINGS:
                    found.add((line, span))
                elif ' ' in span:
                    found.update((line, word) for word in words_with_paths(span))
            for number, text in enumerate(unit.text.split('\n'), unit.line):
                if unit.is_code:
                    found.update((number, word) for word in words_with_paths(text))
                found.update((number, word) for word in re.findall(r'(?<![\w/.])(?:specs|proofs|src)/[\w/]+\.(?:antt|rt)\b', text))
            for line, path in sorted(found):
                if path in WORDS or '/out/' in path or re.search(r'\bNAME\b', path):
                    continue
                if not tree.paths_named(page, unit, path):
                    findings.add(page.path, line, 'no file or folder `%s`' % path, 'name the one that is meant')


# 2. Crates.

def check_crates(tree, findings):
    named = set()
    for page in tree.pages:
        for unit in page.units:
            if page.path == 'docs/proofs.md' or page.path == 'docs/architecture.md':
                named.update(re.findall(r'\w+', unit.text))
            for line, span in ([] if unit.is_code else unit.spans()):
                first, _, rest = span.partition('::')
                if CRATE.fullmatch(first) is None or first in WORDS or first in tree.kit:
                    continue
                if first not in tree.uses:
                    if first.startswith('js_') or not name_stands(tree, first):
                        findings.add(page.path, line, 'no crate `%s`' % first, 'name the one that is meant')
                elif rest and re.fullmatch(r'[\w:]+', rest):
                    for name in rest.split('::'):
                        if name not in tree.crate(first).names:
                            findings.add(page.path, line, '`%s` declares no `%s`' % (first, name), 'name what is meant')
    for crate, line in tree.lines.items():
        if crate not in named:
            findings.add('crates.txt', line, 'no page names `%s`' % crate,
                         'give it a row in docs/architecture.md and a line in docs/proofs.md')
        if 'crates/%s/README.md' % crate not in tree.all:
            findings.add('crates.txt', line, '`crates/%s/README.md` is missing' % crate, 'write it')
    for crate in sorted(set(tree.of_crate) - set(tree.uses)):
        findings.add('crates.txt', 1, '`crates/%s` is in no line' % crate, 'add one')


# 3. Clauses.

def names_in(text):
    return SPAN.findall(text or '')


def check_clauses(tree, findings):
    for page in tree.pages:
        for unit in page.units:
            if unit.is_code:
                if page.crate:
                    check_quoted_clauses(tree, page, unit, findings)
                    check_quoted_lemmas(tree, page, unit, findings)
                continue
            crates = [tree.crate(c) for c in tree.crates_in(page, unit.text)]
            text = unit.text.replace('\n', ' ')
            found = [(m.start(), names_in(m.group(1)), names_in(m.group(2))) for m in CLAUSES.finditer(text)]
            found += [(m.start(), [m.group(1)], []) for m in re.finditer(r'`ensures (\w+)`', text)]
            for offset, clauses, functions in found:
                where = crates or [tree.crate(c) for c in tree.uses]
                for clause in clauses:
                    for function in functions or [None]:
                        if not any(crate.has_clause(clause, function) for crate in where):
                            findings.add(page.path, unit.line_at(offset),
                                         'no clause `%s`%s in %s' % (clause, ' of `%s`' % function if function else '',
                                                                     ', '.join('`%s`' % c.name for c in crates) or 'any crate'),
                                         'quote the one that is meant')


def pattern_of(quoted):
    """A quoted text, in which `..` stands for anything that is left out."""
    return re.compile(r'\s*'.join(re.escape(p) if p != '..' else '.*?' for p in re.split(r'\s+', quoted)))


def stands_in(quoted, texts):
    """Whether a quoted text is one of the texts."""
    if ' .. ' not in quoted:
        return quoted in texts
    pattern = pattern_of(quoted)
    return any(pattern.fullmatch(text) for text in texts)


def check_quoted_clauses(tree, page, unit, findings):
    for found in re.finditer(r'(?:^|\n) *(?:(\w+(?:::\w+)*):?\s+)?ensures ?([\w-]*) *\{', unit.text):
        start = found.end() - 1
        end = braced(unit.text, start)
        line = unit.line_at(found.end())
        if end is None:
            findings.add(page.path, line, 'the quoted clause isn\'t closed', 'quote it to its end')
            continue
        function = found.group(1).split('::')[-1] if found.group(1) else None
        # A page may quote the clause of a crate that it named before.
        for crate in map(tree.crate, tree.crates_in(page, unit.before)):
            texts = {text: place for owner, called, name, text, place in crate.clauses
                     if name == found.group(2) and (function is None or called == function)}
            if texts:
                break
        what = 'clause%s%s' % (' `%s`' % found.group(2) if found.group(2) else ' without a name',
                               ' of `%s`' % function if function else '')
        if not texts:
            findings.add(page.path, line, 'no %s in `%s`' % (what, page.crate), 'quote the one that is meant')
        elif not stands_in(squeezed(unit.text[start:end]), texts):
            findings.add(page.path, line, 'the %s reads otherwise in `%s`' % (what, crate.name),
                         'quote it as it stands (%s)' % ', '.join(sorted(texts.values())[:3]))


def check_quoted_lemmas(tree, page, unit, findings):
    for found in re.finditer(r'(?:^|\n) *pub ([\w≡<◌-]+) :((?:.|\n(?! *pub ))*)', unit.text):
        pattern = pattern_of(squeezed('pub %s :%s' % (found.group(1), found.group(2))))
        crate = tree.crate(page.crate)
        if not any(pattern.search(squeezed(tree.text(f))) for f in crate.files if f.endswith('.antt')):
            findings.add(page.path, unit.line_at(found.end(1)), 'the lemma `%s` reads otherwise in `%s`' % (
                found.group(1), crate.name), 'quote it as it stands')


# Names of laws and definitions.

def words_of_code(tree):
    """All names in the code and the definitions."""
    if not hasattr(tree, 'words'):
        tree.words = set()
        for path in tree.files:
            if path.startswith('crates/') and path.endswith(('.rt', '.antt', '.edit')):
                tree.words.update(re.findall(NAME, tree.text(path)))
        tree.words.update([part for word in tree.words if '-' in word for part in word.split('-')])
    return tree.words


def name_stands(tree, name):
    return name in words_of_code(tree)


def stands_in_file(tree, path, name):
    return re.search(r'(?<![\w-])%s(?![\w-])' % re.escape(name), tree.text(path)) is not None


def check_names(tree, findings):
    for page in tree.pages:
        for unit in page.units:
            if unit.is_code:
                continue
            if unit.columns.endswith('| Lemma | File in `proofs/` |'):
                check_law(tree, page, unit, findings)
            for line, span in unit.spans():
                if re.fullmatch(r'[A-Z]\w*\.[A-Za-z][\w-]*', span) and not span.endswith(ENDINGS) and span not in WORDS:
                    check_name_in_module(tree, page, unit, line, span, findings)
                elif (NAME.fullmatch(span) and span not in WORDS and span not in tree.uses and span not in tree.kit
                      and CRATE.fullmatch(span) is None and re.search(r'.[_-].|^[A-Z][a-z]+[A-Z]', span)
                      and not name_stands(tree, span)):
                    findings.add(page.path, line, '`%s` is no name in the code' % span, 'name what is meant')


def check_name_in_module(tree, page, unit, line, span, findings):
    """`Module.name`, where the page, the heading or the unit names the crate."""
    module, name = span.split('.')
    crates = tree.crates_in(page, unit.heading + unit.text)
    files = [f for f in tree.by_name.get(module + '.antt', []) if not crates or f.split('/')[1] in crates]
    where = ', '.join('`%s`' % c for c in crates) or 'any crate'
    if not files:
        findings.add(page.path, line, 'no `%s.antt` in %s' % (module, where), 'name the one that is meant')
    elif not any(stands_in_file(tree, f, name) for f in files):
        findings.add(page.path, line, '`%s` doesn\'t stand in `%s.antt` of %s' % (name, module, where), 'name what is meant')


def check_law(tree, page, unit, findings):
    """A row with lemmas and the files that have them."""
    cells = unit.text.strip('|').split(' | ')
    if len(cells) < 3 or not SPAN.search(cells[-1]):
        return
    files = ['crates/%s/proofs/%s.antt' % (page.crate, f) for f in SPAN.findall(cells[-1])]
    for file in files:
        if file not in tree.all and unit.columns != unit.text:
            findings.add(page.path, unit.line, 'no file `%s`' % file, 'name the one that is meant')
    for name in SPAN.findall(cells[-2]):
        if NAME.fullmatch(name) and not any(stands_in_file(tree, f, name) for f in files if f in tree.all):
            findings.add(page.path, unit.line, 'no lemma `%s` in %s' % (name, ', '.join('`%s`' % f for f in files)),
                         'name what is meant')


# 4. Limits.

def check_limits(tree, findings):
    page = 'docs/limits.md'
    numbers = set()
    for path in tree.files:
        if path.startswith('crates/') and re.search(r'/(?:src|specs)/', path):
            code = re.sub(r'(?m)^\s*(?://|--).*$', '', tree.text(path))
            numbers.update(n.replace('_', '') for n in re.findall(r'\b\d[\d_]+', code))
            numbers.update(n.replace(' ', '') for n in re.findall(r'\d+ ?\^ ?\d+ ?- ?\d+', code))
    for unit in next(p for p in tree.pages if p.path == page).units:
        if unit.is_code:
            continue
        stated = re.findall(r'\((\d[\d,]*\d)\)', unit.text)
        cells = unit.text.strip('| \n').split(' | ')
        if unit.text.startswith('|') and len(cells) == 4:
            stated += re.findall(r'\d+\^\d+-\d+|\d+(?:,\d{3})*', cells[2])
        for number in stated:
            if number.replace(',', '') not in numbers:
                findings.add(page, unit.line, 'no code and no definition has the number %s' % number, 'state the limit that is kept')


def check_tables(tree, findings):
    """A page says of a table of cases how many lines it has."""
    for page in tree.pages:
        for unit in page.units:
            for found in re.finditer(r'`(?:crates/)?(\w+_table)`(?: \(| runs )(\d+) ', unit.text):
                stdin = 'crates/%s/stdin' % found.group(1)
                lines = tree.text(stdin).count('\n') if stdin in tree.all else 0
                if lines != int(found.group(2)):
                    findings.add(page.path, unit.line_at(found.start()), '`%s` has %d lines' % (stdin, lines), 'say so')


# 5. Printed examples.

def examples_of(unit):
    """Commands of a block with what is printed of them: line, words, lines, status or None."""
    command = None
    for number, line in enumerate(unit.text.split('\n'), unit.line):
        line = line[4:] if line.startswith('    ') else line
        if line.startswith('$ echo $?'):
            if command:
                command[3] = ''
        elif line.startswith('$ '):
            if command:
                yield command
            command = [number, line[2:].split(), [], None] if line.startswith('$ jsat ') else None
        elif command and command[3] == '':
            command[3] = line.strip()
        elif command:
            command[2].append(line)
    if command:
        yield command


def is_printed(wanted, lines):
    """Whether lines are as wanted, where `...` stands for any lines."""
    if not wanted:
        return not lines
    if wanted[0] == '...':
        return any(is_printed(wanted[1:], lines[at:]) for at in range(len(lines) + 1))
    return bool(lines) and wanted[0] == lines[0] and is_printed(wanted[1:], lines[1:])


def check_examples(tree, findings, program):
    for page in tree.pages:
        for unit in page.units:
            for line, words, wanted, status in (examples_of(unit) if unit.is_code else []):
                files = [word for word in words[2:] if not word.startswith('-')]
                if program is None or any(word not in tree.all for word in files):
                    continue
                ran = subprocess.run([program] + words[1:], cwd=ROOT, stdout=subprocess.PIPE)
                lines = ran.stdout.decode('utf-8', 'replace').split('\n')[:-1]
                if not is_printed([w for w in wanted if w.strip()], lines):
                    findings.add(page.path, line, 'the program prints %r' % '\n'.join(lines[:4])[:200], 'print that here')
                elif status and status != str(ran.returncode):
                    findings.add(page.path, line, 'the status is %d' % ran.returncode, 'say so')


# 6. Code.

def lint(tree):
    """For each file and kind the lines that a finding stands at."""
    found = {}
    for path in tree.files:
        if not path.startswith('crates/') or not path.endswith(('.rt', '.antt')):
            continue
        lines = tree.text(path).split('\n')
        if os.path.basename(path) not in NAMED_FOR_CONTENT and not lines[0].startswith(('//', '--')):
            found[path, 'head'] = [1]
        long_lines = [n for n, line in enumerate(lines, 1) if len(line) > LONGEST_LINE and
                      not line.lstrip().startswith(('use ', 'pub use ', 'ghost use '))]
        if long_lines:
            found[path, 'line'] = long_lines
        if path.endswith('.rt'):
            long_functions = list(functions_too_long(lines))
            if long_functions:
                found[path, 'function'] = long_functions
    return found


def functions_too_long(lines):
    open_at = None
    for number, line in enumerate(lines, 1):
        found = FUNCTION.match(line)
        if found:
            open_at = number, found.group(1) + '}'
        elif open_at and line == open_at[1]:
            if number - open_at[0] + 1 > LONGEST_FUNCTION:
                yield open_at[0]
            open_at = None


WRONG = {
    'head': ('no comment in the first line', 'say what the file is for'),
    'line': ('a line over %d characters' % LONGEST_LINE, 'break it'),
    'function': ('a function over %d lines' % LONGEST_FUNCTION, 'split it'),
}


def known_counts():
    counts, lines = {}, {}
    if os.path.exists(KNOWN):
        with open(KNOWN, encoding='utf-8') as file:
            for number, line in enumerate(file, 1):
                if line.strip() and not line.startswith('#'):
                    path, kind, count = line.strip().split(': ')
                    counts[path, kind], lines[path, kind] = int(count), number
    return counts, lines


def check_code(tree, findings):
    found = lint(tree)
    counts, lines = known_counts()
    for (path, kind), where in sorted(found.items()):
        known = counts.get((path, kind), 0)
        if len(where) > known:
            wrong, remedy = WRONG[kind]
            for line in where:
                findings.add(path, line, wrong, remedy + (' (%d of %d here were known)' % (known, len(where)) if known else ''))
    for (path, kind), count in sorted(counts.items()):
        now = len(found.get((path, kind), []))
        if now < count:
            findings.add('tests/pages/known.txt', lines[path, kind], '%s: %s is %d by now' % (path, kind, now),
                         'run tests/pages/check.py --known')


# 7. Words of comments and pages.

# What was said before in words of the project's own, and what says it plainly. Names in backquotes are passed over.
PLAIN_WORDS = [
    (re.compile(r'\bhang(?:s|ing)? on\b', re.I), 'say "depends on"'),
    (re.compile(r"\b(?:is|are) so\b(?! (?:many|few|much|little|long|short|large|small|great|far|deep|often)\b)", re.I),
     'say that it holds, or what it is'),
    (re.compile(r"\b(?:is|are)n't so\b", re.I), 'say that it doesn\'t hold, or what it isn\'t'),
    (re.compile(r"\b(?:is|are|was|were|isn't|aren't|wasn't|weren't) told\b", re.I), 'say "reported", "given" or "known"'),
    (re.compile(r'\bfine\b(?!-)', re.I), 'say "passes" or "valid"'),
]
COMMENTS = {'.rt': re.compile(r'//[/!]?'), '.antt': re.compile(r'(?:^|(?<=\s))--(?=\s|$)')}
STRING = re.compile(r'"(?:\\.|[^"\\])*"')


def comments_of(text, start):
    """Runs of comments, each as a line and what it says; a line with code before its comment is a run of its own."""
    run, last = [], None
    for number, line in enumerate(text.split('\n'), 1):
        found = start.search(line)
        if found and '"' in line[:found.start()]:
            line = STRING.sub('""', line)
            found = start.search(line)
        alone = found and not line[:found.start()].strip()
        if run and not (alone and last == number - 1):
            yield run
            run = []
        if found:
            run.append((number, line[found.end():].strip()))
            last = number if alone else None
    if run:
        yield run


def check_words(tree, findings):
    def look(path, lines):
        """Lines are pairs of a number and a text; a phrase may go on from one to the next."""
        text = ' '.join(words for _, words in lines)
        text = SPAN.sub(lambda m: '`' + ' ' * (len(m.group(0)) - 2) + '`', text)
        for pattern, remedy in PLAIN_WORDS:
            for found in pattern.finditer(text):
                place = found.start()
                for number, words in lines:
                    if place <= len(words):
                        break
                    place -= len(words) + 1
                findings.add(path, number, '"%s" is a word of the project\'s own' % found.group(0), remedy)

    for page in tree.pages:
        for unit in page.units:
            if not unit.is_code:
                look(page.path, [(n, line.strip()) for n, line in enumerate(unit.text.split('\n'), unit.line)])
    for path in tree.files:
        start = COMMENTS.get(os.path.splitext(path)[1])
        if start and path.startswith('crates/'):
            for run in comments_of(tree.text(path), start):
                look(path, run)


def write_known(tree):
    with open(KNOWN, 'w', encoding='utf-8') as file:
        file.write('# FILE: KIND: COUNT of the findings in code that are left until the file is changed anyway. It may only shrink.\n')
        for (path, kind), where in sorted(lint(tree).items()):
            file.write('%s: %s: %d\n' % (path, kind, len(where)))


def main():
    parser = argparse.ArgumentParser(description='Holds the pages against the tree.')
    parser.add_argument('--jsat', default=os.environ.get('JSAT'), help='a built program, for the printed examples')
    parser.add_argument('--known', action='store_true', help='write known.txt anew')
    words = parser.parse_args()
    if words.jsat and not os.access(words.jsat, os.X_OK):
        parser.error('no program %s' % words.jsat)
    tree = Tree()
    if words.known:
        write_known(tree)
    findings = Findings()
    check_paths(tree, findings)
    check_crates(tree, findings)
    check_clauses(tree, findings)
    check_names(tree, findings)
    check_limits(tree, findings)
    check_tables(tree, findings)
    check_examples(tree, findings, os.path.abspath(words.jsat) if words.jsat else None)
    check_code(tree, findings)
    check_words(tree, findings)
    for path, line, text in sorted(set(findings.list)):
        print('%s:%d: %s' % (path, line, text))
    return 1 if findings.list else 0


if __name__ == '__main__':
    sys.exit(main())
