#!/usr/bin/env python3
"""Writes the cases of `certificate_table`: its `stdin` and `stdout`. `cases.py --cover` prints which rules are broken
by which lines instead.

A line of `stdin` is a list: the two schemas, and the certificate as a list of pieces, each a text or a text with how
often it stands; a character of a text is a byte. `stdout` has the verdict of `judge.py` on each.

Certificates are those that `printer.py` prints for the pairs of `pairs.py`, whole, with other lines that are good too,
and with one thing changed, in each way that is listed here and at each kind of line. Of all these, some are chosen for
each rule and each line that breaks it. Verdicts that are known by hand are compared."""
import json
import os
import re
import sys

from definitions import HERE, KINDS, Automaton, Core
from judge import LONGEST, Lines, judged, shown
from pairs import NONE, PAIRS, at, no
from printer import Printer, certificate, signed

TABLE = os.path.join(HERE, '..', '..', 'crates', 'certificate_table')
# a line of each kind
LINES = ['certificate 1', 'goals 1', 'goal +0', 'entry 0', 'at null', 'rule +0', 'kind +1', 'clash 0', 'count', 'bool',
         'number', 'string 1', 'row 0', 'least 0', 'array', 'object 1 0', 'cap 0 0', 'split', 'member 0 clash',
         'index 0 clash', 'tail 0 clash', 'short', 'end']
WORDS = {line.split(' ')[0] for line in LINES}
# so many pairs share what is done to each line alike
TURNS = 7
# words and lines that are nearly in the grammar
NEARLY = ['', 'e', 'ends', 'End', ' end', 'certificate', 'certificate 2', 'certificate 01', 'goals', 'goals -1',
          'goals 1 1', 'goal 0', 'goal +', 'goal +-1', 'goal  +0', 'entry', 'entry +0', 'at', 'at strings', 'at Null',
          'at null object', 'rule 0', 'rule', 'rule +0 +1', 'kind *0', 'kind', 'clash +0', 'clash', 'bool true',
          'count 1', 'number 1',
          'string', 'string 0x1', 'row  1', 'row -1', 'least -', 'array 0', 'object 1', 'object 1 1 1', 'cap', 'cap -',
          'split 1', 'member 0', 'member 0 -', 'member 0 goal', 'member 0 clash 0', 'index clash', 'tail 0 goal 1 1',
          'short goal', 'short 0', 'short - -  -', 'short goal -', 'clash 4294967296', 'rule +4294967296', 'keep 0']


# ---- changes of a certificate: a name and the lines, or a name and the bytes

def places(lines):
    """The first two places of each word at each kind."""
    seen, kind = {}, ''
    for i, line in enumerate(lines):
        word = line.split(' ')[0]
        kind = line if word == 'at' else kind
        seen.setdefault((word, kind), []).append(i)
    return sorted(i for found in seen.values() for i in found[:2])


def changed_lines(lines, turn):
    """Of what is done to each line alike, a part in each turn."""
    many = list(changed_alike(lines))
    yield from many[turn % TURNS::TURNS]
    for i in places(lines):
        before, line, after = lines[:i], lines[i], lines[i + 1:]
        yield 'dropped', before + after
        yield 'doubled', before + [line, line] + after
        yield 'swapped', before + after[:1] + [line] + after[1:]
        yield 'moved to the end', before + after[:-1] + [line] + after[-1:]
        for name, changed in changed_line(line):
            yield name, before + [changed] + after


def changed_alike(lines):
    for i in places(lines):
        before, line, after = lines[:i], lines[i], lines[i + 1:]
        for other in LINES:
            yield 'another line', before + [other] + after
            yield 'a line more', before + [other, line] + after
        for name, changed in misspelt(line):
            yield name, before + [changed] + after
    for i, nearly in enumerate(NEARLY):
        yield 'nearly ' + nearly, lines[:i] + [nearly] + lines[i:]


def changed_line(line):
    word, *words = line.split(' ')
    for i, old in enumerate(words):
        digits = re.search('[0-9]+', old)
        for name, new in changed_word(old, digits and int(digits[0])):
            yield name, ' '.join([word] + words[:i] + [new] + words[i + 1:])
    yield 'one word more', ' '.join([word] + words + words[-1:])
    yield 'an entry more', line + ' 0'
    yield 'a cell kept more', line + ' -'
    yield 'one word fewer', ' '.join([word] + words[:-1])
    yield 'the first dropped', ' '.join([word] + words[1:])
    yield 'bare', word
    yield 'turned round', ' '.join([word] + words[::-1])
    yield 'all 0', re.sub('[0-9]+', '0', line)
    yield 'all as the last', ' '.join([word] + words[-1:] * len(words))


def misspelt(line):
    yield 'a blank behind', line + ' '
    yield 'two blanks', line.replace(' ', '  ', 1)
    yield 'a carriage return', line + '\r'
    yield 'a tab', line.replace(' ', '\t', 1)
    yield 'a zero before', re.sub('([0-9]+)', r'0\1', line, count=1)
    yield 'in capitals', line.upper()
    yield 'a byte behind', line + '\x80'
    yield 'a null byte', line + '\0'


def changed_word(old, number):
    if number is not None:
        for name, new in (('one more', number + 1), ('one fewer', number - 1), ('two more', number + 2), ('as 0', 0),
                          ('the greatest', 4294967295), ('too great', 4294967296)):
            if new >= 0 and new != number:
                yield name, old[:-len(str(number))] + str(new)
    if old[0] in '+-' and len(old) > 1:
        yield 'the other sign', {'+': '-', '-': '+'}[old[0]] + old[1:]
    for end in ('clash', 'goal 0', 'goal 1', '-'):
        if old in ('clash', 'goal', '-') and old != end:
            yield 'ended by ' + end, end


def changed_bytes(lines):
    text = '\n'.join(lines) + '\n'
    for i in places(lines):
        whole = len('\n'.join(lines[:i])) + (i > 0)
        yield 'cut before', text[:whole]
        yield 'cut within', text[:whole + 1]
        yield 'cut before the line feed', text[:whole + len(lines[i])]
        yield 'joined', text[:whole - 1] + ' ' + text[whole:] if i else ' ' + text
    for behind in ('e', 'end', 'end\n', '\n', 'x\n', 'certificate 1\n', 'keep 0\n', ' '):
        yield 'behind the end', text + behind
    yield 'empty', ''
    yield 'without line feeds', text.replace('\n', ' ')
    yield 'turned round', '\n'.join(lines[::-1]) + '\n'


# ---- other good certificates

class Unrolled(Printer):
    """Some rows stand twice: a state that was mentioned before is given a further row."""
    more = 3

    def rows(self, automaton):
        return unrolled(automaton, self.more)


def unrolled(automaton: Automaton, more):
    words, targets = [()], []
    for word in words:
        targets.append([])
        for longer in automaton.longer(word):
            same = [row for row, other in enumerate(words) if automaton.state(other) == automaton.state(longer)]
            if not same or more > 0:
                more -= bool(same)
                same = [len(words)]
                words.append(longer)
            targets[-1].append(same[-1] if len(targets) % 2 else same[0])
    return words, targets


def other_lines(lines):
    """Lines that are good too, or nearly: lower and greater labels, no bounds of cells, goals that stand twice."""
    for i, line in enumerate(lines):
        word, *words = line.split(' ')
        if word == 'least':
            yield 'lower labels', lines[:i] + [' '.join(['least'] + ['0'] * len(words))] + lines[i + 1:]
            yield 'labels cut', lines[:i] + [' '.join(['least'] + [str(min(int(n), 1)) for n in words])] + lines[i + 1:]
        if word == 'cap':
            cell, *labels = map(int, words)
            for name, new in (('greater labels', [n + 1 for n in labels]), ('twice as great', [2 * n for n in labels]),
                              ('the greatest labels', [4294967295] * len(labels)),
                              ('the first greater', [labels[0] + 1] + labels[1:])):
                yield name, lines[:i] + [' '.join(map(str, ['cap', cell] + new))] + lines[i + 1:]
        if word == 'object' and words[1] != '0':
            caps = int(words[1])
            first = i + 1 + int(words[0])
            yield 'no bounds', lines[:i] + ['object %s 0' % words[0]] + lines[i + 1:first] + lines[first + caps:]
            yield 'a bound fewer', lines[:i] + ['object %s %d' % (words[0], caps - 1)] + lines[i + 1:first] + lines[
                first + 1:]
    if lines[1] == 'goals 1':
        listed, entry = ['certificate 1', 'goals 2', lines[2], lines[2]], lines[4:-1]
        yield 'listed twice', [*listed, 'entry 0', *entry, 'entry 1', *entry, 'end']
        yield 'listed twice in another order', [*listed, 'entry 1', *entry, 'entry 0', *entry, 'end']
        yield 'shown twice', lines[:-1] + lines[3:]


def with_line(lines, old, *new):
    assert lines.count(old) == 1, old
    at_line = lines.index(old)
    return lines[:at_line] + list(new) + lines[at_line + 1:]


def behind(lines, old, new, count=1):
    """The line that stands so many lines behind another one is changed."""
    place = lines.index(old) + count
    return lines[:place] + [new] + lines[place + 1:]


# ---- cases by hand

def by_hand(good):
    """Cases that no change gives: name of a pair or two schemas, name, lines; and the verdict where it is known."""
    yield 'next', 'as it is', good['next'], None
    yield 'next', 'without its end', good['next'][:-1], (32, 3)
    yield 'next', 'nothing listed', ['certificate 1', 'goals 0', 'end'], (2, 6)
    yield 'next', 'a label off by one', with_line(good['next'], 'cap 1 1 0 1 1 1 1', 'cap 1 0 0 1 1 1 1'), (29, 21)
    loop = at('object', properties={'next': {'$ref': '#'}})
    yield (loop, NONE), 'nothing asks for next', good['next'], (30, 22)
    # a root that contains a listed goal
    for name in ('no element', 'few names', 'multiples', 'runs', 'next'):
        yield (PAIRS[name][0], at('string')), 'with another second schema', good[name], None
    yield (PAIRS['no element'][0], at('array', minItems=5)), 'with another second schema', good['no element'], None
    # a limit isn't emptiness
    wide = at('integer', minimum=1, allOf=[{'multipleOf': 18446744073709551615}, {'multipleOf': 18446744073709551614}])
    yield by_leaf('a limit of numbers', wide, 'number')
    yield by_leaf('the last number is left', at('integer', minimum=0, maximum=8, **no(enum=list(range(8)))), 'number')
    yield by_leaf('no number is left', at('integer', minimum=0, maximum=7, **no(enum=list(range(8)))), 'number')
    # rows: too many positions and classes, and just as many
    for pattern in ('[]a{16383}', '[]a{16384}', '[]a{8191}[]b{8192}'):
        yield by_leaf('positions', at('string', pattern=pattern), 'string 1', 'row 0', 'least 0')
        yield by_leaf('positions', at('object', propertyNames={'pattern': pattern}), 'object 1 0', 'row 0', 'short')
    for count in (1023, 1024):
        letters = ''.join(chr(0x100 + i) for i in range(count))
        yield by_leaf('classes', at('string', pattern=letters), 'string 1', 'row 0')
        yield by_leaf('classes', at('object', required=[letters]), 'object 1 0', 'row')
    # bounds that are crossed and lines that show it otherwise
    yield 'crossed lengths', 'by rows', with_line(
        good['crossed lengths'], 'count', 'string 4', 'row 1', 'row 2', 'row 3', 'row 3', 'least 0 1 2 3'), None
    yield 'crossed lengths', 'by too few rows', with_line(
        good['crossed lengths'], 'count', 'string 3', 'row 1', 'row 2', 'row 2', 'least 0 1 2'), None
    yield 'no length', 'by rows', with_line(good['no length'], 'count', 'string 2', 'row 1', 'row 1', 'least 0 0'), None
    yield 'crossed counts', 'by a plan', with_line(good['crossed counts'], 'count', 'array', 'count'), None
    yield 'crossed counts', 'by fillers', with_line(good['crossed counts'], 'count', 'array', 'short -'), None
    yield 'crossed numbers', 'by a plan', with_line(
        good['crossed numbers'], 'count', 'object 2 0', 'row 1', 'row 1', 'count'), None
    yield 'crossed numbers', 'by fillers', with_line(
        good['crossed numbers'], 'count', 'object 2 0', 'row 1', 'row 1', 'short -'), None
    # a rule once more, and rules in another order
    yield 'kinds', 'a rule twice', behind(good['kinds'], 'at boolean', 'rule +0\nrule +0'), None
    yield 'each element', 'a rule fewer', with_line(good['each element'], 'rule -5', 'rule -5\nrule +0'), None
    # goals that aren't as they are formed
    first = good['each element']
    for goal in ('goal -5 +0', 'goal +0 +0 -5', 'goal +0 -5 -5', 'goal', 'goal +0', 'goal -5', 'goal +0 -4294967295',
                 'goal +0 +5 -5', 'goal +0 -5 +9', 'goal +0 -4 -5', 'goal +2 -5'):
        yield 'each element', 'another goal', behind(first, 'goals 2', goal), None
    for goal in ('goal +0', 'goal +1', 'goal -2', 'goal +1 +2', 'goal +4', 'goal -4', 'goal +1 +4', 'goal'):
        yield 'by reference', 'another goal', behind(good['by reference'], 'goals 1', goal), None
    yield 'the root clashes', 'a goal', ['certificate 1', 'goals 1', 'goal', 'end'], None
    yield 'the root clashes', 'a clash is listed', ['certificate 1', 'goals 1', 'goal +0', 'end'], None
    # plans: placed otherwise
    yield 'one place', 'filled', with_line(good['one place'], 'index 0 goal 1', 'short -'), None
    yield 'few members', 'named', with_line(good['few members'], 'count', 'member 1 clash'), None
    yield 'few members', 'short', with_line(good['few members'], 'count', 'short - -'), None
    yield 'two served', 'short', with_line(good['two served'], 'count', 'short - - - -'), None
    yield 'never there', 'two demands', with_line(good['never there'], 'split', 'split', 'split'), None
    yield 'no value left', 'both kept', with_line(good['no value left'], 'short goal 1 -', 'short - -'), None
    yield 'no value left', 'none kept', with_line(good['no value left'], 'short goal 1 -', 'short goal 1 goal 1'), None
    yield 'one name left', 'a clash is kept', with_line(good['one name left'], 'short - clash', 'short - -'), None
    yield 'one name left', 'another cell', with_line(good['one name left'], 'short - clash', 'short clash -'), None
    yield 'no element', 'a goal for a clash', with_line(good['no element'], 'short clash', 'short goal 0'), None
    yield 'trees', 'another goal', with_line(good['trees'], 'short goal 2', 'short goal 0'), None
    yield 'trees', 'its own goal', with_line(good['trees'], 'member 0 goal 3', 'member 0 goal 0'), None


class OneLeaf(Printer):
    """Trees with the same lines at each saturated set."""

    def __init__(self, core, lines):
        super().__init__(core)
        self.lines = lines

    def leaf(self, held, kind):
        return [[line] for line in self.lines]


def by_leaf(name, schema, *lines):
    """A certificate that no document is valid for the schema, which may be false."""
    core = Core(schema, NONE)
    goal = core.form(core.root)
    found = ['certificate 1', 'goals 1', ' '.join(['goal'] + list(map(signed, goal))), 'entry 0']
    for kind in KINDS:
        tree = OneLeaf(core, lines).tree(frozenset(goal), kind)
        found += ['at ' + kind] + [' '.join(line) for line in tree]
    return (schema, NONE), name, found + ['end'], None


def long_cases(good):
    """Lines of as many bytes as may be, and of one more. Pieces, and the verdict where it is known."""
    start, end = '\n'.join(good['next'][:2]) + '\n', '\n'.join(good['next']) + '\n'
    for count, rule in ((LONGEST, 1), (LONGEST + 1, 2)):
        yield 'a long word', [start, ['x', count], '\n'], (3, rule)
        yield 'a long word behind the end', [end, ['x', count], '\n'], (33, rule)
    yield 'a long part', [start, ['x', LONGEST]], (3, 3)
    yield 'a longer part', [start, ['x', LONGEST + 1]], (3, 2)
    yield 'a much longer part', [start, ['x', LONGEST + 70000]], (3, 2)
    yield 'a long part behind the end', [end, ['x', LONGEST]], (33, 4)
    yield 'a longer part behind the end', [end, ['x', LONGEST + 1]], (33, 2)
    yield 'a long goal', [start, 'goal', [' +0', (LONGEST - 4) // 3], '\n'], (3, 5)
    yield 'a long goal and a blank', [start, 'goal', [' +0', (LONGEST - 4) // 3], ' \n'], (3, 2)
    rows = '\n'.join(good['next'][:22]) + '\n'
    yield 'a long row', [rows, 'row 10', [' 0', (LONGEST - 6) // 2], '\n'], (23, 17)
    yield 'a longer row', [rows, 'row 100', [' 0', (LONGEST - 6) // 2], '\n'], (23, 2)
    yield 'only line feeds', [['\n', 5]], (1, 1)
    yield 'a long file of one line', [['certificate 1\n', 3000]], (2, 4)


# ---- the choice

def bytes_of(pieces):
    return b''.join((text if isinstance(text, str) else text[0] * text[1]).encode('latin-1') for text in pieces)


class Case:
    def __init__(self, schemas, name, pieces, core, wanted='unknown'):
        self.schemas, self.name, self.pieces = schemas, name, pieces
        data = bytes_of(pieces)
        lines = Lines(data)
        self.verdict = judged(core, lines)
        assert wanted in ('unknown', self.verdict), (name, wanted, self.verdict)
        self.key = (0, 'a good one', '') if self.verdict is None else self.broken(data, lines.awaited)
        # what shouldn't come often among the chosen
        self.marks = (self.key, name), (self.key, id(schemas)), name
        self.length = len(data)

    def broken(self, data, awaited):
        """The rule, the word of the line that breaks it, and what was awaited, or the kind."""
        line, rule = self.verdict
        # very long lines aren't named
        lines = data[:100000].decode('latin-1').split('\n')
        word = lines[line - 1].split(' ')[0] if line <= len(lines) else ''
        kinds = [text for text in lines[:line - 1] if text.startswith('at ')]
        if rule == 3:
            return rule, 'the end', awaited
        word = word if word in WORDS else 'no line'
        return rule, word, awaited if rule == 4 else kinds[-1] if rule in BY_KIND and kinds else ''

    def shorten(self):
        """Few lines stay behind the one that breaks a rule of place."""
        if self.key[0] == 4 and len(self.pieces) == 1 and isinstance(self.pieces[0], str):
            lines = self.pieces[0].split('\n')
            if len(lines) > self.verdict[0] + 2:
                self.pieces = ['\n'.join(lines[:self.verdict[0] + 1]) + '\n']
                assert judged(Core(*self.schemas), Lines(bytes_of(self.pieces))) == self.verdict

    def line(self):
        return json.dumps([*self.schemas, self.pieces], separators=(',', ':'))


def all_changes(good):
    """Every change of every pair's certificate."""
    for turn, (pair, lines) in enumerate(good.items()):
        core = Core(*PAIRS[pair])
        texts = [(name, '\n'.join(changed) + '\n')
                 for name, changed in (*changed_lines(lines, turn), *other_lines(lines))]
        more = '\n'.join(certificate(core, Unrolled)) + '\n'
        texts += [('unrolled', more), *changed_bytes(lines)]
        seen = {'\n'.join(lines) + '\n'}
        for name, text in texts:
            if text not in seen:
                seen.add(text)
                yield Case(PAIRS[pair], name, [text], core)


# rules that lines of several kinds break
BY_KIND = {12, 13, 17, 18, 22, 24}
# how many cases there are of each rule and line, and of what was awaited or the kind
MOST = {0: 30, 1: 2, 3: 2, 4: 1, 5: 6, 7: 4, 8: 5, 9: 8, 10: 5, 11: 6, 12: 1, 13: 2, 14: 4, 15: 4, 17: 4, 18: 5, 19: 9,
        20: 5, 21: 12, 22: 3, 23: 6, 24: 6}


def chosen(cases):
    """Some of each rule, line and kind: of changes and pairs that came least often so far the first, short ones before
    long ones."""
    found, groups, used = [], {}, {}
    for case in cases:
        groups.setdefault(case.key, []).append(case)

    def rank(case):
        return [used.get(mark, 0) for mark in case.marks] + [case.length]

    for key, group in sorted(groups.items()):
        for _ in range(min(MOST.get(key[0], 3), len(group))):
            best = min(group, key=rank)
            best.shorten()
            group.remove(best)
            found.append(best)
            for mark in best.marks:
                used[mark] = used.get(mark, 0) + 1
    return found


def prefixes(good):
    """Every proper prefix of the certificate of a schema that asks for a member like itself."""
    core = Core(*PAIRS['next'])
    text = '\n'.join(good['next']) + '\n'
    return [Case(PAIRS['next'], 'a prefix', [text[:length]], core) for length in range(len(text))]


def made():
    good = {name: certificate(Core(*schemas)) for name, schemas in PAIRS.items()}
    whole = [Case(PAIRS[name], 'as it is', ['\n'.join(lines) + '\n'], Core(*PAIRS[name]), None)
             for name, lines in good.items()]
    hand = []
    for pair, name, lines, wanted in by_hand(good):
        schemas = PAIRS[pair] if isinstance(pair, str) else pair
        told = {} if wanted is None else {'wanted': wanted}
        hand.append(Case(schemas, name, ['\n'.join(lines) + '\n'], Core(*schemas), **told))
    core = Core(*PAIRS['next'])
    hand += [Case(PAIRS['next'], name, pieces, core, wanted) for name, pieces, wanted in long_cases(good)]
    return whole + hand + prefixes(good) + chosen(all_changes(good))


def cover(cases):
    """A line for each rule: which lines break it, and how often."""
    for rule in range(25):
        counts = {}
        for case in cases:
            if case.key[0] == rule:
                word = ' '.join(case.key[1:]).strip()
                counts[word] = counts.get(word, 0) + 1
        print('%2d  %s' % (rule, ', '.join('%s %d' % count for count in sorted(counts.items()))))
    print('%d cases' % len(cases))


def main():
    cases = made()
    if sys.argv[1:] == ['--cover']:
        cover(cases)
        return
    with open(os.path.join(TABLE, 'stdin'), 'w', encoding='utf-8') as lines:
        lines.writelines(case.line() + '\n' for case in cases)
    with open(os.path.join(TABLE, 'stdout'), 'w', encoding='utf-8') as lines:
        lines.writelines(shown(case.verdict) + '\n' for case in cases)


if __name__ == '__main__':
    main()
