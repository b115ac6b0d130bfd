#!/usr/bin/env python3
"""Judges a certificate, slowly, by the rules as they are written: judge.py FIRST SECOND CERTIFICATE (three files).

It prints `accepted`, or `rejected LINE RULE` with the first line that breaks a rule and the least rule that it breaks.
Trees and plans are gone through as they stand, sets and plans are copied at each step, and the state of a row is that
of a word which leads there, found from the whole word. Nothing here is taken from the program."""
import json
import re
import sys
import threading

from definitions import KINDS, ArrayPlans, Core, Names, ObjectPlans, Strings, contains, is_over

LONGEST, GREATEST = 1048576, 4294967295
NUMBER = '(?:0|[1-9][0-9]*)'
END = '(?:clash|goal %s)' % NUMBER
# each line with its words; a list comes behind the word, each entry after a blank
GRAMMAR = [re.compile(text.replace('N', NUMBER).replace('E', END).replace('S', '[+-]' + NUMBER) + r'\Z') for text in (
    'certificate 1', 'count', 'bool', 'number', 'array', 'split', 'end', 'goals N', 'entry N', 'clash N', 'string N',
    'object N N', 'rule S', 'kind S', 'goal(?: S)*', 'row(?: N)*', 'least(?: N)*', 'cap N(?: N)*', 'member N E',
    'index N E', 'tail N E', 'short(?: -| E)*', 'at (?:%s)' % '|'.join(KINDS))]
# the kind of which a line is a leaf
LEAVES = {'bool': 'boolean', 'number': 'number', 'string': 'string', 'array': 'array', 'object': 'object'}


class Rejected(Exception):
    def __init__(self, line, rule):
        super().__init__(line, rule)
        self.line, self.rule = line, rule


# ---- lines

def parsed(data):
    """The words of a line in the grammar: a number is a number, a signed position a pair, the end of a list is `clash`
    or the number of a goal. None for any other line."""
    text = data.decode('latin-1')
    if not any(form.match(text) for form in GRAMMAR):
        return None
    if any(len(digits) > 10 or int(digits) > GREATEST for digits in re.findall('[0-9]+', text)):
        return None
    word, *words = re.sub('(?<=.) goal ', ' ', text).split(' ')
    return (word, *(value_of(w) for w in words))


def value_of(word):
    if word[0] in '+-' and len(word) > 1:
        return int(word[1:]), 1 if word[0] == '+' else -1
    return int(word) if word.isdigit() else word


class Lines:
    """The lines of bytes, one by one, with the number of the last, and with what is awaited."""

    def __init__(self, data):
        self.data, self.at, self.number, self.awaited = data, 0, 0, ''

    def cut(self):
        """The next whole line; none where the bytes end. Lines outside the grammar and too long ones are reported."""
        end = self.data.find(b'\n', self.at)
        if (len(self.data) if end < 0 else end) - self.at > LONGEST:
            raise Rejected(self.number + 1, 2)
        if end < 0:
            return None
        line, self.at, self.number = parsed(self.data[self.at:end]), end + 1, self.number + 1
        self.need(1, line)
        return line

    def need(self, rule, told):
        """The line that was taken last breaks the rule where it doesn't hold."""
        if not told:
            raise Rejected(self.number, rule)

    def take(self, awaited):
        self.awaited = awaited
        line = self.cut()
        if line is None:
            raise Rejected(self.number + 1, 3)
        return line

    def take_only(self, word):
        """The words behind that word, which has to stand here."""
        line = self.take(word)
        self.need(4, line[0] == word)
        return line[1:]

    def finish(self):
        """Nothing follows."""
        self.awaited, rest = 'nothing', self.at < len(self.data)
        line = self.cut()
        if line is not None:
            self.need(4, False)
        if rest:
            raise Rejected(self.number + 1, 4)


# ---- trees

class Judge:
    def __init__(self, core, lines):
        self.core, self.lines, self.goals = core, lines, []
        self.need = lines.need

    def certificate(self):
        self.lines.take_only('certificate')
        count, = self.lines.take_only('goals')
        for _ in range(count):
            goal = list(self.lines.take_only('goal'))
            self.need(5, all(position < len(self.core.positions) for position, _ in goal))
            self.need(5, self.core.form(goal) == goal)
            self.goals.append(goal)
        root = self.core.form(self.core.root)
        self.need(6, root is None or any(contains(root, goal) for goal in self.goals))
        for number, goal in enumerate(self.goals):
            self.need_same(7, self.lines.take_only('entry'), number)
            for kind in KINDS:
                self.need_same(8, self.lines.take_only('at'), kind)
                self.tree(frozenset(goal), kind)
        self.lines.take_only('end')
        self.lines.finish()

    def need_same(self, rule, words, wanted):
        self.need(rule, words == (wanted,))

    def tree(self, held, kind):
        word, *args = self.lines.take('a tree')
        if word == 'rule':
            choices = self.core.choices(args[0], kind) if args[0] in held else None
            self.need(9, choices is not None)
            for choice in choices:
                self.tree(held | set(choice), kind)
        elif word == 'clash':
            self.need(10, {(args[0], 1), (args[0], -1)} <= held)
        elif word == 'kind':
            self.need(11, args[0] in held and self.core.wrong(args[0], kind))
        elif word == 'count':
            self.need(12, kind in ('string', 'array', 'object'))
            self.need(13, self.core.is_crossed(held, kind))
        else:
            self.need(4, word in LEAVES)
            self.need(12, LEAVES[word] == kind)
            getattr(self, word)(held, *args)

    def bool(self, held):
        self.need(14, self.core.has_no_truth(held))

    def number(self, held):
        self.need(15, self.core.has_no_number(held))

    def array(self, held):
        plans = ArrayPlans(self.core, held)
        self.plan(plans, plans.empty)

    # ---- rows

    def rows(self, automaton, count):
        """A word for each row, and the targets of each."""
        self.need(16, count > 0 and automaton.is_within_limits)
        words, targets = [()], []
        for row in range(count):
            told = self.lines.take_only('row')
            self.need(17, row < len(words) and len(told) == len(automaton.classes))
            for longer, target in zip(automaton.longer(words[row]), told):
                if target < len(words):
                    self.need(18, automaton.state(words[target]) == automaton.state(longer))
                else:
                    self.need(18, target == len(words) < count)
                    words.append(longer)
            targets.append(told)
        return words, targets

    def string(self, held, count):
        strings = Strings(self.core, held)
        words, targets = self.rows(strings.automaton, count)
        least = self.lines.take_only('least')
        self.need(19, len(least) == count and least[0] == 0)
        for row, told in enumerate(targets):
            self.need(19, all(least[target] <= least[row] + 1 for target in told))
        for word, length in zip(words, least):
            self.need(20, not strings.wants(word) or is_over(length, strings.upper))

    def object(self, held, count, caps):
        names = Names(self.core, held)
        words, targets = self.rows(names.automaton, count)
        cells, bounds = names.cells(words), {}
        for _ in range(caps):
            cell, *labels = self.lines.take_only('cap')
            self.need(21, cell < len(cells.vectors) and all(cell > before for before in bounds))
            self.need(21, len(labels) == count)
            for row, told in enumerate(targets):
                asked = sum(width * labels[target] for width, target in zip(names.automaton.widths, told))
                self.need(21, labels[row] >= asked + (cells.of_rows[row] == cell))
            bounds[cell] = labels[0]
        plans = ObjectPlans(self.core, held, cells, bounds)
        self.plan(plans, plans.empty)

    # ---- plans

    def is_out(self, asked, end):
        """The list clashes, or its goal contains the listed goal."""
        goal = self.core.form(asked)
        if end == 'clash':
            return goal is None
        return goal is not None and end < len(self.goals) and contains(goal, self.goals[end])

    def plan(self, plans, plan):
        word, *args = self.lines.take('a plan at ' + plans.name)
        if word == 'count':
            self.need(24, is_over(plans.length(plan), plans.upper))
        elif word == 'split':
            self.need(22, plan[2] < len(plans.demands))
            for option in plans.options(plan):
                self.plan(plans, option)
        elif word == 'short':
            self.need(24, self.is_short(plans, plan, args))
        else:
            self.need(4, word in (['member'] if plans.name == 'object' else ['index', 'tail']))
            lists = plans.indexes(plan) if word == 'index' else plans.members(plan)
            self.need(23, args[0] < len(lists) and self.is_out(lists[args[0]], args[1]))

    def is_short(self, plans, plan, entries):
        if plan[2] < len(plans.demands) or len(entries) != len(plans.cells):
            return False
        kept = [cell for cell, entry in zip(plans.cells, entries) if entry == '-']
        if not all(entry == '-' or self.is_out(plans.filler(cell), entry)
                   for cell, entry in zip(plans.cells, entries)):
            return False
        rooms = [plans.room(plan, cell) for cell in kept]
        return None not in rooms and sum(rooms) < plans.need(plan)


def judged(core, lines):
    """None for an accepted certificate, else the line and the rule."""
    try:
        Judge(core, lines).certificate()
    except Rejected as rejected:
        return rejected.line, rejected.rule
    return None


def shown(judged_as):
    return 'accepted' if judged_as is None else 'rejected %d %d' % judged_as


def verdict(core, data):
    return shown(judged(core, Lines(data)))


def main():
    first, second, certificate = sys.argv[1:]
    with open(first, encoding='utf-8') as a, open(second, encoding='utf-8') as b, open(certificate, 'rb') as c:
        print(verdict(Core(json.load(a), json.load(b)), c.read()))


if __name__ == '__main__':
    # trees may be deep
    sys.setrecursionlimit(10**6)
    threading.stack_size(1 << 29)
    work = threading.Thread(target=main)
    work.start()
    work.join()
