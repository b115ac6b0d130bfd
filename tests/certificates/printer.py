#!/usr/bin/env python3
"""Prints the certificate of two schemas where no document is valid for the first and invalid for the second:
printer.py FIRST SECOND (two files). The search and the lines are gone through as they are defined, slowly. Alternatives
come by the scripts of `alternative_table`; words, cells and plans of lines by `definitions.py`."""
import json
import sys

from definitions import (KINDS, MOST_WORDS, ArrayPlans, Core, Names, ObjectPlans, Strings, is_over, leaves, objects,
                         ordered)

NO_DOCUMENT = 'there is a document'


# ---- the search

def alternatives(core, held, kind):
    """The members' goals, the need, and the fillers' goals with their rooms, of each alternative of a branch."""
    if kind in ('array', 'object'):
        found = (leaves.arrays if kind == 'array' else objects.objects)(core, held)
        return [([goal for _, goal in members], need, [(goal, room) for _, goal, room in fillers])
                for _, members, need, fillers in found]
    is_met = {'null': lambda: True, 'boolean': lambda: not core.has_no_truth(held),
              'number': lambda: not core.has_no_number(held), 'string': lambda: has_string(Strings(core, held))}
    return [([], 0, [])] if is_met[kind]() else []


def has_string(strings):
    words = [word for word in strings.automaton.rows()[0] if strings.wants(word)]
    return any(not is_over(len(word), strings.upper) for word in words)


class Search:
    """The goals that are explored, by waves in order of first mention, and which of them some round has."""

    def __init__(self, core):
        self.core, self.goals, self.found = core, [core.form(core.root)], []
        for goal in self.goals:
            self.found.append([a for kind in KINDS for held in core.branches(goal, kind)
                               for a in alternatives(core, held, kind)])
            for members, _, fillers in self.found[-1]:
                for mentioned in members + [goal for goal, _ in fillers]:
                    if mentioned not in self.goals:
                        self.goals.append(mentioned)
        self.met, count = set(), -1
        while len(self.met) > count:
            count = len(self.met)
            self.met |= {n for n, found in enumerate(self.found) if any(map(self.is_met, found))}

    def is_met(self, alternative):
        members, need, fillers = alternative
        return (all(self.goals.index(goal) in self.met for goal in members)
                and sum(room for goal, room in fillers if self.goals.index(goal) in self.met) >= need)

    def number(self, goal):
        """The number of a goal that no document meets; none of others."""
        if goal in self.goals and self.goals.index(goal) not in self.met:
            return self.goals.index(goal)
        return None


# ---- lines: a list of words each, in which a number of a goal stands in a list of its own

def signed(x):
    return '%s%d' % ('+' if x[1] > 0 else '-', x[0])


class Printer:
    def __init__(self, core):
        self.core, self.known = core, None

    @property
    def search(self):
        self.known = self.known or Search(self.core)
        return self.known

    def rows(self, automaton):
        return automaton.rows()

    def goal(self, number):
        found = []
        for kind in KINDS:
            found += [['at', kind]] + self.tree(frozenset(self.search.goals[number]), kind)
        return found

    def tree(self, held, kind):
        clashes = [position for position, sign in ordered(held) if (position, -sign) in held]
        wrong = [x for x in ordered(held) if self.core.wrong(x, kind)]
        if clashes:
            return [['clash', clashes[0]]]
        if wrong:
            return [['kind', signed(wrong[0])]]
        for x in ordered(held):
            choices = self.core.choices(x, kind)
            if choices is not None and not any(held.issuperset(choice) for choice in choices):
                return [['rule', signed(x)]] + [line for choice in choices
                                                for line in self.tree(held | set(choice), kind)]
        return self.leaf(held, kind)

    def leaf(self, held, kind):
        if kind in ('string', 'array', 'object') and self.core.is_crossed(held, kind):
            return [['count']]
        if kind == 'array':
            plans = ArrayPlans(self.core, held)
            return [['array']] + self.plan(plans, plans.empty)
        assert kind != 'null', NO_DOCUMENT
        return {'boolean': lambda held: [['bool']], 'number': lambda held: [['number']],
                'string': self.string, 'object': self.object}[kind](held)

    def string(self, held):
        words, targets = self.rows(Strings(self.core, held).automaton)
        return ([['string', len(words)]] + [['row', *row] for row in targets]
                + [['least', *map(len, words)]])

    def object(self, held):
        names = Names(self.core, held)
        words, targets = self.rows(names.automaton)
        cells = names.cells(words)
        labels = [words_into(cell, cells, targets, names.automaton.widths) for cell in range(len(cells.vectors))]
        bounds = {cell: told[0] for cell, told in enumerate(labels) if told is not None}
        plans = ObjectPlans(self.core, held, cells, bounds)
        caps = [['cap', cell, *labels[cell]] for cell in plans.cells if cell in bounds]
        return ([['object', len(words), len(caps)]] + [['row', *row] for row in targets] + caps
                + self.plan(plans, plans.empty))

    def out(self, asked):
        """Why a list is out, if it is."""
        goal = self.core.form(asked)
        number = None if goal is None else self.search.number(goal)
        return ['clash'] if goal is None else None if number is None else ['goal', [number]]

    def plan(self, plans, plan):
        if is_over(plans.length(plan), plans.upper):
            return [['count']]
        word = 'member' if plans.name == 'object' else 'tail'
        placed = [('index', i, self.out(asked)) for i, asked in enumerate(plans.indexes(plan))]
        placed += [(word, m, self.out(asked)) for m, asked in enumerate(plans.members(plan))]
        clashes = [[word, number, 'clash'] for word, number, out in placed if out == ['clash']]
        if clashes:
            return clashes[:1]
        if plan[2] < len(plans.demands):
            return [['split']] + [line for option in plans.options(plan) for line in self.plan(plans, option)]
        cited = [[word, number, *out] for word, number, out in placed if out]
        return cited[:1] or [self.short(plans, plan)]

    def short(self, plans, plan):
        entries = [None if plans.room(plan, cell) == 0 else self.out(plans.filler(cell)) for cell in plans.cells]
        return ['short'] + [word for entry in entries for word in entry or ['-']]


def words_into(cell, cells, targets, widths):
    """How many words lead from each row into the cell; none where the first row has more than are counted."""
    inside = [own == cell for own in cells.of_rows]
    leading = {row for row, is_inside in enumerate(inside) if is_inside}
    while any(row not in leading and not leading.isdisjoint(told) for row, told in enumerate(targets)):
        leading |= {row for row, told in enumerate(targets) if not leading.isdisjoint(told)}
    # a word of as many letters as there are rows goes in a circle
    counts = [0] * len(targets)
    for _ in range(len(targets) + 1):
        before = counts
        counts = [inside[row] + sum(width * before[target] for width, target in zip(widths, told))
                  for row, told in enumerate(targets)]
    return None if counts != before or counts[0] > MOST_WORDS else counts


def certificate(core, printer_of=Printer):
    """The lines of the certificate, each a text."""
    if core.form(core.root) is None:
        return ['certificate 1', 'goals 0', 'end']
    printer = printer_of(core)
    assert 0 not in printer.search.met, NO_DOCUMENT
    listed, entries = [0], []
    for number in listed:
        entries.append(printer.goal(number))
        for line in entries[-1]:
            listed += [n for word in line if isinstance(word, list) for n in word if n not in listed]
    lines = ['certificate 1', 'goals %d' % len(listed)]
    lines += [' '.join(['goal'] + [signed(x) for x in printer.search.goals[number]]) for number in listed]
    for place, entry in enumerate(entries):
        lines.append('entry %d' % place)
        lines += [' '.join(str(listed.index(*word)) if isinstance(word, list) else str(word) for word in line)
                  for line in entry]
    return lines + ['end']


def main():
    with open(sys.argv[1], encoding='utf-8') as first, open(sys.argv[2], encoding='utf-8') as second:
        print('\n'.join(certificate(Core(json.load(first), json.load(second)))))


if __name__ == '__main__':
    main()
