"""What certificates speak of, as it is defined: joined core tables, atoms and the states of words, cells of names, and
plans of arrays and objects. Words are tried whole, and nothing is fast. The tables come by the scripts of `norm_table`,
`branch_table` and `alternative_table`, the states of words by that of `automaton_table`."""
import functools
import os
import sys

HERE = os.path.dirname(os.path.abspath(__file__))
sys.path.append(os.path.join(HERE, '..', '..', 'crates', 'alternative_table'))

import leaves  # noqa: E402
import objects  # noqa: E402
import schemas  # noqa: E402
import tables  # noqa: E402
from leaves import first_number, truths  # noqa: E402
from objects import automaton_table  # noqa: E402
from tables import KINDS, Limit, branch_table, norm_table  # noqa: E402

MOST_POSITIONS, MOST_CLASSES, MOST_ROWS, MOST_WORDS = 16384, 1024, 65536, 65536
# the positions that bound the count of each kind
BOUNDS = {'string': ('lengthmin', 'lengthmax'), 'array': ('countmin', 'countmax'), 'object': ('propsmin', 'propsmax')}


# ---- tables and goals

class Core(tables.Core):
    """The table of two schemas, the second behind the first."""

    def __init__(self, first, second):
        branch_table.Core.__init__(self, [first, second], norm_table.Table)
        self.root = [(0, 1), (self.firsts[1], -1)]

    def read(self, words, moved):
        word, asked = super().read(words, moved)
        if word in ('items', 'contains', 'namesin'):
            asked = [position + moved for position in asked]
        return (word, [asked[0], asked[1] + moved]) if word == 'members' else (word, asked)

    def literals(self, held, *words):
        """The literals of these words in order: position, sign, word, what it asks."""
        return [(position, sign, *self.positions[position]) for position, sign in ordered(held)
                if self.positions[position][0] in words]

    def lower(self, held, kind):
        return tables.bounds(self, held, *BOUNDS[kind])[0] or 0

    def upper(self, held, kind):
        """None where there is none."""
        return tables.bounds(self, held, *BOUNDS[kind])[1]

    def is_crossed(self, held, kind):
        return is_over(self.lower(held, kind), self.upper(held, kind))

    def has_no_truth(self, held):
        return not truths(self, held)

    def has_no_number(self, held):
        """None is found, and no limit is passed."""
        low, high = tables.bounds(self, held, 'nummin', 'nummax')
        divisors, not_divisors = ([n for n, in self.asked(held, 'multiple', sign)] for sign in (1, -1))
        sets, not_sets = self.asked(held, 'numin', 1), self.asked(held, 'numin', -1)

        def meets(n):
            return (not (low is not None and n < low) and not is_over(n, high)
                    and all(n % d == 0 for d in divisors) and all(n % d for d in not_divisors)
                    and all(n in listed for listed in sets) and not any(n in listed for listed in not_sets))

        try:
            return not first_number(low, high, divisors, not_divisors, sets, not_sets, meets)
        except Limit:
            return False


def ordered(held):
    return sorted(held, key=lambda x: (x[0], -x[1]))


def is_over(n, bound):
    return bound is not None and n > bound


def contains(goal, listed):
    return set(goal) >= set(listed)


# ---- words: each is a tuple of numbers of characters

@functools.lru_cache(None)
def atom_of(kind, asked):
    """The atom, and a key that equal atoms share: those of patterns are equal where the patterns' trees are."""
    atom = objects.ATOMS[kind](asked)
    return atom, (kind, repr(atom.tree) if kind == 'match' else asked)


@functools.lru_cache(None)
def state_of(kind, asked, word):
    return atom_of(kind, asked)[0].state(word)


@functools.lru_cache(None)
def truth_of(kind, asked, word):
    return atom_of(kind, asked)[0].truth(word)


@functools.lru_cache(None)
def classes_of(atoms):
    return automaton_table.classes_of([atom_of(*atom)[0] for atom in atoms])


class Automaton:
    """The states of words for some atoms, each a kind and what it asks. Equal ones stand once."""

    def __init__(self, atoms):
        once = {}
        for atom in atoms:
            once.setdefault(atom_of(*atom)[1], atom)
        self.atoms = list(once.values())
        made = [atom_of(*atom)[0] for atom in self.atoms]
        self.longest = max((atom.least for atom in made), default=0)
        self.classes = classes_of(tuple(self.atoms))
        self.widths = [sum(high - low + 1 for low, high in ranges) for _, ranges in self.classes]
        positions = sum(atom.positions for atom in made)
        self.is_within_limits = positions <= MOST_POSITIONS and len(self.classes) <= MOST_CLASSES

    def state(self, word):
        return word == (), min(len(word), self.longest), [state_of(*atom, word) for atom in self.atoms]

    def longer(self, word):
        """The word with the first character of each class."""
        return [word + (first,) for first, _ in self.classes]

    def rows(self):
        """The first word of each row, and the targets of each, class by class."""
        words, states, targets = [()], [self.state(())], []
        for word in words:
            targets.append([])
            for longer in self.longer(word):
                state = self.state(longer)
                if state not in states:
                    words.append(longer)
                    states.append(state)
                targets[-1].append(states.index(state))
            if len(words) > MOST_ROWS:
                raise Limit('states')
        return words, targets


class Strings:
    """What a set asks of strings."""

    def __init__(self, core, held):
        self.literals = [(word, tuple(asked) if word == 'words' else asked[0], sign)
                         for _, sign, word, asked in core.literals(held, 'match', 'words')]
        self.lower, self.upper = core.lower(held, 'string'), core.upper(held, 'string')
        self.automaton = Automaton([literal[:2] for literal in self.literals]
                                   + ([('length', self.lower)] if self.lower > 0 else []))

    def wants(self, word):
        return len(word) >= self.lower and all(truth_of(kind, asked, word) == (sign > 0)
                                               for kind, asked, sign in self.literals)


class Cells:
    """The cells of the names of a set, among these words, one for each row."""

    def __init__(self, literals, words):
        self.literals = literals
        vectors = [self.vector(word) for word in words]
        self.vectors = list(dict.fromkeys(vectors))
        self.of_rows = [self.vectors.index(vector) for vector in vectors]

    def vector(self, word):
        return tuple(literal.truth(''.join(map(chr, word))) for literal in self.literals)


class Names:
    """What a set says of names."""

    def __init__(self, core, held):
        found = core.literals(held, 'has', 'members', 'namesin')
        self.literals = [objects.Literal(core, position, sign) for position, sign, *_ in found]
        self.automaton = Automaton([atom for literal in self.literals for atom in literal.atoms()])

    def cells(self, words):
        return Cells(self.literals, words)


# ---- plans: what the first places of an array serve, what members serve, each after its cell, and how many demands
# are placed

class ArrayPlans:
    """The plans of arrays; elements after the first places are members of one cell without bound."""
    name = 'array'

    def __init__(self, core, held):
        self.core, self.lower, self.upper = core, core.lower(held, 'array'), core.upper(held, 'array')
        self.literals = core.literals(held, 'items', 'contains')
        self.heads = max((len(asked) - 1 for _, _, word, asked in self.literals if word == 'items'), default=0)
        self.demands = [i for i, (_, sign, word, _) in enumerate(self.literals)
                        if (word, sign) in (('contains', 1), ('items', -1))]
        self.cells = [0]
        self.empty = ((),) * self.heads, (), 0

    def options(self, plan):
        heads, members, done = plan
        demand = self.demands[done]
        return ([(with_at(heads, i, served + (demand,)), members, done + 1) for i, served in enumerate(heads)]
                + [(heads, with_at(members, m, (0, served + (demand,))), done + 1)
                   for m, (_, served) in enumerate(members)]
                + [(heads, members + ((0, (demand,)),), done + 1)])

    def length(self, plan):
        heads, members, _ = plan
        used = [i + 1 for i, served in enumerate(heads) if served]
        return max([self.lower] + used + ([self.heads + len(members)] if members else []))

    def list_at(self, place, served):
        """What is asked of the element at that index that serves these demands."""
        found = []
        for number, (_, sign, word, asked) in enumerate(self.literals):
            if word == 'contains' and (sign < 0 or number in served):
                found.append((asked[0], sign))
            if word == 'items' and (sign > 0 or number in served):
                rest, *prefix = asked
                found.append((prefix[place] if place < len(prefix) else rest, sign))
        return found

    def indexes(self, plan):
        """The lists of the first places that the plan has."""
        return [self.list_at(i, served) for i, served in enumerate(plan[0]) if i < self.length(plan)]

    def members(self, plan):
        return [self.list_at(self.heads, served) for _, served in plan[1]]

    def need(self, plan):
        return max(self.length(plan) - self.heads - len(plan[1]), 0)

    def filler(self, cell):
        return self.list_at(self.heads, ())

    def room(self, plan, cell):
        """None without bound."""
        return None


class ObjectPlans:
    """The plans of objects, with a bound on the names of some cells."""
    name = 'object'

    def __init__(self, core, held, cells, bounds):
        self.core, self.lower, self.upper = core, core.lower(held, 'object'), core.upper(held, 'object')
        self.literals, self.vectors, self.bounds = cells.literals, cells.vectors, bounds
        signs = [(literal.word, literal.sign) for literal in self.literals]
        self.demands = [i for i, x in enumerate(signs) if x in (('has', 1), ('members', -1), ('namesin', -1))]
        self.cells = [c for c, vector in enumerate(self.vectors)
                      if not any((x, truth) in ((('namesin', 1), False), (('has', -1), True))
                                 for x, truth in zip(signs, vector))]
        self.empty = (), (), 0

    def is_inside(self, cell, demand):
        return self.vectors[cell][demand] != (self.literals[demand].word == 'namesin')

    def options(self, plan):
        _, members, done = plan
        demand = self.demands[done]
        return ([((), with_at(members, m, (cell, served + (demand,))), done + 1)
                 for m, (cell, served) in enumerate(members) if self.is_inside(cell, demand)]
                + [((), members + ((cell, (demand,)),), done + 1) for cell in self.cells
                   if self.is_inside(cell, demand) and self.room(plan, cell) != 0])

    def length(self, plan):
        return len(plan[1])

    def list_at(self, cell, served):
        return [(literal.inside, literal.sign) for number, literal in enumerate(self.literals)
                if literal.word == 'members'
                and (self.vectors[cell][number] if literal.sign > 0 else number in served)]

    def indexes(self, plan):
        return []

    def members(self, plan):
        return [self.list_at(cell, served) for cell, served in plan[1]]

    def need(self, plan):
        return max(self.lower - len(plan[1]), 0)

    def filler(self, cell):
        return self.list_at(cell, ())

    def room(self, plan, cell):
        """None without bound."""
        bound = self.bounds.get(cell)
        return None if bound is None else max(bound - sum(c == cell for c, _ in plan[1]), 0)


def with_at(values, i, value):
    return values[:i] + (value,) + values[i + 1:]


__all__ = ['KINDS', 'Limit', 'Core', 'Automaton', 'ordered', 'is_over', 'contains', 'Strings', 'Names', 'ArrayPlans',
           'ObjectPlans', 'MOST_WORDS', 'HERE', 'norm_table', 'leaves', 'objects', 'schemas']
