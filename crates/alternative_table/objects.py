"""What branches at objects give: cells of names, by trying names, and plans, by going through lists of options."""
import functools
import itertools

from leaves import MOST_COUNT, MOST_PLANS, ROOM, compiled
from tables import Limit, bounds, neighbour

automaton_table = neighbour('automaton_table')
ATOMS = {'match': automaton_table.Match, 'words': automaton_table.Words, 'length': automaton_table.Length}
MOST_POSITIONS, MOST_CLASSES = automaton_table.MOST_POSITIONS, automaton_table.MOST_CLASSES
# a length to which names are gone through; beyond it lines are by hand
LONGEST = 300
# words with one character of each class that are tried against the cells, and lists of options that are gone through
TRIED, LISTS = 2000, 3000


# ---- names

def finds(pattern, name):
    return bool(compiled(pattern).search(name))


def is_in(names, name):
    """Whether a name is in the set of a literal of members."""
    kind, *more = names
    if kind == 'named':
        return name == more[0]
    if kind == 'matching':
        return finds(more[0], name)
    listed, patterns = split(more)
    return name not in listed and not any(finds(pattern, name) for pattern in patterns)


def split(others):
    """The names and the patterns of a set of other names: a number before each list."""
    listed = others[1:1 + others[0]]
    return listed, others[2 + len(listed):]


# what a typed position asks of a string
OF_STRINGS = {
    'words': lambda asked, name: name in asked, 'match': lambda asked, name: finds(asked[0], name),
    'lengthmin': lambda asked, name: len(name) >= asked[0], 'lengthmax': lambda asked, name: len(name) <= asked[0],
}


def holds(core, position, name):
    """Whether a position holds of a name, as a string."""
    word, asked = core.positions[position]
    if word in ('true', 'false'):
        return word == 'true'
    if word == 'types':
        return 'string' in asked
    if word in OF_STRINGS:
        return OF_STRINGS[word](asked, name)
    if word not in ('same', 'not', 'all', 'any', 'one'):
        return True
    count = sum(holds(core, inside, name) for inside in asked)
    if word in ('not', 'any'):
        return (count > 0) == (word == 'any')
    return count == (len(asked) if word == 'all' else 1)


def atoms_in(core, position):
    """The atoms that are met from a position in place, in order."""
    word, asked = core.positions[position]
    if word in ('match', 'words'):
        return [(word, asked[0] if word == 'match' else tuple(asked))]
    if word in ('lengthmin', 'lengthmax'):
        least = asked[0] + (word == 'lengthmax')
        return [('length', least)] if least > 0 else []
    inside = asked if word in ('same', 'not', 'all', 'any', 'one') else []
    return [atom for position in inside for atom in atoms_in(core, position)]


def atoms_of_set(names):
    kind, *more = names
    if kind == 'named':
        return [('words', (more[0],))]
    listed, patterns = ([], more) if kind == 'matching' else split(more)
    return [('words', (name,)) for name in listed] + [('match', pattern) for pattern in patterns]


class Literal:
    """A literal that speaks of names, with what it says of a name."""

    def __init__(self, core, position, sign):
        self.word, self.sign, self.core = core.positions[position][0], sign, core
        asked = core.positions[position][1]
        self.names, self.inside = asked[0], asked[-1]

    def truth(self, name):
        if self.word == 'has':
            return name == self.names
        return is_in(self.names, name) if self.word == 'members' else holds(self.core, self.inside, name)

    def atoms(self):
        if self.word == 'has':
            return [('words', (self.names,))]
        return atoms_of_set(self.names) if self.word == 'members' else atoms_in(self.core, self.inside)


# ---- rows and cells

@functools.lru_cache(None)
def rows_of(atoms):
    return Rows(atoms)


class Rows:
    """The rows of an automaton, with the first word of each."""

    def __init__(self, atoms):
        made = [ATOMS[kind](asked) for kind, asked in atoms]
        if sum(atom.positions for atom in made) > MOST_POSITIONS:
            raise Limit('positions')
        classes = automaton_table.classes_of(made)
        if len(classes) > MOST_CLASSES:
            raise Limit('classes')
        assert all(atom.least < LONGEST for atom in made), 'by hand'
        rows = automaton_table.build(made, classes)
        if rows is None:
            raise Limit('states')
        self.ranges = [ranges for _, ranges in classes]
        self.widths = [sum(high - low + 1 for low, high in ranges) for ranges in self.ranges]
        self.first = [chr(first) for first, _ in classes]
        self.targets = [targets for targets, _ in rows]
        self.words = [''] + [None] * (len(rows) - 1)
        for row, target, letter in self.steps():
            if self.words[target] is None:
                self.words[target] = self.words[row] + letter

    def steps(self):
        return ((row, target, letter) for row, targets in enumerate(self.targets)
                for target, letter in zip(targets, self.first))

    def leading(self, inside):
        """The rows from which words lead into one of these rows."""
        found, count = set(inside), 0
        while len(found) > count:
            count = len(found)
            found |= {row for row, target, _ in self.steps() if target in found}
        return found

    def has_loop(self, rows):
        """Whether a word leads from one of these rows through them back to it."""
        left = set(rows)
        while True:
            ends = {row for row in left if left.isdisjoint(self.targets[row])}
            if not ends:
                return bool(left)
            left -= ends

    def first_letters(self, number, count):
        """The first characters of a class, in order."""
        letters = [c for low, high in self.ranges[number] for c in range(low, min(high, max(low + count, 0x7F)) + 1)]
        return [chr(c) for c in sorted(letters, key=automaton_table.order)[:count]]


class Cells:
    """The truths of all literals of names that occur together, in the order of their first names."""

    def __init__(self, core, held):
        self.literals = [Literal(core, position, sign) for position, sign in sorted(held)
                         if core.positions[position][0] in ('has', 'members', 'namesin')]
        atoms = (atom for literal in self.literals for atom in literal.atoms())
        self.rows = rows_of(tuple(dict.fromkeys(atoms)))
        vectors = [self.truths(word) for word in self.rows.words]
        self.vectors = list(dict.fromkeys(vectors))
        self.inside = [{row for row, v in enumerate(vectors) if v == vector} for vector in self.vectors]
        self.capacities = [self.capacity(cell) for cell in range(len(self.vectors))]
        self.try_words()

    def truths(self, name):
        return tuple(literal.truth(name) for literal in self.literals)

    def capacity(self, cell):
        """A loop on the way into the cell gives words without end. Else all words are gone through, with one character
        of each class."""
        rows = self.rows
        leading = rows.leading(self.inside[cell])
        if rows.has_loop(leading):
            return ROOM
        found, waiting = 0, [('', 0, 1)]
        while waiting:
            word, row, width = waiting.pop()
            found += width if self.truths(word) == self.vectors[cell] else 0
            steps = zip(rows.first, rows.targets[row], rows.widths)
            waiting += [(word + letter, target, width * wide) for letter, target, wide in steps if target in leading]
        return min(found, ROOM)

    def try_words(self):
        """All short words, in order, meet the cells in order, and in each no more words than its capacity."""
        seen, rows = {}, self.rows
        words = itertools.chain.from_iterable(itertools.product(range(len(rows.first)), repeat=n) for n in range(13))
        for word in itertools.islice(words, TRIED):
            width = 1
            for letter in word:
                width *= rows.widths[letter]
            vector = self.truths(''.join(rows.first[letter] for letter in word))
            seen[vector] = seen.get(vector, 0) + width
        assert list(seen) == self.vectors[:len(seen)]
        assert all(capacity in (ROOM, max(capacity, seen.get(vector, 0)))
                   for vector, capacity in zip(self.vectors, self.capacities))

    def first_words(self, cell, count):
        """The first words of a cell: of each class only so many characters are needed."""
        rows, found = self.rows, []
        letters = sorted((automaton_table.order(ord(letter)), letter, number) for number in range(len(rows.first))
                         for letter in rows.first_letters(number, count))
        ways = [self.inside[cell]]
        while len(found) < count:
            found += itertools.islice(self.words_along(ways, letters), count - len(found))
            ways.insert(0, {row for row, target, _ in rows.steps() if target in ways[0]})
        return found

    def words_along(self, ways, letters):
        """The words, in order, that lead from row 0 through these sets of rows."""
        waiting = [('', 0)] if 0 in ways[0] else []
        while waiting:
            word, row = waiting.pop()
            if len(word) + 1 == len(ways):
                yield word
            else:
                more = [(word + letter, self.rows.targets[row][number]) for _, letter, number in letters]
                waiting += reversed([(longer, target) for longer, target in more if target in ways[len(longer)]])


class Slot:
    """A word of a cell by its place."""

    def __init__(self, cells, cell, place):
        self.cells, self.cell, self.place = cells, cell, place

    def __str__(self):
        return '%d/%d' % (self.cell, self.place)

    def __add__(self, more):
        return Slot(self.cells, self.cell, self.place + more)

    def name(self):
        return self.cells.first_words(self.cell, self.place + 1)[-1]


# ---- plans

class Plans:
    """The plans of a branch. A plan is a list of options, one for each demand so far: ('old', m) for the member of that
    number, ('new', c) for a new member in that cell."""

    def __init__(self, core, held, low, high):
        self.core, self.low, self.high = core, low, high
        self.cells, self.goals = Cells(core, held), {}
        self.literals = self.cells.literals
        self.demands = [i for i, literal in enumerate(self.literals)
                        if (literal.word, literal.sign) in (('has', 1), ('members', -1), ('namesin', -1))]
        self.allowed = [cell for cell, truths in enumerate(self.cells.vectors)
                        if all(truth or (literal.word, literal.sign) != ('namesin', 1)
                               for literal, truth in zip(self.literals, truths))
                        and not any(truth and (literal.word, literal.sign) == ('has', -1)
                                    for literal, truth in zip(self.literals, truths))]

    def is_inside(self, cell, demand):
        return self.cells.vectors[cell][demand] == (self.literals[demand].word != 'namesin')

    def members(self, plan):
        """For each member its cell and the demands that it serves."""
        found = []
        for demand, (kind, number) in zip(self.demands, plan):
            if kind == 'new':
                found.append((number, []))
            found[number if kind == 'old' else -1][1].append(demand)
        return found

    def options(self, plan):
        demand, used = self.demands[len(plan)], [cell for cell, _ in self.members(plan)]
        return ([('old', number) for number, cell in enumerate(used) if self.is_inside(cell, demand)]
                + [('new', cell) for cell in self.allowed
                   if self.is_inside(cell, demand) and used.count(cell) < self.cells.capacities[cell]])

    def goal(self, cell, served):
        """What a member of that cell is asked where it serves these demands, as a goal; None for a clash."""
        key = (cell, *served)
        if key not in self.goals:
            self.goals[key] = self.core.form(
                [(literal.inside, literal.sign) for number, literal in enumerate(self.literals)
                 if literal.word == 'members' and (number in served if literal.sign < 0
                                                   else self.cells.vectors[cell][number])])
        return self.goals[key]

    def is_dropped(self, plan):
        members = self.members(plan)
        return (self.high is not None and len(members) > self.high
                or any(self.goal(cell, served) is None for cell, served in members))

    def complete(self):
        """The complete plans in order. All lists of options are gone through, but for those that begin like a plan that
        is dropped."""
        found, ends, waiting = [], 0, [[]]
        while waiting:
            plan = waiting.pop()
            dropped = self.is_dropped(plan)
            options = [] if dropped or len(plan) == len(self.demands) else self.options(plan)
            waiting += [plan + [option] for option in reversed(options)]
            found += [plan] if not dropped and len(plan) == len(self.demands) else []
            ends += not options
            if ends > MOST_PLANS:
                raise Limit('plans')
        count = len(self.demands)
        if (count + len(self.allowed)) ** count < LISTS:
            assert found == self.complete_plainly()
        return found

    def complete_plainly(self):
        """All lists of options in order, without a tree: what is dropped at once is dropped in the end."""
        count = len(self.demands)
        options = [('old', number) for number in range(count)] + [('new', cell) for cell in self.allowed]
        return [plan for plan in map(list, itertools.product(options, repeat=count))
                if all(plan[i] in self.options(plan[:i]) for i in range(count)) and not self.is_dropped(plan)]

    def alternative(self, plan):
        members, used = [], {}
        for cell, served in self.members(plan):
            members.append((Slot(self.cells, cell, used.get(cell, 0)), self.goal(cell, served)))
            used[cell] = used.get(cell, 0) + 1
        need = max((self.low or 0) - len(members), 0)
        rooms = [(cell, self.cells.capacities[cell] - used.get(cell, 0)) for cell in self.allowed] if need else []
        fillers = [(Slot(self.cells, cell, used.get(cell, 0)), self.goal(cell, []), room)
                   for cell, room in rooms if room > 0 and self.goal(cell, []) is not None]
        return 'members', members, need, fillers


def objects(core, held):
    low, high = bounds(core, held, 'propsmin', 'propsmax')
    if high is not None and (low or 0) > high:
        return []
    if (low or 0) > MOST_COUNT:
        raise Limit('counts')
    plans = Plans(core, held, low, high)
    return [plans.alternative(plan) for plan in plans.complete()]
