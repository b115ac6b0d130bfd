"""Core tables of schemas, with what typed positions ask, by the scripts of `norm_table` and `branch_table`."""
import importlib.util
import json
import os

HERE = os.path.dirname(os.path.abspath(__file__))


def neighbour(name):
    path = os.path.join(HERE, '..', name, 'cases.py')
    spec = importlib.util.spec_from_file_location(name, path)
    module = importlib.util.module_from_spec(spec)
    spec.loader.exec_module(module)
    return module


norm_table, branch_table = neighbour('norm_table'), neighbour('branch_table')
KINDS = branch_table.KINDS


class Limit(Exception):
    pass


def values(text):
    """The JSON values of a text, with a blank between them."""
    found, at = [], 0
    while at < len(text):
        value, at = json.JSONDecoder().raw_decode(text, at)
        found.append(value)
        at += 1
    return found


class Core(branch_table.Core):
    """The table of a schema, with what typed positions ask."""

    def __init__(self, schema):
        super().__init__([schema], norm_table.Table)

    def read(self, words, moved):
        if words[0] == 'members':
            *named, inside = values(' '.join(words[2:]))
            return words[0], [(words[1], *named), inside]
        if words[0] in branch_table.TYPED:
            return words[0], values(' '.join(words[1:]))
        return super().read(words, moved)

    def form(self, signed_positions):
        """The goal of a list, or None where it clashes."""
        goal = set()
        for position, sign in map(self.follow, signed_positions):
            word = self.positions[position][0]
            if (word, sign) in (('false', 1), ('true', -1)):
                return None
            if (word, sign) not in (('true', 1), ('false', -1)):
                goal.add((position, sign))
        if any((position, -sign) in goal for position, sign in goal):
            return None
        return sorted(goal)

    def asked(self, held, word, sign):
        """What the literals of that word and sign ask, in order of position."""
        return [self.positions[position][1] for position, s in sorted(held)
                if s == sign and self.positions[position][0] == word]


def bounds(core, held, least, most):
    """The greatest lower and the least upper bound, None where there is none."""
    low = [n for n, in core.asked(held, least, 1)] + [n + 1 for n, in core.asked(held, most, -1)]
    high = [n for n, in core.asked(held, most, 1)] + [n - 1 for n, in core.asked(held, least, -1)]
    return max(low, default=None), min(high, default=None)
