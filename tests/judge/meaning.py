"""A question's own meaning, by brute force over all choices of rows. It knows nothing of plans or operations."""

from itertools import product

from comparing import TESTS
from question import ALPHA, AND, NOT, OR, RANGE_AND, RANGE_OR, SO_MANY, SOME, TABLE, WITH_ATTRIBUTE, WITH_CONSTANT
from question import bindings, targets


class Meaning:
    def __init__(self, nodes, tables):
        self.nodes, self.tables = nodes, tables
        # A range sees no variable from outside, so it means the same rows wherever it is asked.
        self.known_ranges = {}

    def answer(self):
        return self.alpha(len(self.nodes) - 1)

    def range(self, number):
        if number not in self.known_ranges:
            self.known_ranges[number] = self.work_out_range(number)
        return self.known_ranges[number]

    def work_out_range(self, number):
        kind, a, b = self.nodes[number][:3]
        if kind == TABLE:
            return self.tables[a]
        if kind == ALPHA:
            return self.alpha(number)
        left, right = self.range(a - 1), self.range(b - 1)
        if kind == RANGE_OR:
            return left | right
        return left & right if kind == RANGE_AND else left - right

    def alpha(self, number):
        chain = list(bindings(self.nodes, number))
        wanted = list(targets(self.nodes, number))
        condition = self.nodes[number][3]
        variables = [var for _, var, _ in chain]
        rows = set()
        for choice in product(*(self.range(range_number) for _, _, range_number in chain)):
            chosen = dict(zip(variables, choice))
            if not condition or self.holds(condition - 1, chosen):
                rows.add(self.target_row(wanted, chosen))
        return rows

    def target_row(self, wanted, chosen):
        row = ()
        for _, var, attr in wanted:
            row += (chosen[var][attr - 1],) if attr else chosen[var]
        return row

    def holds(self, number, chosen):
        kind, a, b, c, d, e = self.nodes[number]
        if kind == WITH_CONSTANT:
            return TESTS[c](chosen[a][b - 1], d)
        if kind == WITH_ATTRIBUTE:
            return TESTS[c](chosen[a][b - 1], chosen[d][e - 1])
        if kind == AND:
            return self.holds(a - 1, chosen) and self.holds(b - 1, chosen)
        if kind == OR:
            return self.holds(a - 1, chosen) or self.holds(b - 1, chosen)
        if kind == NOT:
            return not self.holds(a - 1, chosen)
        tries = (self.holds(c - 1, {**chosen, a: row}) for row in self.range(b - 1))
        if kind == SO_MANY:
            return sum(tries) >= d
        return any(tries) if kind == SOME else all(tries)
