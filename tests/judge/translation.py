"""Translation of a judged question to a plan, plain or shortened (rules S1 to S6).

`Columns` say where each variable's columns stand in the value that is being narrowed down ("P" in document 01).
`rules` counts which short rules fitted and which just didn't, for the tests' distribution table only.
"""

from collections import Counter

from comparing import EQUAL, OPPOSITE, TURNED
from plan import (ANTIJOIN, DIFFERENCE, DIVISION, INTERSECTION, JOIN, LOAD, PROJECT, SELECT_ATTRIBUTE,
                  SELECT_CONSTANT, SEMIJOIN, TALLY, UNION, Node)
from question import (ALPHA, AND, ATOMS, EVERY, NOT, OR, RANGE_AND, RANGE_AND_NOT, RANGE_OR, SO_MANY, SOME,
                      TABLE, WITH_CONSTANT, bindings, leaves, targets)

SET_OPERATION = {RANGE_OR: UNION, RANGE_AND: INTERSECTION, RANGE_AND_NOT: DIFFERENCE}
MOST_TRIPLES = 8


class Columns:
    """Where the variables in scope stand: variable -> (columns before it, its width)."""

    def __init__(self, places=None):
        self.places = places or {}

    def joined(self, var, width):
        before = sum(width for _, width in self.places.values())
        return Columns({**self.places, var: (before, width)})

    def column(self, var, attr):
        return self.places[var][0] + attr

    def of_target(self, var, attr):
        before, width = self.places[var]
        return [before + attr] if attr else list(range(before + 1, before + width + 1))


class Translation:
    def __init__(self, nodes, table_columns, short):
        self.nodes, self.table_columns, self.short = nodes, table_columns, short
        self.plan, self.widths, self.rules = [], [], Counter()
        self.alpha(len(nodes) - 1)

    # Writing nodes: each gives the number of the node written.
    def write(self, op, left, right, width, groups=()):
        items = [word for group in groups for word in group]
        self.plan.append(Node(op, left, right, len(groups), items))
        self.widths.append(width)
        return len(self.plan) - 1

    def project(self, value, attributes):
        if self.short and attributes == list(range(1, self.widths[value] + 1)):
            self.rules["S1"] += 1
            return value
        if self.short:
            self.rules["S1 missed"] += 1
        return self.write(PROJECT, value, 0, len(attributes), [[a] for a in attributes])

    def product(self, left, right):
        return self.write(JOIN, left, right, self.widths[left] + self.widths[right])

    def filtered(self, op, left, right, groups=()):
        """Semijoin, antijoin, union, difference, tally: the value has the left side's width."""
        return self.write(op, left, right, self.widths[left], groups)

    def select(self, value, atom, columns, negated=False):
        kind, a, b, c, d, e = self.nodes[atom]
        operator = OPPOSITE[c] if negated else c
        op, operand = (SELECT_CONSTANT, d) if kind == WITH_CONSTANT else (SELECT_ATTRIBUTE, None)
        if operand is None:
            operand = columns.column(d, e)
        return self.write(op, value, 0, self.widths[value], [[columns.column(a, b), operator, operand]])

    # Ranges and alphas
    def range(self, number):
        kind, a, b = self.nodes[number][:3]
        if kind == TABLE:
            return self.write(LOAD, a, 0, self.table_columns[a])
        if kind == ALPHA:
            return self.alpha(number)
        left = self.range(a - 1)
        right = self.range(b - 1)
        return self.filtered(SET_OPERATION[kind], left, right)

    def alpha(self, number):
        columns, value = Columns(), None
        for _, var, range_number in bindings(self.nodes, number):
            following = self.range(range_number)
            columns = columns.joined(var, self.widths[following])
            value = following if value is None else self.product(value, following)
        if self.nodes[number][3]:
            value = self.condition(self.nodes[number][3] - 1, value, columns)
        wanted = [column for _, var, attr in targets(self.nodes, number) for column in columns.of_target(var, attr)]
        return self.project(value, wanted)

    # Conditions: T(f, P)
    def condition(self, number, value, columns):
        if self.short:
            shortened = self.shortened(number, value, columns)
            if shortened is not None:
                return shortened
        return self.plain(number, value, columns)

    def plain(self, number, value, columns):
        kind, a, b = self.nodes[number][:3]
        if kind in ATOMS:
            return self.select(value, number, columns)
        if kind == AND:
            return self.condition(b - 1, self.condition(a - 1, value, columns), columns)
        if kind == OR:
            left = self.condition(a - 1, value, columns)
            return self.filtered(UNION, left, self.condition(b - 1, value, columns))
        if kind == NOT:
            return self.filtered(DIFFERENCE, value, self.condition(a - 1, value, columns))
        return self.plain_quantifier(number, value, columns)

    def plain_quantifier(self, number, value, columns):
        kind, var, range_reference, condition, least = self.nodes[number][:5]
        over = self.range(range_reference - 1)
        wider = self.product(value, over)
        found = self.condition(condition - 1, wider, columns.joined(var, self.widths[over]))
        if kind == SO_MANY:
            return self.filtered(TALLY, value, found, [[least]])
        own_columns = list(range(1, self.widths[value] + 1))
        if kind == SOME:
            return self.project(found, own_columns)
        missed = self.filtered(DIFFERENCE, wider, found)
        return self.filtered(DIFFERENCE, value, self.project(missed, own_columns))

    # The short rules: None when none fits
    def shortened(self, number, value, columns):
        kind, a = self.nodes[number][:2]
        if kind == SOME:
            return self.some_by_semijoin("S2", number, SEMIJOIN, value, columns)
        if kind == NOT and self.nodes[a - 1][0] == SOME:
            return self.some_by_semijoin("S3", a - 1, ANTIJOIN, value, columns)
        if kind == NOT and self.nodes[a - 1][0] in ATOMS:
            self.rules["S6"] += 1
            return self.select(value, a - 1, columns, negated=True)
        if kind == NOT:
            self.rules["S6 missed"] += 1
        if kind == EVERY and self.nodes[self.nodes[number][3] - 1][0] == SOME:
            return self.every_some_by_division(number, value, columns)
        if kind == EVERY:
            return self.every_by_antijoin(number, value, columns)
        return None

    def some_by_semijoin(self, rule, some, op, value, columns):
        return self.by_matching(rule, some, AND, op, value, columns, negated=False)

    def every_by_antijoin(self, every, value, columns):
        return self.by_matching("S4", every, OR, ANTIJOIN, value, columns, negated=True)

    def by_matching(self, rule, quantifier, joiner, op, value, columns, negated):
        """S2, S3 and S4: range, a select for each atom on x alone, then the match of P with what is left."""
        _, var, range_reference, condition = self.nodes[quantifier][:4]
        atoms = self.split_atoms(rule, leaves(self.nodes, condition - 1, joiner), var)
        if atoms is None:
            return None
        alone, comparing = atoms
        over = self.range(range_reference - 1)
        own = Columns().joined(var, self.widths[over])
        for atom in alone:
            over = self.select(over, atom, own, negated)
        triples = [self.triple(atom, var, columns, negated) for atom in comparing]
        return self.filtered(op, value, over, triples)

    def split_atoms(self, rule, tree, var):
        """(atoms on x alone, atoms comparing x with another variable), or None when the rule doesn't fit."""
        alone, comparing = [], []
        for leaf in tree:
            kind, a, _, _, d, _ = self.nodes[leaf]
            if kind not in ATOMS or var not in self.variables(leaf):
                self.rules[rule + " missed"] += 1
                return None
            (alone if self.variables(leaf) == {var} else comparing).append(leaf)
        if len(comparing) > MOST_TRIPLES:
            self.rules[rule + " missed by a 9th"] += 1
            return None
        self.rules[rule + (" with 8" if len(comparing) == MOST_TRIPLES else "")] += 1
        return alone, comparing

    def variables(self, atom):
        kind, a, _, _, d, _ = self.nodes[atom]
        return {a} if kind == WITH_CONSTANT else {a, d}

    def triple(self, atom, var, columns, negated=False):
        """P's column stands on the left, so the operator is turned when the atom has x there."""
        _, a, b, operator, d, e = self.nodes[atom]
        if negated:
            operator = OPPOSITE[operator]
        if a == var:
            return [columns.column(d, e), TURNED[operator], b]
        return [columns.column(a, b), operator, e]

    def every_some_by_division(self, every, value, columns):
        """S5: "every y" directly above "some z"."""
        _, y, y_range, some = self.nodes[every][:4]
        _, z, z_range, condition = self.nodes[some - 1][:4]
        atoms = self.split_for_division(leaves(self.nodes, condition - 1, AND), y, z)
        if atoms is None:
            return None
        alone, outside, inner = atoms
        divisor = self.range(y_range - 1)
        rows = self.range(z_range - 1)
        own = Columns().joined(z, self.widths[rows])
        for atom in alone:
            rows = self.select(rows, atom, own)
        rows = self.project(rows, [self.attribute_of(z, atom) for atom in outside + inner])
        pairs = [[len(outside) + j, self.attribute_beside(z, atom)] for j, atom in enumerate(inner, 1)]
        quotient = self.write(DIVISION, rows, divisor, len(outside), pairs)
        triples = [[self.triple(atom, z, columns)[0], EQUAL, i] for i, atom in enumerate(outside, 1)]
        meeting = self.filtered(SEMIJOIN, value, quotient, triples)
        # Division by nothing loses P's rows that have no partner in z's range; "every" over nothing keeps them all.
        if_no_divisor = self.filtered(ANTIJOIN, value, divisor)
        return self.filtered(UNION, meeting, if_no_divisor)

    def split_for_division(self, tree, y, z):
        alone, outside, inner = [], [], []
        for leaf in tree:
            if self.nodes[leaf][0] not in ATOMS or z not in self.variables(leaf):
                self.rules["S5 missed"] += 1
                return None
            others = self.variables(leaf) - {z}
            if others and self.nodes[leaf][3] != EQUAL:
                self.rules["S5 missed"] += 1
                return None
            (inner if others == {y} else outside if others else alone).append(leaf)
        most = max(len(outside), len(inner))
        if not outside or not inner or most > MOST_TRIPLES:
            self.rules["S5 missed by a 9th" if most > MOST_TRIPLES else "S5 missed"] += 1
            return None
        self.rules["S5 with 8" if most == MOST_TRIPLES else "S5"] += 1
        return alone, outside, inner

    def attribute_of(self, var, atom):
        _, a, b, _, _, e = self.nodes[atom]
        return b if a == var else e

    def attribute_beside(self, var, atom):
        _, a, b, _, _, e = self.nodes[atom]
        return e if a == var else b
