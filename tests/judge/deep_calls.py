#!/usr/bin/env python3
"""The calls that need the most stack: for each way in which a question or a plan can be deep, the deepest that is accepted,
and the same with a fault at its bottom, so that judging goes down and translation doesn't begin.

    deep_calls.py > LINES          call lines without outcomes, for tests/c/stack
"""

from calls import Call
from limit_calls import DATA, EQUAL, LESS, Nodes, catalogue_of, node, tables_of
from refusals import MOST_WORDS, PLAN_BUFFER_WORDS

NODES, VARIABLES, PLAN_NODES = 64, 26, 256
NOT, AND, OR, SOME, EVERY, SO_MANY = 12, 10, 11, 13, 14, 16
X = 25  # the alpha's own variable; the deep ones count from 0
UNBOUND = 24


def atom(nodes, variable, operator=EQUAL, attribute=1):
    return nodes.add(8, variable, attribute, operator, 7)


def compared(nodes, variable, operator=EQUAL):
    return nodes.add(9, variable, 1, operator, X, 1)


def quantified(nodes, kind, variable, condition):
    """Over relation 1; "at least so many" asks for one."""
    return nodes.add(kind, variable, nodes.table(1), condition, int(kind == SO_MANY))


def question(condition_of, bottom):
    """An alpha over relation 1 whose condition is what `condition_of` makes above the atom on `bottom`."""
    nodes = Nodes()
    reference = condition_of(nodes, bottom)
    nodes.alpha([(X, 1)], [(X, nodes.table(1))], reference)
    return nodes.flat()


def room_left(nodes):
    return NODES - len(nodes.words) - 4


def nested_not(nodes, bottom):
    reference = atom(nodes, bottom)
    while room_left(nodes):
        reference = nodes.add(NOT, reference)
    return reference


def nested(kinds):
    """Quantifiers one inside another, of these kinds in turn; -kind has a "not" above it. What room is left has "not"s above them all."""
    def build(nodes, bottom):
        reference = nodes.add(9, bottom, 1, LESS, 0, 1)
        for variable in range(VARIABLES - 2):
            kind = kinds[variable % len(kinds)]
            if room_left(nodes) < 3:
                break
            reference = quantified(nodes, abs(kind), variable, reference)
            if kind < 0:
                reference = nodes.add(NOT, reference)
        while room_left(nodes):
            reference = nodes.add(NOT, reference)
        return reference
    return build


def wide_tree(kind, quantifier, left_deep):
    """As many atoms as fit, in one tree; below a quantifier also the leaves of a short rule."""
    def build(nodes, bottom):
        count = (room_left(nodes) - 2) // 2
        leaves = [compared(nodes, bottom) if i % 8 == 0 else atom(nodes, bottom) for i in range(count)]
        if left_deep:
            reference = nodes.tree(kind, leaves)
        else:
            reference = leaves[-1]
            for leaf in reversed(leaves[:-1]):
                reference = nodes.add(kind, leaf, reference)
        return quantified(nodes, quantifier, 0, reference) if quantifier else reference
    return build


def every_some_tree(nodes, bottom):
    """S5 with as many leaves as fit."""
    leaves = [nodes.add(9, bottom, 1, EQUAL, 1, 1), nodes.add(9, bottom, 2, EQUAL, X, 1)]
    while room_left(nodes) > len(leaves) + 5:
        leaves.append(nodes.add(8, bottom, 1, LESS, 9))
    inner = nodes.add(SOME, 0, nodes.table(0), nodes.tree(AND, leaves))
    return nodes.add(EVERY, 1, nodes.table(1), inner)


def alphas_as_ranges(variable):
    nodes = Nodes()
    reference = nodes.table(1)
    while len(nodes.words) + 3 <= NODES:
        reference = nodes.alpha([(variable if reference == 1 else X, 1)], [(X, reference)])
    return nodes.flat()


def range_operations(left_deep, variable):
    nodes = Nodes()
    reference = nodes.table(1)
    while len(nodes.words) + 5 <= NODES:
        other = nodes.table(1)
        reference = nodes.add(5 + len(nodes.words) % 3, *((reference, other) if left_deep else (other, reference)))
    nodes.alpha([(variable, 1)], [(X, reference)])
    return nodes.flat()


def chain_of_bindings(variable):
    nodes = Nodes()
    ranges = [nodes.table(1) for _ in range(VARIABLES)]
    nodes.alpha([(variable, 1)] * (NODES - 2 * VARIABLES - 1), list(enumerate(ranges)))
    return nodes.flat()


def chain_of_targets(count):
    nodes = Nodes()
    nodes.alpha([(X, 1)] * count, [(X, nodes.table(1))])
    return nodes.flat()


def questions():
    for bottom, innermost in ((X, 0), (UNBOUND, UNBOUND)):
        yield question(nested_not, bottom)
        for kinds in ((SOME,), (EVERY,), (SOME, EVERY), (-SOME,), (-EVERY,), (SOME, -EVERY),
                      (SO_MANY,), (-SO_MANY,), (SO_MANY, SOME), (SO_MANY, -EVERY), (EVERY, -SO_MANY)):
            yield question(nested(kinds), innermost)
        for left_deep in (False, True):
            for kind in (AND, OR):
                yield question(wide_tree(kind, None, left_deep), bottom)
                for quantifier in (SOME, EVERY, SO_MANY):
                    yield question(wide_tree(kind, quantifier, left_deep), innermost)
            yield range_operations(left_deep, bottom)
        yield question(every_some_tree, innermost)
        yield alphas_as_ranges(bottom)
        yield chain_of_bindings(innermost)
    yield chain_of_targets(32)
    yield chain_of_targets(NODES - 3)


def plans():
    """As many nodes as a plan may have, each operation in turn."""
    load = [node(1, 0), node(1, 1)]
    for words in ((2, 0, 0, 2, 2, 1), (3, 0, 0, 1, 1, LESS, 9), (4, 0, 0, 1, 1, LESS, 2), (5, 0, 1, 1, 2, EQUAL, 1),
                 (6, 0, 1, 1, 2, EQUAL, 1), (7, 0, 1, 2, 1, LESS, 1, 2, EQUAL, 1), (8, 0, 1, 1, 2, 1),
                 (9, 0, 0, 0), (10, 0, 0, 0), (11, 0, 0, 0), (13, 1, 0, 1, 1)):
        yield [word for each in load + [node(*words)] * (PLAN_NODES - 2) for word in each]


if __name__ == "__main__":
    catalogue, tables = catalogue_of(DATA), tables_of(DATA)
    for words in questions():
        for mode in (0, 1):
            print(Call("translate", (mode, PLAN_BUFFER_WORDS), (catalogue, words)).text())
            print(Call("answer", (mode, PLAN_BUFFER_WORDS, MOST_WORDS, MOST_WORDS), (catalogue, tables, words)).text())
    for words in plans():
        print(Call("run", (MOST_WORDS, MOST_WORDS), (catalogue, tables, words)).text())
