"""The twelve operations on sets of rows, and running a plan within a capacity (refusal 10)."""

from comparing import TESTS
from plan import (ANTIJOIN, DIFFERENCE, DIVISION, INTERSECTION, JOIN, LOAD, PROJECT, SELECT_ATTRIBUTE,
                  SELECT_CONSTANT, SEMIJOIN, TALLY, UNION)
from refusals import Refusal


def project(rows, attributes):
    return {tuple(row[a - 1] for a in attributes) for row in rows}


def select_constant(rows, attr, operator, constant):
    test = TESTS[operator]
    return {row for row in rows if test(row[attr - 1], constant)}


def select_attribute(rows, attr, operator, other):
    test = TESTS[operator]
    return {row for row in rows if test(row[attr - 1], row[other - 1])}


def matching(triples):
    tests = [(a - 1, TESTS[o], b - 1) for a, o, b in triples]
    return lambda t, s: all(test(t[a], s[b]) for a, test, b in tests)


def join(left, right, triples):
    match = matching(triples)
    return {t + s for t in left for s in right if match(t, s)}


def semijoin(left, right, triples):
    match = matching(triples)
    return {t for t in left if any(match(t, s) for s in right)}


def division(left, right, pairs):
    """t's remaining columns, such that for each right row some left row agrees on them and equals it on the pairs."""
    divided = [a - 1 for a, _ in pairs]
    needed = {tuple(row[b - 1] for _, b in pairs) for row in right}
    had = {}
    for row in left:
        rest = tuple(value for column, value in enumerate(row) if column not in divided)
        had.setdefault(rest, set()).add(tuple(row[a] for a in divided))
    return {rest for rest, found in had.items() if needed <= found}


def tally(left, right, least):
    """The left rows that begin at least so many right rows."""
    return {t for t in left if sum(s[:len(t)] == t for s in right) >= least}


def value_of(node, values, tables):
    if node.op == LOAD:
        return tables[node.left]
    left = values[node.left]
    if node.op == PROJECT:
        return project(left, node.items)
    if node.op == SELECT_CONSTANT:
        return select_constant(left, *node.items)
    if node.op == SELECT_ATTRIBUTE:
        return select_attribute(left, *node.items)
    right = values[node.right]
    if node.op == JOIN:
        return join(left, right, node.groups())
    if node.op == SEMIJOIN:
        return semijoin(left, right, node.groups())
    if node.op == ANTIJOIN:
        return left - semijoin(left, right, node.groups())
    if node.op == DIVISION:
        return division(left, right, node.groups())
    if node.op == TALLY:
        return tally(left, right, *node.items)
    return {UNION: left | right, INTERSECTION: left & right, DIFFERENCE: left - right}[node.op]


def run_plan(nodes, widths, tables, capacity):
    """The answer's rows in ascending order, and the room used."""
    values, room = values_of_plan(nodes, widths, tables, capacity)
    return sorted(values[-1]), room


def values_of_plan(nodes, widths, tables, capacity):
    """The value of each node, and the room used."""
    values, room = [], 0
    for number, (node, width) in enumerate(zip(nodes, widths)):
        # A product's size is known before it is made: none is made only to be refused.
        if node.op == JOIN and not node.count:
            if room + len(values[node.left]) * len(values[node.right]) * width > capacity:
                raise Refusal(10, number)
        value = value_of(node, values, tables)
        room += len(value) * width
        if room > capacity:
            raise Refusal(10, number)
        values.append(value)
    return values, room
