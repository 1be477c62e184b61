#!/usr/bin/env python3
"""Calls at the limits that documents 01 and 02 name, just inside and just outside, each with what they say of it.

    limit_calls.py > LINES

Every case states its status and place by hand, and for a short rule the heavy count that shows whether it fitted; the
judge must agree and works out the rest of the outcome.
"""

import sys

from calls import Call
from refusals import GREATEST, MOST_WORDS, PLAN_BUFFER_WORDS

SHORT, PLAIN = 1, 0
DATA = ((2, [(4, 11), (4, 12), (7, 11)]), (1, [(11,), (12,)]), (2, [(4, 1), (7, 1), (9, 2)]))
EQUAL, UNEQUAL, LESS = 1, 2, 3


def flat(lists):
    return [word for words in lists for word in words]


def catalogue_of(data):
    return flat((columns, len(rows)) for columns, rows in data)


def tables_of(data):
    return flat(flat(rows) for _, rows in data)


class Nodes:
    """A table of nodes; each adding gives the reference of the new node."""

    def __init__(self):
        self.words = []

    def add(self, kind, *fields):
        self.words.append([kind, *fields] + [0] * (5 - len(fields)))
        return len(self.words)

    def table(self, relation):
        return self.add(1, relation)

    def alpha(self, targets, bindings, condition=0):
        """targets: (variable, attribute); bindings: (variable, reference of its range)"""
        binding = target = 0
        for variable, reference in reversed(bindings):
            binding = self.add(4, variable, reference, binding)
        for variable, attribute in reversed(targets):
            target = self.add(3, variable, attribute, target)
        return self.add(2, target, binding, condition)

    def tree(self, kind, leaves):
        """and (10) or or (11) of leaves, the left ones deepest"""
        first, *others = leaves
        for leaf in others:
            first = self.add(kind, first, leaf)
        return first

    def flat(self):
        return flat(self.words)


CASES = []


def expect(call, *wanted):
    results, buffers = performed = call.perform()
    if results[:len(wanted)] != wanted:
        sys.exit(f"{call.text()}: the judge says {results[:len(wanted)]}, the documents {wanted}")
    CASES.append(call.line(performed))
    return results


def translate(words, *wanted, mode=SHORT, plan=PLAN_BUFFER_WORDS, data=DATA):
    return expect(Call("translate", (mode, plan), (catalogue_of(data), words)), *wanted)


def answer(words, *wanted, mode=SHORT, plan=PLAN_BUFFER_WORDS, work=MOST_WORDS, output=MOST_WORDS, data=DATA, name="answer"):
    return expect(Call(name, (mode, plan, work, output), (catalogue_of(data), tables_of(data), words), 7), *wanted)


def run(plan, *wanted, work=MOST_WORDS, output=MOST_WORDS, data=DATA, name="run"):
    return expect(Call(name, (work, output), (catalogue_of(data), tables_of(data), flat(plan)), 7), *wanted)


def node(operation, left=0, right=0, count=0, *words):
    return [operation, left, right, count, *words] + [0] * (32 - len(words))


def simple(relation=0, variable=0, attribute=0):
    """alpha(variable.attribute : variable in relation)"""
    nodes = Nodes()
    nodes.alpha([(variable, attribute)], [(variable, nodes.table(relation))])
    return nodes.flat()


def with_condition(make, relation=0):
    """alpha(u : u in relation : the condition that make adds)"""
    nodes = Nodes()
    condition = make(nodes)
    nodes.alpha([(20, 0)], [(20, nodes.table(relation))], condition)
    return nodes.flat()


def plans():
    load = node(1)
    # no tables, empty tables, repeats
    run([load], 9, 0, data=())
    run([load], 0, 0, 1, 0, 0, 1, 0, data=((1, []),), work=0, output=0)
    run([load], 0, 0, 1, 0, 2, 1, 2, data=((1, [(5,), (3,), (5,)]),))
    run([node(1), node(1), node(8, 0, 1, 1, 1, 1)], 0, 0, 3, 1, 10, 1, 2, data=((2, [(1, 2), (1, 3)]),))
    # room and output: exactly enough and one word less
    double = [node(1), node(9, 0, 0)]
    run(double, 0, 0, 2, 1, 12, work=12)
    run(double, 10, 1, work=11, name="xrun")
    run(double, 10, 0, work=5)
    run(double, 10, 0, work=0)
    run(double, 0, 0, 2, 1, 12, output=6)
    run(double, 11, 1, output=5, name="xrun")
    run(double, 0, 0, work=MOST_WORDS + 3, output=7, name="xrun")
    big = ((8, [(row,) * 8 for row in range(2048)]),)
    run([node(1)], 0, 0, 1, 0, MOST_WORDS, 8, 2048, data=big)
    run([node(1), node(2, 0, 0, 1, 1)], 10, 1, data=big, work=MOST_WORDS + 5)
    # 256 and 257 nodes, no node, half a node
    run([load] * 256, 0, 0, 256, data=((1, [(1,)]),))
    run([load] * 257, 9, 0, data=((1, [(1,)]),))
    run([], 9, 0)
    run([load, [0]], 9, 0)
    # every way of being illegal, at node 1 behind a legal load
    for bad in (node(0), node(12), node(1, 3), node(1, 0, 1), node(1, 0, 0, 1), node(2, 0, 0, 0), node(2, 0, 0, 33, *[1] * 32),
                node(2, 0, 0, 1, 3), node(2, 0, 0, 1, 0), node(2, 1, 0, 1, 1), node(2, 0, 1, 1, 1), node(2, 0, 0, 1, 1, 1),
                node(3, 0, 0, 1, 3, 1, 5), node(3, 0, 0, 1, 1, 0, 5), node(3, 0, 0, 1, 1, 7, 5), node(3, 0, 0, 2, 1, 1, 5), node(3, 0, 0, 0),
                node(4, 0, 0, 1, 1, 1, 3), node(4, 0, 0, 1, 1, 1, 0), node(5, 0, 1), node(5, 0, 0, 9, *[1] * 27), node(5, 0, 0, 1, 3, 1, 1),
                node(5, 0, 0, 1, 1, 1, 3), node(6, 1, 0), node(7, 0, 0, 1, 1, 7, 1), node(8, 0, 0, 0), node(8, 0, 0, 2, 1, 1, 1, 2),
                node(8, 0, 0, 2, 1, 1, 2, 1), node(8, 0, 0, 1, 1, 3), node(9, 0, 0, 1), node(10, 0, 1), node(11, 0, 0, 0, 1)):
        run([load, bad, node(99)], 9, 1)
    run([node(1), node(1, 1), node(9, 0, 1)], 9, 2)
    # 32 columns, and a join of 33
    wide = [node(1), node(5, 0, 0), node(5, 1, 1), node(5, 2, 2), node(5, 3, 3)]
    run(wide, 0, 0, 5, 4, data=((2, [(1, 2)]),))
    run(wide + [node(2, 4, 0, 1, 1), node(5, 4, 5)], 9, 6, data=((2, [(1, 2)]),))


def bounds():
    # nodes, buffer
    for nots, status in ((59, 0), (60, 1)):
        nodes = Nodes()
        condition = nodes.add(8, 20, 1, EQUAL, 4)
        for _ in range(nots):
            condition = nodes.add(12, condition)
        nodes.alpha([(20, 0)], [(20, nodes.table(0))], condition)
        translate(nodes.flat(), status, 0)
    translate([], 1, 0)
    translate(simple() + [0], 1, 0)
    translate(simple(), 0, 0, 1, 0)
    translate(simple(), 8, 0, plan=PLAN_BUFFER_WORDS - 1)
    answer(simple(), 8, 0, plan=PLAN_BUFFER_WORDS - 1, name="xanswer")
    answer(simple(), 0, 0, 1, 0, 6, 2, 3)
    answer(simple(), 7, 0, data=((9, []),))
    # columns in scope: 4 x 8 = 32, and 33; an alpha of 32 and of 33
    data = ((8, []), (1, []))
    for ranges, status, place in (([0] * 4, 0, 0), ([0] * 4 + [1], 6, 5), ([1] + [0] * 4, 6, 5)):
        nodes = Nodes()
        references = [nodes.table(relation) for relation in ranges]
        nodes.alpha([(0, 1)], list(enumerate(references)))
        translate(nodes.flat(), status, place, data=data)
    for targets, status in ((4, 0), (5, 6)):
        nodes = Nodes()
        nodes.alpha([(0, 0)] * targets, [(0, nodes.table(0))])
        translate(nodes.flat(), status, len(nodes.words) - 1 if status else 0, data=data)


def forms():
    """Every field of every kind just outside its bounds: refusal 2 at the node."""
    good = with_condition(lambda n: n.add(13, 21, n.table(1), n.add(10, n.add(9, 21, 1, EQUAL, 20, 1), n.add(8, 20, 2, LESS, 9))))
    assert translate(good, 0, 0)[0] == 0
    at = lambda words, place, field, value: words[:6 * place + field] + [value] + words[6 * place + field + 1:]
    # nodes: 0 table, 1 atom 9, 2 atom 8, 3 and, 4 some, 5 table, 6 binding, 7 target, 8 alpha
    for place, field, value in ((0, 0, 0), (0, 0, 15), (0, 2, 1), (1, 1, 26), (1, 2, 0), (1, 2, 33), (1, 3, 0), (1, 3, 7), (1, 4, 26), (1, 5, 0), (1, 5, 33),
                                (2, 1, 26), (2, 2, 0), (2, 2, 33), (2, 3, 0), (2, 3, 7), (2, 5, 1), (3, 1, 0), (3, 1, 1), (3, 2, 4), (3, 3, 1),
                                (4, 1, 26), (4, 2, 0), (4, 2, 2), (4, 3, 0), (4, 3, 5), (4, 4, 1), (6, 1, 26), (6, 2, 0), (6, 2, 3), (6, 3, 6), (6, 4, 1),
                                (7, 1, 26), (7, 2, 33), (7, 3, 7), (7, 4, 1), (8, 1, 0), (8, 1, 7), (8, 2, 0), (8, 2, 8), (8, 3, 1), (8, 4, 1)):
        translate(at(good, place, field, value), 2, place)
    translate(at(at(good, 6, 1, 26), 2, 3, 7), 2, 2)
    # references to itself, above, twice, never; the last no alpha
    translate(at(good, 3, 2, 4), 2, 3)
    translate(at(good, 3, 2, 6), 2, 3)
    translate(at(good, 3, 2, 2), 3, 1)
    translate(at(good, 8, 3, 0), 3, 4)
    translate([1, 0, 0, 0, 0, 0], 3, 0)
    # unknown relations; several faults of several classes
    translate(at(at(good, 0, 1, 3), 5, 1, 9), 4, 0)
    translate(at(good, 5, 1, 3), 4, 5)
    translate(at(at(good, 5, 1, 3), 2, 1, 3), 4, 5)
    translate(at(at(good, 2, 1, 3), 1, 2, 2), 5, 2)
    translate(at(at(good, 2, 2, 3), 1, 2, 2), 6, 1)
    translate(at(good, 7, 1, 21), 5, 7)
    translate(at(good, 7, 2, 3), 6, 7)


def scopes():
    inside = lambda variable: lambda n: n.add(13, variable, n.table(1), n.add(8, variable, 1, EQUAL, 11))
    translate(with_condition(inside(21)), 0, 0)
    translate(with_condition(inside(20)), 5, 2)
    translate(with_condition(lambda n: n.add(10, inside(21)(n), inside(21)(n))), 0, 0)
    translate(with_condition(lambda n: n.add(14, 21, n.table(1), inside(21)(n))), 5, 3)
    # a later binding of the same name: the later one of the chain, which has the lower number
    nodes = Nodes()
    nodes.alpha([(0, 1)], [(0, nodes.table(0)), (0, nodes.table(1))])
    translate(nodes.flat(), 5, 2)
    # inside a range the name is free again, and the range sees nothing of outside
    def in_range(attribute_of):
        def make(n):
            inner = n.alpha([(20, 1)], [(20, n.table(2))], n.add(8, attribute_of, 2, EQUAL, 1))
            return n.add(13, 21, inner, n.add(9, 21, 1, EQUAL, 20, 1))
        return make
    translate(with_condition(in_range(20)), 0, 0)
    translate(with_condition(in_range(21)), 5, 1)
    # sides of a range operation
    for kind in (5, 6, 7):
        nodes = Nodes()
        nodes.alpha([(0, 0)], [(0, nodes.add(kind, nodes.table(0), nodes.table(2)))])
        answer(nodes.flat(), 0, 0)
        nodes = Nodes()
        nodes.alpha([(0, 0)], [(0, nodes.add(kind, nodes.table(0), nodes.table(1)))])
        translate(nodes.flat(), 6, 2)


def short_rules():
    """The heavy count tells whether a rule fitted: products and divisions are heavy, semijoins and antijoins light."""
    link = lambda n, operator=EQUAL: n.add(9, 21, 1, operator, 20, 1)
    own = lambda n: n.add(8, 21, 1, EQUAL, 4)
    outside = lambda n: n.add(8, 20, 1, EQUAL, 4)
    some = lambda make: lambda n: n.add(13, 21, n.table(2), make(n))
    every = lambda make: lambda n: n.add(14, 21, n.table(2), make(n))
    negated = lambda make: lambda n: n.add(12, make(n))
    tree = lambda kind, *makes: lambda n: n.tree(kind, [make(n) for make in makes])
    less = lambda n: n.add(9, 20, 1, LESS, 21, 1)
    for make, heavy in (
            (some(tree(10, *[link] * 8)), 0), (some(tree(10, *[link] * 9)), 1), (some(tree(10, *[link] * 8, own, own)), 0),
            (some(tree(10, link, outside)), 1), (some(tree(11, link, own)), 2), (some(own), 0), (some(less), 0), (some(tree(10, link, negated(own))), 1),
            (negated(some(tree(10, link, own))), 0), (negated(some(tree(10, link, outside))), 2), (negated(outside), 0),
            (negated(negated(outside)), 1), (negated(tree(10, outside, outside)), 1), (negated(tree(11, outside, outside)), 2),
            (every(tree(11, *[link] * 8)), 0), (every(tree(11, *[less] * 9)), 3 + 8), (every(tree(11, link, own)), 0), (every(tree(10, link, own)), 3),
            (every(tree(11, link, outside)), 3 + 1), (every(own), 0)):
        results = translate(with_condition(make), 0, 0)
        if results[3] != heavy:
            sys.exit(f"{with_condition(make)}: heavy {results[3]}, by the rules {heavy}")
        answer(with_condition(make), 0, 0)
    # S5: every y (21) directly above some z (22)
    z_y = lambda n: n.add(9, 22, 2, EQUAL, 21, 1)
    z_u = lambda n: n.add(9, 22, 1, EQUAL, 20, 1)
    u_z = lambda n: n.add(9, 20, 1, EQUAL, 22, 1)
    y_z_less = lambda n: n.add(9, 22, 2, LESS, 21, 1)
    z_own = lambda n: n.add(8, 22, 1, EQUAL, 4)
    y_own = lambda n: n.add(8, 21, 1, EQUAL, 11)
    between = lambda n: n.add(9, 21, 1, EQUAL, 20, 1)
    def divided(*makes, above=lambda make: make):
        return lambda n: n.add(14, 21, n.table(1), above(lambda n: n.add(13, 22, n.table(0), n.tree(10, [make(n) for make in makes])))(n))
    for make, heavy in (
            (divided(z_y, z_u), 2), (divided(u_z, z_y), 2), (divided(z_y, z_u, z_own), 2), (divided(*[z_y] * 8, *[z_u] * 8), 2),
            (divided(*[z_y] * 9, z_u), 4), (divided(z_y, *[z_u] * 9), 4), (divided(z_y), 3), (divided(z_u), 3), (divided(y_z_less, z_u), 3),
            (divided(z_y, z_u, y_own), 4), (divided(z_y, z_u, between), 4), (divided(z_y, z_u, above=negated), 3)):
        results = translate(with_condition(make, 2), 0, 0)
        if results[3] != heavy:
            sys.exit(f"{with_condition(make, 2)}: heavy {results[3]}, by the rules {heavy}")
        for mode in (PLAIN, SHORT):
            answer(with_condition(make, 2), 0, 0, mode=mode)
    # S1: a project that permutes columns stays, one on all columns in order goes
    for targets, nodes_written in (([(0, 0)], 1), ([(0, 1), (0, 2)], 1), ([(0, 2), (0, 1)], 2), ([(0, 1)], 2), ([(0, 1), (0, 2), (0, 1)], 2)):
        nodes = Nodes()
        nodes.alpha(targets, [(0, nodes.table(0))])
        answer(nodes.flat(), 0, 0, nodes_written)


def tallies():
    """Operation 13 on a left value of which 4 begins two right rows, 7 (stored twice) and 9 one, 5 none."""
    data = ((1, [(9,), (4,), (5,), (7,)]), (2, [(7, 1), (4, 2), (7, 1), (9, 9), (4, 1)]))
    loads = [node(1, 0), node(1, 1)]
    for least, rows in ((1, 3), (2, 1), (3, 0), (GREATEST, 0)):
        tally = loads + [node(13, 0, 1, 1, least)]
        run(tally, 0, 0, 3, 1, 12 + rows, 1, rows, data=data, work=12 + rows, output=rows, name="xrun")
        run(tally, *((10, 2) if rows else (10, 1)), data=data, work=11 + rows, name="xrun")
        if rows:
            run(tally, 11, 2, data=data, output=rows - 1, name="xrun")
    for empty in (0, 1):
        emptied = [(columns, [] if number == empty else rows) for number, (columns, rows) in enumerate(data)]
        run(loads + [node(13, 0, 1, 1, 1)], 0, 0, 3, 1, 8 if empty == 0 else 4, 1, 0, data=emptied)
    # no wider right value, a wrong count or number, words behind the used ones, nodes that aren't lower
    for bad in (node(13, 0, 0, 1, 1), node(13, 1, 1, 1, 1), node(13, 1, 0, 1, 1), node(13, 0, 1, 0), node(13, 0, 1, 0, 1), node(13, 0, 1, 1, 0),
                node(13, 0, 1, 2, 1, 1), node(13, 0, 1, 2, 1), node(13, 0, 1, 33, 1), node(13, 0, 1, GREATEST, 1), node(13, 0, 1, 1, 1, 1),
                node(13, 0, 1, 1, *[1] + [0] * 30 + [1]), node(13, 2, 1, 1, 1), node(13, 0, 2, 1, 1), node(12, 0, 1, 1, 1), node(14, 0, 1, 1, 1)):
        run(loads + [bad, node(99)], 9, 2, data=data)
    # its width is the left's: 31 columns against 32, and 32 against 32; another 32 on top
    wide = [node(1), node(5, 0, 0), node(5, 1, 1), node(5, 2, 2), node(5, 3, 3), node(2, 4, 0, 31, *range(1, 32))]
    run(wide + [node(13, 5, 4, 1, 1)], 0, 0, 7, 5, 2 + 4 + 8 + 16 + 32 + 31 + 31, 31, 1, data=((2, [(1, 2)]),))
    run(wide + [node(13, 4, 4, 1, 1)], 9, 6, data=((2, [(1, 2)]),))
    run(wide + [node(13, 5, 4, 1, 1), node(13, 6, 5, 1, 1)], 9, 7, data=((2, [(1, 2)]),))


def so_many(variable, relation, condition, least):
    return lambda n: n.add(16, variable, n.table(relation), condition(n), least)


def so_many_answers():
    """Days u of relation 1 with at least so many rows of relation 0: 11 has two, 12 one, and all three are below 9."""
    on_day = lambda n: n.add(9, 21, 2, EQUAL, 20, 1)
    below = lambda n: n.add(8, 21, 1, LESS, 9)
    for condition, found, least, rows in ((on_day, 3, 1, 2), (on_day, 3, 2, 1), (on_day, 3, 3, 0), (on_day, 3, GREATEST, 0),
                                          (below, 6, 1, 2), (below, 6, 3, 2), (below, 6, 4, 0), (below, 6, GREATEST, 0)):
        words = with_condition(so_many(21, 0, condition, least), 1)
        for mode, nodes, room in ((SHORT, 5, 26 + 3 * found + rows), (PLAIN, 6, 26 + 3 * found + 2 * rows)):
            answer(words, 0, 0, nodes, 2, room, 1, rows, mode=mode, work=room, output=rows, name="xanswer")
            answer(words, 10, nodes - 1 if rows else 3, mode=mode, work=room - 1, name="xanswer")
            if rows:
                answer(words, 11, nodes - 1, mode=mode, output=rows - 1, name="xanswer")
    # a repeated stored row is one row of the range
    twice = ((1, [(5,)]), (1, [(3,), (3,)]))
    for least, rows in ((1, 1), (2, 0)):
        answer(with_condition(so_many(21, 1, lambda n: n.add(8, 21, 1, EQUAL, 3), least)), 0, 0, 5, 2, 1 + 1 + 2 + 2 + rows, 1, rows, data=twice)


def so_many_refusals():
    link = lambda n: n.add(9, 21, 1, EQUAL, 20, 1)
    good = with_condition(so_many(21, 1, link, 2))
    at = lambda words, place, field, value: words[:6 * place + field] + [value] + words[6 * place + field + 1:]
    # nodes: 0 table, 1 atom, 2 so many, 3 table, 4 binding, 5 target, 6 alpha
    translate(good, 0, 0)
    translate(at(at(good, 2, 1, 25), 1, 1, 25), 0, 0)
    for field, value in ((0, 13), (0, 14), (0, 15), (0, 17), (1, 26), (2, 0), (2, 2), (2, 3), (2, 4), (3, 0), (3, 1), (3, 3), (3, 4), (4, 0), (5, 1)):
        translate(at(good, 2, field, value), 2, 2)
        answer(at(good, 2, field, value), 2, 2, mode=PLAIN)
    translate(at(at(good, 2, 4, 0), 1, 3, 7), 2, 1)
    translate(at(at(good, 2, 4, 0), 6, 4, 1), 2, 2)
    translate(at(good, 6, 3, 0), 3, 2)
    translate(at(good, 0, 1, 3), 4, 0)
    translate(at(good, 1, 2, 2), 6, 1)
    translate(at(good, 5, 1, 21), 5, 5)


def so_many_scopes():
    """Its name: bound outside, bound again inside, gone behind it, side by side, free in its range; its columns."""
    link = lambda n: n.add(9, 21, 1, EQUAL, 20, 1)
    own = lambda n: n.add(8, 21, 1, EQUAL, 11)
    inside = so_many(21, 1, own, 2)
    translate(with_condition(so_many(20, 1, lambda n: n.add(8, 20, 1, EQUAL, 11), 2)), 5, 2)
    for kind, least in ((13, 0), (14, 0), (16, 1)):
        translate(with_condition(lambda n: n.add(kind, 21, n.table(1), inside(n), least)), 5, 3)
    translate(with_condition(so_many(21, 1, lambda n: n.add(13, 21, n.table(1), own(n)), 1)), 5, 3)
    translate(with_condition(lambda n: n.add(10, inside(n), own(n))), 5, 3)
    translate(with_condition(lambda n: n.add(10, own(n), inside(n))), 5, 0)
    for kind in (10, 11):
        translate(with_condition(lambda n: n.add(kind, inside(n), inside(n))), 0, 0)
        translate(with_condition(lambda n: n.add(kind, inside(n), n.add(13, 21, n.table(1), own(n)))), 0, 0)
    for variable, status, place in ((20, 0, 0), (21, 5, 1), (22, 5, 1)):
        in_range = lambda n: n.alpha([(20, 1)], [(20, n.table(2))], n.add(8, variable, 2, EQUAL, 1))
        translate(with_condition(lambda n: n.add(16, 21, in_range(n), link(n), 2)), status, place)
    # 32 columns in scope and 33, in itself and in one inside it
    for bound, ranges, status, place in (([0] * 3, [0], 0, 0), ([0] * 4, [1], 6, 6), ([0] * 3, [1, 0], 6, 6),
                                         ([0] * 2, [0, 0], 0, 0), ([0] * 2, [0, 0, 1], 6, 6)):
        nodes = Nodes()
        tables = [nodes.table(relation) for relation in bound + ranges]
        condition = nodes.add(8, 0, 1, EQUAL, 1)
        for variable in range(len(bound) + len(ranges) - 1, len(bound) - 1, -1):
            condition = nodes.add(16, variable, tables[variable], condition, 1)
        nodes.alpha([(0, 1)], list(enumerate(tables[:len(bound)])), condition)
        for mode in (PLAIN, SHORT):
            translate(nodes.flat(), status, place, mode=mode, data=((8, []), (1, [])))


def so_many_and_short_rules():
    """No short rule looks at kind 16, and all are tried below it: the heavy count tells."""
    link = lambda n: n.add(9, 21, 1, EQUAL, 20, 1)
    own = lambda n: n.add(8, 21, 1, EQUAL, 4)
    leaf = so_many(23, 1, lambda n: n.add(9, 23, 1, LESS, 21, 2), 1)
    some = lambda make, variable=21: lambda n: n.add(13, variable, n.table(2), make(n))
    every = lambda make: lambda n: n.add(14, 21, n.table(2), make(n))
    many = lambda make: so_many(21, 2, make, 1)
    negated = lambda make: lambda n: n.add(12, make(n))
    tree = lambda kind, *makes: lambda n: n.tree(kind, [make(n) for make in makes])
    z_y, z_u = (lambda n: n.add(9, 22, 2, EQUAL, 21, 1)), (lambda n: n.add(9, 22, 1, EQUAL, 20, 1))
    filtered = lambda n: n.alpha([(25, 0)], [(25, n.table(2))], n.add(13, 24, n.table(0), n.add(9, 24, 1, EQUAL, 25, 1)))
    for make, heavy in (
            (many(link), 2), (many(own), 2), (negated(many(link)), 3), (negated(negated(many(link))), 4), (many(negated(link)), 2),
            (some(leaf), 3), (some(tree(10, link, leaf)), 3), (some(tree(10, leaf, link, own)), 3), (negated(some(tree(10, link, leaf))), 4),
            (every(leaf), 3 + 2), (every(tree(11, link, leaf)), 3 + 3), (every(tree(11, leaf, own, link)), 3 + 4),
            (every(some(tree(10, z_y, z_u), 22)), 2), (every(some(tree(10, z_y, z_u, leaf), 22)), 3 + 3),
            (every(so_many(22, 2, tree(10, z_y, z_u), 1)), 3 + 2), (many(some(tree(10, z_y, z_u), 22)), 2), (many(negated(some(tree(10, z_y, z_u), 22))), 2),
            (many(so_many(22, 2, tree(10, z_y, z_u), 2)), 4), (tree(10, many(link), many(own)), 4), (tree(11, many(link), many(own)), 5),
            (lambda n: n.add(16, 21, filtered(n), link(n), 1), 2)):
        results = translate(with_condition(make), 0, 0)
        if results[3] != heavy:
            sys.exit(f"{with_condition(make)}: heavy {results[3]}, by the rules {heavy}")
        for mode in (PLAIN, SHORT):
            answer(with_condition(make), 0, 0, mode=mode)


if __name__ == "__main__":
    for part in (plans, bounds, forms, scopes, short_rules, tallies, so_many_answers, so_many_refusals, so_many_scopes,
                 so_many_and_short_rules):
        part()
    sys.stdout.write("".join(line + "\n" for line in CASES))
