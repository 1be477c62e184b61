#!/usr/bin/env python3
"""Runs on tables of some hundred rows in every order, each with its outcome: the sizes at which loads sort and partners are sought
by halving, which the small tables of random_cases.py don't reach. Each with ample room, just enough, and one word too little.

    large_calls.py [SEED] > LINES
"""

import random
import sys

from calls import Call
from limit_calls import catalogue_of, node, tables_of
from refusals import GREATEST, MOST_WORDS

ORDERS = ("random", "ascending", "descending", "nearly ascending")
OPERATORS = range(1, 7)


def table(chosen, width, rows, values, order):
    made = [tuple(chosen.randrange(values) for _ in range(width)) for _ in range(rows)]
    if order != "random":
        made.sort(reverse=order == "descending")
    if order == "nearly ascending":
        for _ in range(3):
            made.insert(chosen.randrange(rows), made.pop(chosen.randrange(rows)))
    return width, made


def triples(chosen, left, right, count):
    """With an equation in front more often than not, as questions have."""
    made = []
    for _ in range(count):
        operator = 1 if chosen.random() < 0.5 else chosen.choice(OPERATORS)
        made += [chosen.randint(1, left), operator, chosen.randint(1, right)]
    return made


def tally(chosen, data):
    """Of a number that some left row just reaches, or just misses; or that none reaches."""
    (width, left), (_, right) = data
    begin = chosen.choice(left)
    begun = len({row for row in right if row[:width] == begin})
    reached = max(begun, 1)
    return node(13, 0, 1, 1, chosen.choice((reached, reached, reached, begun + 1, GREATEST)))


def operation(chosen, op, data):
    """A node on the values of nodes 0 and 1."""
    left, right = data[0][0], data[1][0]
    if op == 13:
        return tally(chosen, data)
    if op == 2:
        columns = [chosen.randint(1, left) for _ in range(chosen.randint(1, 3))]
        return node(2, 0, 0, len(columns), *columns)
    if op in (5, 6, 7):
        count = chosen.randint(1, 3)
        return node(op, 0, 1, count, *triples(chosen, left, right, count))
    if op == 8:
        return node(8, 0, 1, 1, chosen.randint(1, left), chosen.randint(1, right))
    return node(op, 0, 1, 0)


def database(chosen, op):
    """Two tables, of one width where the operation wants it; a division's left side has a column to spare, a tally's right
    side one or two more, and its left rows begin many right rows, some or hardly any."""
    left = chosen.randint(2 if op == 8 else 1, 3)
    right = left if op in (9, 10, 11) else chosen.randint(1, 3)
    if op == 13:
        right = left + chosen.randint(1, 2)
    rows = 12 if op == 8 else chosen.randint(260, 700)
    spread = chosen.choice((6, 60, 2000, 1 << 32)) if op != 5 else 1 << 20
    if op == 13:
        spread = chosen.choice({1: (6, 60, 400), 2: (6, 20), 3: (4, 6)}[left])
    return [table(chosen, width, count, spread, chosen.choice(ORDERS)) for width, count in ((left, chosen.randint(260, 700)), (right, rows))]


def lines(seed):
    chosen = random.Random(seed)
    for op in (1, 2, 5, 6, 7, 8, 9, 10, 11, 13):
        for _ in range(18 if op == 13 else 6):
            data = database(chosen, op)
            words = node(1, 0) + node(1, 1)
            if op != 1:
                words += operation(chosen, op, data)
            given = catalogue_of(data), tables_of(data), words
            call = Call("run", (MOST_WORDS, MOST_WORDS), given)
            performed = call.perform()
            yield call.line(performed)
            room = performed[0][4]
            for work in (room, room - 1) if performed[0][0] == 0 else ():
                yield Call("run", (work, MOST_WORDS), given).line()


if __name__ == "__main__":
    for line in lines(int(sys.argv[1]) if len(sys.argv) > 1 else 1):
        print(line)
