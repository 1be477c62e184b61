"""What is timed, as blocks of lines for bench/compare.c: each question as the desk's call, as SQL in two forms, and the name of
its hand-written peer in bench/peers.c.

    questions.py all|quick|worst

The desk counts every value's words, loads included, against 16,384. So a question "of 4,096 words" is one whose values have about
4,096 words together: 16,384 is the fullest call there is.
"""

import math
import pathlib
import random
import sys

ROOT = pathlib.Path(__file__).parent.parent
sys.path.insert(0, str(ROOT / "tests" / "judge"))

from bundle import read_bundle  # noqa: E402
from calls import Call  # noqa: E402
from question import cut_into_nodes  # noqa: E402
from refusals import MOST_WORDS, PLAN_BUFFER_WORDS  # noqa: E402
from sql import Query  # noqa: E402

SHORT = 1
SIZES = (1024, 4096, 16384)
VALUES = 2 ** 32
ORDERS = {"random": lambda rows: random.Random(len(rows)).shuffle(rows), "ascending": list.sort,
          "descending": lambda rows: rows.sort(reverse=True)}


class Question:
    """`well` is SQL as a good engineer writes it, `indexes` the columns to index for it, `peer` a function of peers.c."""

    def __init__(self, name, nodes, tables, well=None, indexes=(), peer=None):
        self.name, self.nodes, self.tables, self.well, self.indexes, self.peer = name, nodes, tables, well, indexes, peer

    def in_order(self, order):
        for _, rows in self.tables:
            ORDERS[order](rows)
        return self

    def block(self, words, note=""):
        columns = [width for width, _ in self.tables]
        catalogue = [word for width, rows in self.tables for word in (width, len(rows))]
        data = [word for _, rows in self.tables for row in rows for word in row]
        question = [word for node in self.nodes for word in node]
        call = Call("answer", (SHORT, PLAN_BUFFER_WORDS, MOST_WORDS, MOST_WORDS), (catalogue, data, question))
        lines = [f"question {words} {self.name}", f"note {note}", f"call {call.text()}", f"literal {Query(self.nodes, columns).text}"]
        lines += [f"well {self.well}", f"peer {self.peer}"] if self.well else []
        lines += [f"index CREATE INDEX i{number} ON {index}" for number, index in enumerate(self.indexes)]
        return "\n".join(lines + ["end"])


# Questions as nodes. Variable 0 is u over table 0; x is variable 1 over table 1.

def table(relation):
    return (1, relation, 0, 0, 0, 0)


def print_all_of(range_nodes):
    """{u : RANGE(u)}, for the range that the last of `range_nodes` is."""
    last = len(range_nodes)
    return range_nodes + [(4, 0, last, 0, 0, 0), (3, 0, 0, 0, 0, 0), (2, last + 2, last + 1, 0, 0, 0)]


def operation(kind):
    return print_all_of([table(0), table(1), (kind, 1, 2, 0, 0, 0)])


SOME, EVERY, SO_MANY, AND, OR = 13, 14, 16, 10, 11
EQUAL, NOT_EQUAL, LESS, GREATER, AT_LEAST = 1, 2, 3, 5, 6


def partner(quantifier, tree, triples, negated=False, least=0):
    """{u : t0(u) : [not] QUANTIFIER t1(x) (x[i] OP u[j] TREE ...)}, a triple being (i, OP, j); `least` rows of SO_MANY"""
    nodes = [table(0), (4, 0, 1, 0, 0, 0), (3, 0, 0, 0, 0, 0), table(1)]
    condition = None
    for mine, operator, other in triples:
        nodes.append((9, 1, mine, operator, 0, other))
        if condition:
            nodes.append((tree, condition, len(nodes), 0, 0, 0))
        condition = len(nodes)
    nodes.append((quantifier, 1, 4, condition, least, 0))
    if negated:
        nodes.append((12, len(nodes), 0, 0, 0, 0))
    return nodes + [(2, 3, 2, len(nodes), 0, 0)]


PROJECT = [table(0), (4, 0, 1, 0, 0, 0), (3, 0, 2, 0, 0, 0), (2, 3, 2, 0, 0, 0)]
SELECT = [table(0), (4, 0, 1, 0, 0, 0), (3, 0, 0, 0, 0, 0), (8, 0, 1, LESS, VALUES // 2, 0), (2, 3, 2, 4, 0, 0)]
PRODUCT = [table(0), table(1), (4, 1, 2, 0, 0, 0), (4, 0, 1, 3, 0, 0), (3, 1, 0, 0, 0, 0), (3, 0, 0, 5, 0, 0), (2, 6, 4, 0, 0, 0)]
# {u, v, w : t0(u), t1(v), t2(w) : u = v and v = w}
THREE = [table(0), table(1), table(2), (4, 2, 3, 0, 0, 0), (4, 1, 2, 4, 0, 0), (4, 0, 1, 5, 0, 0), (3, 2, 0, 0, 0, 0), (3, 1, 0, 7, 0, 0),
         (3, 0, 0, 8, 0, 0), (9, 0, 1, EQUAL, 1, 1), (9, 1, 1, EQUAL, 2, 1), (AND, 10, 11, 0, 0, 0), (2, 9, 6, 12, 0, 0)]
# {u : t0(u) : every t1(y) some t2(z) (z[1] = u[1] and z[2] = y[1])}
DIVISION = [table(0), (4, 0, 1, 0, 0, 0), (3, 0, 0, 0, 0, 0), table(1), table(2), (9, 2, 1, 1, 0, 1), (9, 2, 2, 1, 1, 1),
            (AND, 6, 7, 0, 0, 0), (SOME, 2, 5, 8, 0, 0), (EVERY, 1, 4, 9, 0, 0), (2, 3, 2, 10, 0, 0)]


# Tables: a width and rows.

def one_column(values):
    return (1, [(value,) for value in values])


def rows_of(chooser, count, *limits):
    """Random rows; column i is below limits[i]."""
    return (len(limits), [tuple(chooser.randrange(limit) for limit in limits) for _ in range(count)])


def loads(words, chooser):
    read = print_all_of([table(0)])

    def question(name, rows):
        width = rows[0]
        names = ", ".join(f"c{i}" for i in range(1, width + 1))
        return Question(name, read, [rows], f"SELECT DISTINCT {names} FROM t0", [f"t0({names})"], "load")
    yield question("load, one column", rows_of(chooser, words, VALUES))
    yield question("load, one column, 1 in 8 distinct", one_column(list(chooser.sample(range(VALUES), words // 8)) * 8))
    yield question("load, one column, 1 in 64 distinct", one_column(list(chooser.sample(range(VALUES), words // 64)) * 64))
    yield question("load, two columns", rows_of(chooser, words // 2, words // 8, VALUES))
    yield question("load, eight columns", rows_of(chooser, words // 8, *[8] * 8))
    third = rows_of(chooser, words // 3, VALUES, VALUES)
    yield Question("project, second column", PROJECT, [third], "SELECT DISTINCT c2 FROM t0", ["t0(c2)"], "project")
    yield Question("select", SELECT, [rows_of(chooser, words * 3 // 5, VALUES)], f"SELECT DISTINCT c1 FROM t0 WHERE c1 < {VALUES // 2}",
                   ["t0(c1)"], "choose")


def two_sides(chooser, count, width):
    """Left rows of one column; about half of them stand in the last column of the right rows."""
    values = chooser.sample(range(VALUES), count + count // 2)
    right = values[count // 2:]
    return [one_column(values[:count]), (width, [tuple(chooser.randrange(VALUES) for _ in range(width - 1)) + (value,) for value in right])]


def equations(words, chooser):
    """One equation; the right value's column leads, or it is the second one, with room for keys or none."""
    for name, width, count in (("leading column", 1, words * 2 // 5), ("second column", 2, words * 2 // 9),
                               ("second column, area full", 2, words * 2 // 7)):
        column = f"c{width}"
        indexes = ["t0(c1)", f"t1({column})"]
        yield Question(f"semijoin, {name}", partner(SOME, AND, [(width, EQUAL, 1)]), two_sides(chooser, count, width),
                       f"SELECT DISTINCT c1 FROM t0 WHERE c1 IN (SELECT {column} FROM t1)", indexes, "semijoin")
        yield Question(f"antijoin, {name}", partner(SOME, AND, [(width, EQUAL, 1)], negated=True), two_sides(chooser, count, width),
                       f"SELECT DISTINCT c1 FROM t0 WHERE c1 NOT IN (SELECT {column} FROM t1)", indexes, "antijoin")


def mixed(words, chooser):
    """Equations with inequalities, and inequalities alone."""
    def sides(count):
        return [rows_of(chooser, count, count // 4, VALUES), rows_of(chooser, count, count // 4, VALUES)]

    def turned(tables):
        left, (width, rows) = tables
        return [left, (width, [row[::-1] for row in rows])]
    greatest = "(SELECT {0} AS k, MAX({1}) AS m FROM t1 GROUP BY {0})"
    some = "SELECT DISTINCT c1, c2 FROM t0 JOIN {0} ON k = c1 WHERE m > c2"
    every = "SELECT DISTINCT c1, c2 FROM t0 LEFT JOIN {0} ON k = c1 WHERE m IS NULL OR m < c2"
    first, second = greatest.format("c1", "c2"), greatest.format("c2", "c1")
    yield Question("equation and inequality", partner(SOME, AND, [(1, EQUAL, 1), (2, GREATER, 2)]), sides(words // 6),
                   some.format(first), ["t0(c1, c2)", "t1(c1, c2)"], "exceeded")
    yield Question("equation (second column) and inequality", partner(SOME, AND, [(2, EQUAL, 1), (1, GREATER, 2)]),
                   turned(sides(words // 8)), some.format(second), ["t0(c1, c2)", "t1(c2, c1)"], "exceeded_turned")
    yield Question("every with or", partner(EVERY, OR, [(1, NOT_EQUAL, 1), (2, LESS, 2)]), sides(words // 6),
                   every.format(first), ["t0(c1, c2)", "t1(c1, c2)"], "every")
    yield Question("inequality", partner(SOME, AND, [(1, GREATER, 1)]),
                   [rows_of(chooser, words // 3, VALUES), rows_of(chooser, words // 3, VALUES // 2)],
                   "SELECT DISTINCT c1 FROM t0 WHERE c1 < (SELECT MAX(c1) FROM t1)", ["t0(c1)", "t1(c1)"], "below_greatest")
    columns = [f"c{i}" for i in range(1, 9)]
    at_least = " AND ".join(f"t1.{c} >= t0.{c}" for c in columns)
    yield Question("eight inequalities, eight columns", partner(SOME, AND, [(i, AT_LEAST, i) for i in range(1, 9)]),
                   [rows_of(chooser, words // 24, *[VALUES] * 8), rows_of(chooser, words // 24, *[VALUES] * 8)],
                   f"SELECT DISTINCT {', '.join(columns)} FROM t0 WHERE EXISTS (SELECT 1 FROM t1 WHERE {at_least})",
                   [f"t{i}({', '.join(columns)})" for i in (0, 1)], "dominated")


def heavy(words, chooser):
    def two(count):
        values = chooser.sample(range(VALUES), count + count // 2)
        return [one_column(values[:count]), one_column(values[count // 2:])]
    indexes = ["t0(c1)", "t1(c1)"]
    for name, kind, word, count in (("union", 5, "UNION", words * 2 // 7), ("intersection", 6, "INTERSECT", words * 2 // 5),
                                    ("difference", 7, "EXCEPT", words * 2 // 5)):
        yield Question(name, operation(kind), two(count), f"SELECT c1 FROM t0 {word} SELECT c1 FROM t1", indexes, name)
    divisor = max(math.isqrt(words // 8), 2)
    groups = words // 4 // divisor
    # Every second group lacks one of its partners.
    pairs = [(g, d) for g in range(groups) for d in range(divisor) if g % 2 or d != divisor * 3 // 4]
    yield Question("division", DIVISION, [one_column(range(groups)), one_column(range(divisor)), (2, pairs)],
                   "SELECT DISTINCT c1 FROM t0 WHERE c1 IN (SELECT c1 FROM t2 WHERE c2 IN (SELECT c1 FROM t1) GROUP BY c1 "
                   "HAVING COUNT(DISTINCT c2) = (SELECT COUNT(DISTINCT c1) FROM t1)) OR NOT EXISTS (SELECT 1 FROM t1)",
                   ["t0(c1)", "t1(c1)", "t2(c1, c2)"], "division")
    side = math.isqrt(words // 2) - 2
    yield Question("product", PRODUCT, [one_column(range(side)), one_column(range(side))],
                   "SELECT DISTINCT t0.c1, t1.c1 FROM t0, t1", indexes, "product")
    side = int((words / 4) ** (1 / 3))
    yield Question("three bindings", THREE, [one_column(chooser.sample(range(side * 2), side)) for _ in range(3)],
                   "SELECT DISTINCT t0.c1, t1.c1, t2.c1 FROM t0, t1, t2 WHERE t0.c1 = t1.c1 AND t1.c1 = t2.c1",
                   indexes + ["t2(c1)"], "three")
    side = math.isqrt(words // 3) - 2
    yield Question("at least three", partner(SO_MANY, AND, [(1, EQUAL, 1)], least=3), [one_column(range(side)), rows_of(chooser, side, side // 3, VALUES)],
                   "SELECT DISTINCT c1 FROM t0 WHERE c1 IN (SELECT c1 FROM (SELECT DISTINCT c1, c2 FROM t1) GROUP BY c1 HAVING COUNT(*) >= 3)",
                   ["t0(c1)", "t1(c1, c2)"], "at_least_three")


def questions(words):
    chooser = random.Random(words)
    for family in (loads, equations, mixed, heavy):
        yield from family(words, chooser)


def worst(words):
    """Eight triples that no pair of rows meets, with the work area full of both tables and no row to give out. First the most pairs: one
    column, seven triples that hold and a last one that does not. Then the same with a decoy row that meets the last one alone, so that
    no least or greatest value decides. Then right columns behind the first, by which two or three triples fail in turn."""
    half, quarter = words // 2, words // 4
    left, right = range(1, half + 1), range(half + 1, words + 1)
    holds = (1, GREATER, 1)
    one = partner(SOME, AND, [holds] * 7 + [(1, LESS, 1)])
    yield Question("eight triples, one column", one, [one_column(left), one_column(right)])
    yield Question("eight triples, one column, a decoy", one, [one_column(left), one_column([0, *right[1:]])])
    two = [(value, (value % 2) * (VALUES - 1)) for value in right[:quarter]]
    yield Question("eight triples, two right columns, two fail in turn",
                   partner(SOME, AND, [holds] * 6 + [(2, LESS, 1), (2, GREATER, 1)]), [one_column(left), (2, two)])
    three = [(value, *((value % 3 == i) * (VALUES - 1) for i in range(3))) for value in right[:quarter // 2]]
    yield Question("eight triples, four right columns, three fail in turn",
                   partner(SOME, AND, [holds] * 5 + [(2, LESS, 1), (3, LESS, 1), (4, LESS, 1)]), [one_column(left), (4, three)])


def examples(words, share):
    """The example questions on random tables. One row in `share` is distinct, because of the desk's room."""
    for path in sorted((ROOT / "examples").glob("*-short.bundle")):
        bundle = read_bundle(path.read_bytes())
        nodes = cut_into_nodes(bundle.question)
        columns, stored = bundle.catalogue[0::2], bundle.catalogue[1::2]
        # A table that is empty in the example stays so: that is its point.
        read = {node[1] for node in nodes if node[0] == 1 and stored[node[1]]}
        chooser = random.Random(words)
        tables = [(width, random_rows(chooser, width, words // len(read) // width if number in read else 0, share))
                  for number, width in enumerate(columns)]
        yield Question(path.name.removesuffix("-short.bundle"), nodes, tables)


def random_rows(chooser, width, rows, share):
    distinct = max(rows // share, 1)
    values = max(distinct // 2, 2)
    made = [tuple(chooser.randint(1, values) for _ in range(width)) for _ in range(distinct)]
    return [made[i % distinct] for i in range(rows)]


def blocks(sizes, with_more):
    yield "section Rows in random order"
    for words in sizes:
        yield from (question.in_order("random").block(words) for question in questions(words))
    if not with_more:
        return
    yield "section Rows in other orders"
    for order in ("ascending", "descending"):
        for words in sizes:
            for question in questions(words):
                question.name += f", {order}"
                yield question.in_order(order).block(words)
    yield "section Example questions"
    for words in sizes:
        # The first share that the desk has room for is timed.
        for share in (1, 2, 4, 8, 16, 32, 64, 128):
            yield from (question.block(words, f" (1 in {share} distinct)") for question in examples(words, share))


def main():
    if sys.argv[1] == "worst":
        print(*(question.block(int(sys.argv[2])) for question in worst(int(sys.argv[2]))), sep="\n")
    elif sys.argv[1] == "quick":
        print(*blocks((4096,), False), sep="\n")
    else:
        print(*blocks(SIZES, True), sep="\n")


if __name__ == "__main__":
    main()
