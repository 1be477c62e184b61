"""A question as one SQL query with EXISTS, NOT EXISTS and COUNT, and a database as SQLite tables."""

import sqlite3

from question import (ALPHA, AND, NOT, OR, RANGE_AND, RANGE_AND_NOT, RANGE_OR, SO_MANY, SOME, TABLE,
                      WITH_ATTRIBUTE, WITH_CONSTANT, bindings, targets)

OPERATOR = {1: "=", 2: "<>", 3: "<", 4: "<=", 5: ">", 6: ">="}
SET_OPERATION = {RANGE_OR: "UNION", RANGE_AND: "INTERSECT", RANGE_AND_NOT: "EXCEPT"}


def column_names(width):
    return [f"c{i}" for i in range(1, width + 1)]


class Query:
    """Each range is a SELECT whose columns are named c1, c2, ...; variable 7 is the alias v7."""

    def __init__(self, nodes, table_columns):
        self.nodes, self.table_columns = nodes, table_columns
        self.text, self.width = self.alpha(len(nodes) - 1)

    def range(self, number):
        """(SELECT text, width)"""
        kind, a, b = self.nodes[number][:3]
        if kind == TABLE:
            width = self.table_columns[a]
            return f"SELECT {', '.join(column_names(width))} FROM t{a}", width
        if kind == ALPHA:
            return self.alpha(number)
        (left, width), (right, _) = self.range(a - 1), self.range(b - 1)
        return f"SELECT * FROM ({left}) {SET_OPERATION[kind]} SELECT * FROM ({right})", width

    def alpha(self, number):
        widths, sources = {}, []
        for _, var, range_number in bindings(self.nodes, number):
            select, widths[var] = self.range(range_number)
            sources.append(f"({select}) AS v{var}")
        wanted = []
        for _, var, attr in targets(self.nodes, number):
            wanted += [f"v{var}.c{attr}"] if attr else [f"v{var}.{name}" for name in column_names(widths[var])]
        named = ", ".join(f"{value} AS {name}" for value, name in zip(wanted, column_names(len(wanted))))
        condition = self.nodes[number][3]
        where = f" WHERE {self.condition(condition - 1)}" if condition else ""
        return f"SELECT DISTINCT {named} FROM {', '.join(sources)}{where}", len(wanted)

    def condition(self, number):
        kind, a, b, c, d, e = self.nodes[number]
        if kind == WITH_CONSTANT:
            return f"v{a}.c{b} {OPERATOR[c]} {d}"
        if kind == WITH_ATTRIBUTE:
            return f"v{a}.c{b} {OPERATOR[c]} v{d}.c{e}"
        if kind in (AND, OR):
            word = "AND" if kind == AND else "OR"
            return f"({self.condition(a - 1)} {word} {self.condition(b - 1)})"
        if kind == NOT:
            return f"NOT ({self.condition(a - 1)})"
        if kind == SO_MANY:
            rows = f"SELECT DISTINCT * FROM ({self.range(b - 1)[0]})"
            return f"(SELECT COUNT(*) FROM ({rows}) AS v{a} WHERE {self.condition(c - 1)}) >= {d}"
        source = f"SELECT 1 FROM ({self.range(b - 1)[0]}) AS v{a} WHERE"
        if kind == SOME:
            return f"EXISTS ({source} {self.condition(c - 1)})"
        return f"NOT EXISTS ({source} NOT ({self.condition(c - 1)}))"


def open_database(columns, rows, words):
    """An SQLite database in memory with the lent tables, repeated rows and all."""
    connection = sqlite3.connect(":memory:", isolation_level=None)
    connection.execute("PRAGMA journal_mode=OFF")
    start = 0
    for number, (width, count) in enumerate(zip(columns, rows)):
        connection.execute(f"CREATE TABLE t{number} ({', '.join(name + ' INTEGER' for name in column_names(width))})")
        end = start + width * count
        stored = (words[i:i + width] for i in range(start, end, width))
        connection.executemany(f"INSERT INTO t{number} VALUES ({', '.join('?' * width)})", stored)
        start = end
    return connection
