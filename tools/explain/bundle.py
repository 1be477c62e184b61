"""A bundle's text, line by line: its parts with the lines they stand on, and what is wrong with a line that the desk refused."""

import re

MOST_BYTES, MOST_TABLES, MOST_NODES, MOST_ROWS, MOST_WORDS, GREATEST = 65536, 16, 64, 16384, 16384, 4294967295
NUMBER = re.compile(r"0|[1-9][0-9]*")


class Table:
    def __init__(self, columns, rows, line):
        self.columns, self.rows, self.line, self.words = columns, rows, line, []

    def rows_left(self):
        return self.rows - len(self.words) // self.columns


class Bundle:
    """The lines that the desk took; line numbers are from 1. `before` stops in front of a line that it refused."""

    def __init__(self, text, before=None):
        self.text = text
        self.lines = text.decode("latin-1").split("\n")
        self.mode, self.tables, self.nodes, self.node_lines = None, [], [], []
        for number, line in enumerate(self.lines[:-1] if before is None else self.lines[:before - 1], 1):
            self.take(number, line)

    def take(self, number, line):
        key, _, value = line.partition("=")
        if key == "mode":
            self.mode = value
            return
        numbers = [int(word) for word in value.split(" ")]
        if key == "relation":
            self.tables.append(Table(*numbers, number))
        elif key == "row":
            self.tables[-1].words += numbers
        else:
            self.nodes.append(tuple(numbers))
            self.node_lines.append(number)

    def call_words(self):
        """What the helper plan_rows reads."""
        catalogue = [number for table in self.tables for number in (table.columns, table.rows)]
        words = [word for table in self.tables for word in table.words]
        question = [word for node in self.nodes for word in node]
        numbers = [int(self.mode == "short")]
        for part in (catalogue, words, question):
            numbers += [len(part), *part]
        return " ".join(map(str, numbers))


def wrong_line(text, place):
    """Why the desk refused the line with 12, in sentences."""
    if place == 0:
        return f"It has more than {MOST_BYTES:,} bytes, the most that a bundle may have."
    before = Bundle(text, place)
    wanted, keys = expected(before)
    if place > len(before.lines) or (place == len(before.lines) and before.lines[-1] == ""):
        return f"The text ends there, and {wanted} is missing."
    line = before.lines[place - 1]
    shown = f"It reads {line[:60]!r}; {wanted} is expected there."
    return f"{shown} {fault(before, line, keys, place == len(before.lines))}".rstrip()


def expected(before):
    """What may follow the lines that were taken, in words, and as keys with their counts of numbers."""
    if before.mode is None:
        return "mode=plain or mode=short", {}
    table = before.tables[-1] if before.tables else None
    if table and table.rows_left():
        count = table.rows - table.rows_left() + 1
        return f"row {count} of the {table.rows} rows of table {len(before.tables) - 1} (line {table.line})", {"row": table.columns}
    if before.nodes:
        return ("the end of the text" if len(before.nodes) == MOST_NODES else "a node= line, or the end of the text,"), {"node": 6}
    return "a relation= or a node= line", {"relation": 2, "node": 6}


def fault(before, line, keys, unended):
    if unended:
        return "It has no line end: press Enter behind the last line."
    if line.startswith("\xef\xbb\xbf"):
        return "It starts with a byte-order mark, as some editors write: save the file without one (plain ASCII or UTF-8 without BOM)."
    if line.endswith("\r"):
        return "It ends in CR LF, as Windows writes lines; a bundle's lines end in LF alone (tr -d '\\r' takes the CR away)."
    if line == "":
        return "A blank line is no part of a bundle."
    if line != line.strip(" ") or "\t" in line or "  " in line:
        return "One space stands between two numbers, and none at either end."
    key, _, value = line.partition("=")
    if key not in keys:
        return ""
    words = value.split(" ")
    if not all(NUMBER.fullmatch(word) for word in words):
        return "Numbers are decimal digits without sign, point or leading zero."
    if len(words) != keys[key]:
        return f"It has {len(words)} numbers; {key}= needs {keys[key]} here."
    if any(len(word) > 10 or int(word) > GREATEST for word in words):
        return f"The greatest number is {GREATEST:,}."
    return passed_limit(before, key, [int(word) for word in words])


def passed_limit(before, key, numbers):
    if key == "node":
        return f"A question has {MOST_NODES} nodes at most."
    if key != "relation":
        return ""
    columns, rows = numbers
    if len(before.tables) == MOST_TABLES:
        return f"A bundle has {MOST_TABLES} tables at most."
    if not 1 <= columns <= 8:
        return "A table has 1 to 8 columns."
    if rows > MOST_ROWS:
        return f"A table has {MOST_ROWS:,} rows at most."
    words = sum(table.columns * table.rows for table in before.tables) + columns * rows
    return f"With it all tables together have {words:,} words; {MOST_WORDS:,} is the most."
