"""The desk's own plan of a question, as a list in words. The rows of node i are what running the first i + 1 nodes gives."""

import subprocess

NODE_WORDS = 36
MOST_ROOM = 16384
HEAVY = {5, 8, 9, 10, 11, 13}
SIGN = {1: "=", 2: "<>", 3: "<", 4: "<=", 5: ">", 6: ">="}


class Node:
    def __init__(self, words, status, rows, columns, room):
        self.op, self.left, self.right, self.count = words[:4]
        self.list = words[4:]
        self.ran, self.rows, self.columns, self.room = status == 0, rows, columns, room

    def pairs(self, unit):
        return [tuple(self.list[i:i + unit]) for i in range(0, self.count * unit, unit)]

    def meeting(self):
        """The triples of a join, or the pairs of a division, in words."""
        if self.op == 8:
            return ", ".join(f"#{a} = #{b}" for a, b in self.pairs(2))
        return ", ".join(f"#{a} {SIGN[o]} #{b}" for a, o, b in self.pairs(3))

    def words(self):
        a, b, on = self.left, self.right, self.meeting() if self.op in (5, 6, 7, 8) else ""
        if self.op in (3, 4):
            attribute, operator, operand = self.list[:3]
            on = f"#{attribute} {SIGN[operator]} {'#' if self.op == 4 else ''}{operand}"
        return {
            1: f"load        table {a}",
            2: f"project     {', '.join(f'#{n}' for n in self.list[:self.count])} of {a}",
            3: f"select      rows of {a} with {on}",
            4: f"select      rows of {a} with {on}",
            5: f"join        rows of {a} beside rows of {b} with {on}" if on else f"product     each row of {a} beside each row of {b}",
            6: f"semijoin    rows of {a} that have a row of {b} with {on}" if on else f"semijoin    all rows of {a}, if {b} has a row",
            7: f"antijoin    rows of {a} that have no row of {b} with {on}" if on else f"antijoin    all rows of {a}, if {b} has no row",
            8: f"divide      other columns of {a} that stand with every row of {b}, by {on}",
            9: f"union       rows of {a}, and of {b}",
            10: f"intersect   rows of {a} that are rows of {b}",
            11: f"difference  rows of {a} that are no rows of {b}",
            13: f"tally       rows of {a} that begin at least {self.list[0]:,} row{'s' * (self.list[0] != 1)} of {b}",
        }[self.op]


def plan_of(bundle, command):
    """The plan's nodes, from the desk's functions: `command` starts the helper plan_rows."""
    ran = subprocess.run(command, input=bundle.call_words(), capture_output=True, text=True, check=True)
    nodes = []
    for line in ran.stdout.splitlines()[1:]:
        words = [int(word) for word in line.split()]
        nodes.append(Node(words[:NODE_WORDS], *words[NODE_WORDS:]))
    return nodes


def plan_lines(nodes):
    """A line for each node: what it does, rows x columns, the words that these make, and whether it is heavy; last the words of all, the room. A
    node that has no room, and those behind it, have no size."""
    width = max(len(node.words()) for node in nodes)
    before = 0
    for number, node in enumerate(nodes):
        size = ""
        if node.ran:
            size = f"{node.rows:6,} rows x {node.columns:<2} = {node.room - before:6,}"
            before = node.room
        mark = "  heavy" if node.op in HEAVY else ""
        yield f"{number:4}  {node.words():<{width}}  {size:<25}{mark}".rstrip()
    yield f"{'room':>{width + 24}} = {before:6,} of {MOST_ROOM:,} words"
