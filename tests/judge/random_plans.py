"""Random plans for the run call: every operation, unread nodes, 256 and 257 nodes, and damaged words."""

from plan import (ANTIJOIN, DIFFERENCE, DIVISION, JOIN, LOAD, MOST_NODES, NODE_WORDS, PROJECT, SELECT_CONSTANT,
                  SEMIJOIN, TALLY, UNION, Node, plan_words)
from refusals import GREATEST, MOST_COLUMNS
from random_questions import LEAST, VALUES

# No product is made of values that could give more rows than this.
MOST_ROWS = 200


class PlanMaker:
    def __init__(self, random, database):
        self.random, self.database = random, database
        self.nodes, self.widths, self.most_rows = [], [], []

    def plan(self, count):
        self.load()
        while len(self.nodes) < count:
            makers = (self.load, self.project, self.select, self.match, self.match, self.division, self.set_operation,
                      self.tally)
            (self.widest_join if self.random.random() < 0.02 else self.random.choice(makers))()
        return self.nodes

    def write(self, op, left, right, width, most_rows, groups=()):
        self.nodes.append(Node(op, left, right, len(groups), [word for group in groups for word in group]))
        self.widths.append(width)
        self.most_rows.append(most_rows)

    def any_value(self):
        return self.random.randrange(len(self.nodes))

    def column(self, value):
        return self.random.randint(1, self.widths[value])

    def load(self, relation=None):
        if relation is None:
            relation = self.random.randrange(len(self.database.columns))
        self.write(LOAD, relation, 0, self.database.columns[relation], self.database.rows[relation])

    def project(self):
        value = self.any_value()
        count = self.random.choice((1, 1, 2, 3, MOST_COLUMNS))
        self.write(PROJECT, value, 0, count, self.most_rows[value], [[self.column(value)] for _ in range(count)])

    def select(self):
        value, operator = self.any_value(), self.random.randint(1, 6)
        op = self.random.choice((SELECT_CONSTANT, SELECT_CONSTANT + 1))
        operand = self.random.choice(VALUES) if op == SELECT_CONSTANT else self.column(value)
        group = [self.column(value), operator, operand]
        self.write(op, value, 0, self.widths[value], self.most_rows[value], [group])

    def match(self):
        left, right = self.any_value(), self.any_value()
        op = self.random.choice((JOIN, SEMIJOIN, ANTIJOIN))
        width, rows = self.widths[left], self.most_rows[left]
        if op == JOIN:
            width, rows = width + self.widths[right], rows * self.most_rows[right]
        if width > MOST_COLUMNS or rows > MOST_ROWS:
            return
        count = self.random.choice((0, 0, 1, 1, 2, 8))
        triples = [[self.column(left), self.random.choice((1, 1, 2, 3, 4, 5, 6)), self.column(right)]
                   for _ in range(count)]
        self.write(op, left, right, width, rows, triples)

    def widest_join(self):
        """A join of 32 columns, or of 33, which is illegal."""
        left, right = self.any_value(), self.any_value()
        rows = self.most_rows[left] * self.most_rows[right]
        count = MOST_COLUMNS - self.widths[right] + self.random.choice((0, 1))
        if rows <= MOST_ROWS and 1 <= count <= MOST_COLUMNS:
            self.write(PROJECT, left, 0, count, self.most_rows[left], [[self.column(left)] for _ in range(count)])
            self.write(JOIN, len(self.nodes) - 1, right, count + self.widths[right], rows)

    def division(self):
        left, right = self.any_value(), self.any_value()
        most = min(self.widths[left] - 1, 8)
        if most < 1:
            return
        divided = self.random.sample(range(1, self.widths[left] + 1), self.random.choice((1, 1, most)))
        pairs = [[column, self.column(right)] for column in divided]
        self.write(DIVISION, left, right, self.widths[left] - len(pairs), self.most_rows[left], pairs)

    def set_operation(self):
        left = self.any_value()
        right = self.random.choice([v for v, width in enumerate(self.widths) if width == self.widths[left]])
        rows = self.most_rows[left] + self.most_rows[right]
        if rows <= MOST_ROWS:
            self.write(self.random.randint(UNION, DIFFERENCE), left, right, self.widths[left], rows)

    def tally(self):
        """Mostly of rows that begin others: a table and its join, or a table's first columns and the table."""
        how, least = self.random.random(), self.random.choice(LEAST)
        if self.random.random() < 0.6:
            return
        if how < 0.35:
            left, right = self.load_largest(1), self.load_largest(1)
            triple = [self.column(left), self.random.randint(1, 6), self.column(right)]
            width, rows = self.widths[left] + self.widths[right], self.most_rows[left] * self.most_rows[right]
            self.write(JOIN, left, right, width, rows, [triple])
            right = len(self.nodes) - 1
        elif how < 0.8:
            right = self.load_largest(2)
            first = range(1, self.random.randint(1, max(self.widths[right] - 1, 1)) + 1)
            self.write(PROJECT, right, 0, len(first), self.most_rows[right], [[column] for column in first])
            left = len(self.nodes) - 1
        else:
            left, right = self.any_value(), self.any_value()
        groups = self.random.choice(([], [[0]], [[least], [1]])) if how >= 0.95 else [[least]]
        self.write(TALLY, left, right, self.widths[left], self.most_rows[left], groups)

    def load_largest(self, columns):
        """The table of most rows among those of so many columns or more, or else any value."""
        wide = [r for r, width in enumerate(self.database.columns) if width >= columns]
        if not wide:
            return self.any_value()
        self.load(max(wide, key=self.database.rows.__getitem__))
        return len(self.nodes) - 1


def make_plan_words(random, database):
    count = random.choice((1, 2, 4, 6, 8, 10, 12))
    if random.random() < 0.02:
        count = random.choice((MOST_NODES, MOST_NODES + 1))
    return plan_words(PlanMaker(random, database).plan(count))


def damaged_plan(random, words):
    """One or two faults: a wrong length, or a word that most likely breaks its node."""
    words = list(words)
    for _ in range(random.choice((1, 1, 2))):
        how = random.random()
        if how < 0.1 or not words:
            words = random.choice((words[:-1], words + [0], words + [0] * NODE_WORDS, [], words[:NODE_WORDS - 1]))
        else:
            node = random.randrange((len(words) + NODE_WORDS - 1) // NODE_WORDS)
            field = random.choice((0, 1, 2, 3, 4, 5, 6, 7, 8, random.randrange(NODE_WORDS)))
            at = min(node * NODE_WORDS + field, len(words) - 1)
            words[at] = random.choice((0, 1, 2, 3, 5, 8, 9, 12, 13, 33, node, words[at] + 1, GREATEST)) % (GREATEST + 1)
    return words
