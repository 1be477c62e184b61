"""What the judge knows of an accepted question, and its check of demand 3 on itself: both plans give exactly the rows
of the question's own meaning, and the shortened one has no more heavy operations.
"""

from collections import Counter

from catalogue import pairs_of, tables_of
from meaning import Meaning
from plan import MOST_NODES, TALLY, heavy_count, plan_words, read_plan
from question import cut_into_nodes, judge
from refusals import Refusal
from running import values_of_plan
from translation import Translation

NO_LIMIT = 10 ** 9


class Accepted:
    """In each list index 0 is plain, 1 is short."""

    def __init__(self, nodes, columns, tables):
        self.plan, self.widths, self.room, self.rules = [], [], [], Counter()
        self.rows = sorted(Meaning(nodes, tables).answer())
        for short in (False, True):
            translation = Translation(nodes, columns, short)
            values, room = values_of_plan(translation.plan, translation.widths, tables, NO_LIMIT)
            if sorted(values[-1]) != self.rows:
                raise AssertionError(f"{'short' if short else 'plain'} plan and meaning differ: {nodes}")
            if len(translation.plan) > MOST_NODES or read_plan(plan_words(translation.plan), columns)[1] != translation.widths:
                raise AssertionError(f"an illegal plan was written: {nodes}")
            self.plan.append(translation.plan)
            self.widths += translation.widths
            self.room.append(room)
            self.rules += translation.rules
        if heavy_count(self.plan[1]) > heavy_count(self.plan[0]):
            raise AssertionError(f"the short plan is heavier: {nodes}")
        self.answer_words = len(self.rows) * translation.widths[-1]
        self.tallies = tallies(translation.plan, values)

    def share_to_let_go(self):
        """Most empty answers tell little, and so do many tallies that keep all rows or none."""
        if self.tallies["keep a part"]:
            return 0.0
        return 0.7 if not self.rows else 0.3 if self.tallies else 0.0


def tallies(plan, values):
    """What the tallies of a plan keep of their left rows."""
    kept = Counter()
    for node, value in zip(plan, values):
        if node.op == TALLY:
            kept[part_kept(values[node.left], value)] += 1
    return kept


def part_kept(left, value):
    if not left:
        return "have no left row"
    if not value:
        return "keep none"
    return "keep all" if value == left else "keep a part"


def accepted_question(database, words):
    """None for a question that is refused."""
    pairs = pairs_of(database.catalogue)
    try:
        nodes = cut_into_nodes(words)
        judge(nodes, pairs)
    except Refusal:
        return None
    return Accepted(nodes, database.columns, tables_of(pairs, database.tables))


def size_of_run(database, plan):
    """Room, words of the answer, what its tallies keep; a plan that is refused has none."""
    try:
        nodes, widths = read_plan(plan, database.columns)
        tables = tables_of(pairs_of(database.catalogue), database.tables)
        values, room = values_of_plan(nodes, widths, tables, NO_LIMIT)
    except Refusal:
        return 50, 50, Counter()
    return room, len(values[-1]) * widths[-1], tallies(nodes, values)
