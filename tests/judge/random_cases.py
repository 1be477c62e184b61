#!/usr/bin/env python3
"""Random calls with the outcome that the judge expects, a line for each, in the format of the shared vectors.

    random_cases.py [--seed N] [--cases N] > LINES

For every accepted question the judge is also checked against itself (see accepted.py). A table on standard error
shows what the cases hit.
"""

import argparse
import random
import sys
from collections import Counter
from itertools import islice

from accepted import accepted_question, size_of_run
from calls import Call
from comparing import EQUAL
from plan import JOIN, LOAD, NODE_WORDS, SELECT_CONSTANT, TALLY, Node, plan_words
from question import ALPHA, MOST_NODES, SO_MANY
from random_plans import damaged_plan, make_plan_words
from random_questions import SLIPS, Database, lengthened, make_question, part_of
from refusals import GREATEST, MOST_COLUMNS, MOST_WORDS, PLAN_BUFFER_WORDS

FILLS = (0, 7, GREATEST)
MODES = (0, 0, 0, 1, 1, 1, 2, GREATEST)
CALL_NAMES = ("translate", "run", "answer", "xtranslate", "xrun", "xanswer")


def flat(nodes):
    return [word for node in nodes for word in node]


class Cases:
    def __init__(self, seed):
        self.random = random.Random(seed)
        self.counts = Counter()

    def calls(self):
        """Calls without end: a database and a question give a handful of them."""
        while True:
            slips = self.slips()
            database = Database(self.random, wide="too many columns" in slips or self.random.random() < 0.15)
            words = flat(self.any_question(database, slips))
            if self.random.random() < 0.2:
                words = self.damaged_question(words)
            accepted = accepted_question(database, words)
            if accepted and self.random.random() < accepted.share_to_let_go():
                continue
            if accepted:
                yield from self.calls_for_accepted(database, words, accepted)
            else:
                yield self.translate(database, words, self.random.choice(MODES))
                yield self.answer(database, words, 50, 50, self.random.choice(MODES))
            if self.random.random() < 0.2:
                yield self.with_bad_database(database, words)
            yield self.run_of_random_plan(database)
            if self.random.random() < 0.03:
                yield self.run_at_the_limit()

    def slips(self):
        if self.random.random() < 0.65:
            return ()
        return self.random.sample(SLIPS, self.random.choice((1, 1, 2)))

    def any_question(self, database, slips):
        question = make_question(self.random, database, slips)
        if self.random.random() < 0.02:
            question = part_of(question, self.random.randrange(len(question)))
        if question[-1][0] == ALPHA and self.random.random() < 0.06:
            question = lengthened(question, self.random.choice((MOST_NODES, MOST_NODES, MOST_NODES + 1)))
        return question

    def damaged_question(self, words):
        words = list(words)
        for _ in range(self.random.choice((1, 1, 1, 2))):
            damage = self.random.choice((self.wrong_length, self.wrong_word, self.wrong_word, self.other_reference,
                                         self.other_reference, self.loose_node))
            words = damage(words) if words else words
        return words

    def wrong_length(self, words):
        cut = self.random.choice((0, 1, 5, len(words) - 1))
        return self.random.choice((words[:cut], words + [0], words + [1, 0, 0, 0, 0, 0] * (65 - len(words) // 6)))

    def wrong_word(self, words):
        at = self.random.randrange(len(words))
        wrong = self.random.choice((0, 1, 7, 15, 16, 26, 33, 25, 32, at // 6, at // 6 + 1, at // 6 + 2, GREATEST))
        return words[:at] + [wrong] + words[at + 1:]

    def other_reference(self, words):
        """A reference moved to a node of the same kind, so that one is named twice and one not at all."""
        at = self.random.randrange(len(words))
        lower = range(at // 6)
        if not 1 <= words[at] <= len(lower):
            return words
        same = [number + 1 for number in lower if words[6 * number] == words[6 * (words[at] - 1)]]
        return words[:at] + [self.random.choice(same)] + words[at + 1:]

    def loose_node(self, words):
        return words[:-6] + [1, 0, 0, 0, 0, 0] + words[-6:]

    # Calls
    def calls_for_accepted(self, database, words, accepted):
        self.counts["accepted"] += 1
        self.counts["rows"] += bool(accepted.rows)
        self.counts["32 columns"] += max(accepted.widths) == MOST_COLUMNS
        self.counts["64 nodes"] += len(words) == 6 * MOST_NODES
        self.counts.update(accepted.rules.keys())
        self.counts["kind 16"] += SO_MANY in words[0::6]
        self.counts.update(("tallies of questions", kept) for kept in accepted.tallies)
        mode = self.random.choice(MODES)
        yield self.translate(database, words, mode)
        room, answer_words = accepted.room[mode != 0], accepted.answer_words
        yield self.answer(database, words, *self.sizes(room, answer_words), mode)
        yield self.answer(database, words, MOST_WORDS, MOST_WORDS, self.random.choice(MODES))
        if self.random.random() < 0.5:
            plan = plan_words(accepted.plan[mode != 0])
            yield self.run(database, plan, *self.sizes(room, answer_words))

    def sizes(self, room, answer_words):
        """Lengths of work and output: just enough, just too few, nothing, plenty."""
        if self.random.random() < 0.4:
            return max(room - 1, 0) if self.random.random() < 0.6 else self.random.randint(0, room), answer_words
        work = self.random.choice((room, room, room + 5, MOST_WORDS, MOST_WORDS + 9))
        output = self.random.choice((answer_words, max(answer_words - 1, 0), 0, answer_words + 3, answer_words + 3))
        return work, output

    def made(self, name, numbers, lists):
        """The call, now and then in the form that shows every buffer."""
        shown = self.random.random() < (0.03 if max(numbers) >= MOST_WORDS else 0.15)
        return Call("x" + name if shown else name, numbers, lists, self.random.choice(FILLS) if shown else 0)

    def plan_length(self):
        return self.random.choice((PLAN_BUFFER_WORDS,) * 14 + (PLAN_BUFFER_WORDS + 1, PLAN_BUFFER_WORDS - 1))

    def translate(self, database, words, mode):
        return self.made("translate", (mode, self.plan_length()), (database.catalogue, words))

    def answer(self, database, words, work, output, mode):
        lists = (database.catalogue, database.tables, words)
        return self.made("answer", (mode, self.plan_length(), work, output), lists)

    def run(self, database, plan, work, output):
        return self.made("run", (work, output), (database.catalogue, database.tables, plan))

    def run_of_random_plan(self, database):
        plan = make_plan_words(self.random, database)
        if self.random.random() < 0.4:
            plan = damaged_plan(self.random, plan)
        room, answer_words, kept = size_of_run(database, plan)
        self.counts["random plans"] += 1
        self.counts["operation 13"] += TALLY in plan[0::NODE_WORDS]
        self.counts.update(("tallies of plans", each) for each in kept)
        return self.run(database, plan, *self.sizes(room, answer_words))

    def run_at_the_limit(self):
        """A product that needs just under or just over 16,384 words, also in a work area that is longer."""
        left, right = self.random.randint(89, 91), self.random.randint(89, 91)
        plan = [Node(LOAD, 0, 0, 0, []), Node(LOAD, 1, 0, 0, []), Node(JOIN, 0, 1, 0, []),
                Node(SELECT_CONSTANT, 2, 0, 1, [1, EQUAL, left])]
        work = self.random.choice((MOST_WORDS, MOST_WORDS + 9, 20000))
        tables = list(range(left)) + list(range(right))
        name = self.random.choice(("run", "run", "run", "xrun"))
        return Call(name, (work, 40), ([1, left, 1, right], tables, plan_words(plan)), 7)

    def with_bad_database(self, database, words):
        catalogue, tables = list(database.catalogue), list(database.tables)
        damage = self.random.randrange(7)
        if damage == 0:
            catalogue = catalogue[:-1]
        elif damage == 1:
            catalogue += [1, 0] * (17 - len(catalogue) // 2)
        elif damage == 2:
            catalogue[2 * self.random.randrange(len(catalogue) // 2)] = self.random.choice((0, 9, GREATEST))
        elif damage == 3:
            catalogue[1] = self.random.choice((MOST_WORDS + 1, MOST_WORDS // catalogue[0] + 1, GREATEST))
        elif damage == 4:
            tables = tables[:-1]
        elif damage == 5:
            tables.append(0)
        else:
            catalogue, tables = [], []
        name = self.random.choice(("translate", "answer", "run"))
        if name == "translate":
            return self.made(name, (1, self.plan_length()), (catalogue, words))
        if name == "answer":
            return self.made(name, (1, self.plan_length(), 50, 50), (catalogue, tables, words))
        return self.made(name, (50, 50), (catalogue, tables, make_plan_words(self.random, database)))


PARTS = {"table": (1,), "alpha": (2,), "target": (3,), "binding": (4,), "range op": (5, 6, 7), "atom": (8, 9),
         "and/or/not": (10, 11, 12), "quantifier": (13, 14), "so many": (16,)}
KEPT = ("have no left row", "keep none", "keep a part", "keep all")
RULES = ("S1", "S2", "S3", "S4", "S5", "S6")


def table(counts):
    """What the cases hit: calls by status, questions by short rule."""
    lines = ["status      " + "".join(f"{name:>11}" for name in CALL_NAMES) + f"{'all':>11}"]
    for status in range(12):
        each = [counts[name, status] for name in CALL_NAMES]
        lines.append(f"{status:<12}" + "".join(f"{count:>11}" for count in each) + f"{sum(each):>11}")
    lines.append(f"accepted questions {counts['accepted']}: {counts['rows']} with an answer of one row or more, "
                 f"{counts['32 columns']} with a value of 32 columns, {counts['64 nodes']} of 64 nodes")
    of_questions, of_plans = (kept_rows(counts, tallies) for tallies in ("tallies of questions", "tallies of plans"))
    lines.append(f"{counts['kind 16']} of them with kind 16; their tallies {of_questions}")
    lines.append(f"random plans {counts['random plans']}, {counts['operation 13']} of them with operation 13; "
                 f"the tallies of legal ones {of_plans}")
    lines.append(f"refusal 10 with a work area of more than 16,384 words {counts['long work area']}")
    lines.append("rule    fits  with 8 atoms  missed by a 9th  missed otherwise   (accepted questions)")
    for rule in RULES:
        with_8 = counts[rule + " with 8"]
        lines.append(f"{rule:<5}{counts[rule] + with_8:>7}{with_8:>14}{counts[rule + ' missed by a 9th']:>17}"
                     f"{counts[rule + ' missed']:>18}")
    return "\n".join(lines)


def kept_rows(counts, of):
    return ", ".join(f"{kept} in {counts[of, kept]}" for kept in KEPT)


def parts_at_fault(counts):
    """Refusals 2 to 6 by the sort of node at their place."""
    lines = ["at a        " + "".join(f"{part:>11}" for part in PARTS)]
    for status in range(2, 7):
        each = (sum(counts["at", status, kind] for kind in kinds) for kinds in PARTS.values())
        lines.append(f"{status:<12}" + "".join(f"{count:>11}" for count in each))
    return "\n".join(lines)


def count_call(counts, call, results):
    status, place = results[:2]
    counts[call.name, status] += 1
    if status == 10 and call.base == "run" and call.numbers[0] > MOST_WORDS:
        counts["long work area"] += 1
    if 2 <= status <= 6:
        counts["at", status, call.lists[-1][6 * place]] += 1


def main():
    parser = argparse.ArgumentParser(description=__doc__, formatter_class=argparse.RawDescriptionHelpFormatter)
    parser.add_argument("--seed", type=int, default=1)
    parser.add_argument("--cases", type=int, default=20000)
    options = parser.parse_args()
    cases = Cases(options.seed)
    for call in islice(cases.calls(), options.cases):
        performed = call.perform()
        count_call(cases.counts, call, performed[0])
        sys.stdout.write(call.line(performed) + "\n")
    print(f"seed {options.seed}, {options.cases} cases", table(cases.counts), parts_at_fault(cases.counts), sep="\n", file=sys.stderr)


if __name__ == "__main__":
    main()
