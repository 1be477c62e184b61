#!/usr/bin/env python3
"""SQLite as a judge that nobody here wrote: random accepted questions as EXISTS, NOT EXISTS and COUNT queries.

    sqlite.py [--seed N] [--cases N] [--caller PROGRAM]

SQLite's rows are compared with the judge's meaning and, with --caller (tests/c/calls.c, built), with the rows that the
desk answers in both modes. The last line is 'N passed, M failed'.
"""

import argparse
import pathlib
import random
import subprocess
import sys

sys.path.insert(0, str(pathlib.Path(__file__).parent / "judge"))

from accepted import accepted_question  # noqa: E402
from calls import Call  # noqa: E402
from question import SO_MANY, cut_into_nodes  # noqa: E402
from random_questions import Database, make_question  # noqa: E402
from refusals import MOST_WORDS, PLAN_BUFFER_WORDS  # noqa: E402
from sql import Query, open_database  # noqa: E402


class Case:
    """An accepted random question with SQLite's rows."""

    def __init__(self, maker):
        self.database = Database(maker, wide=maker.random() < 0.15)
        self.words = [word for node in make_question(maker, self.database) for word in node]
        self.accepted = accepted_question(self.database, self.words)
        query = Query(cut_into_nodes(self.words), self.database.columns)
        connection = open_database(self.database.columns, self.database.rows, self.database.tables)
        self.rows = sorted(connection.execute(query.text).fetchall())
        connection.close()

    def call(self, mode):
        lists = (self.database.catalogue, self.database.tables, self.words)
        return Call("answer", (mode, PLAN_BUFFER_WORDS, MOST_WORDS, MOST_WORDS), lists)

    def fits(self, mode):
        """Whether the desk has the room: where it hasn't, refusal 10 or 11 is the right answer."""
        return max(self.accepted.room[mode], self.accepted.answer_words) <= MOST_WORDS


def ask_desk(caller, cases):
    """For each case the desk's rows as words, plain and short; None where the room would not do."""
    asked = [(case, mode) for case in cases for mode in (0, 1) if case.fits(mode)]
    lines = "".join(case.call(mode).text() + "\n" for case, mode in asked)
    answered = subprocess.run([caller], input=lines, capture_output=True, text=True, check=True).stdout.splitlines()
    if len(answered) != len(asked):
        raise SystemExit("the caller gave too few lines")
    for (case, mode), line in zip(asked, answered):
        results, _, words = line.partition(" => ")[2].partition(" |")
        yield case, mode, results.split()[0] == "0" and [int(word) for word in words.split()]


def main():
    parser = argparse.ArgumentParser(description=__doc__, formatter_class=argparse.RawDescriptionHelpFormatter)
    parser.add_argument("--seed", type=int, default=1)
    parser.add_argument("--cases", type=int, default=2000)
    parser.add_argument("--caller")
    options = parser.parse_args()
    maker = random.Random(options.seed)
    cases = [Case(maker) for _ in range(options.cases)]
    outcomes = [case.rows == case.accepted.rows for case in cases]
    if options.caller:
        outcomes += [words == [word for row in case.rows for word in row]
                     for case, _, words in ask_desk(options.caller, cases)]
    print(f"{len(cases)} questions, {sum(bool(case.rows) for case in cases)} with an answer of one row or more, "
          f"{sum(SO_MANY in case.words[0::6] for case in cases)} with \"at least so many\"")
    print(f"{sum(outcomes)} passed, {len(outcomes) - sum(outcomes)} failed")
    return 0 if outcomes and all(outcomes) else 1


if __name__ == "__main__":
    sys.exit(main())
