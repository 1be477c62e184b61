"""explain BUNDLE [COMMAND...]: says what the desk's listing, on standard input, means for the bundle. COMMAND starts the helper plan_rows,
which asks the desk's own functions for the plan; only an answer and refusals 9 to 11 need it."""

import pathlib
import sys

from bundle import Bundle, wrong_line
from plan import HEAVY, MOST_ROOM, plan_lines, plan_of
from question import Question

MEANINGS = {
    1: "the question's words are no nodes, or there are 0 or over 64 of them",
    2: "a word of a node breaks its form",
    3: "each node but the last must be referred to exactly once, and the last must be an alpha",
    4: "a table node names a relation that the bundle doesn't have",
    5: "a variable is used where it isn't bound, or bound where it is bound already",
    6: "an attribute is beyond its variable's columns, two ranges differ in width, or there are more than 32 columns",
    7: "the catalogue doesn't fit the tables",
    8: "the plan buffer is under 9,216 words",
    9: "the plan isn't legal",
    10: "the values of the plan need more than 16,384 words of room",
    11: "the answer has more words than the output",
    12: "the bundle's text is wrong",
    13: "the text is longer than its buffer, or than 65,536 bytes",
    14: "the buffers for reading are too small",
}
CURES = {
    2: "docs/BUNDLE.md lists the fields of each kind.",
    3: "A table that is needed twice is written twice; the alpha that prints comes last.",
    4: "Relations count from 0, in the order of the relation= lines.",
    5: "A letter is bound by a binding, a \"some\", an \"every\" or an \"at least\", and holds inside it only.",
    6: "Look up how many numbers the relation= line gives its rows.",
    10: "Let a range pick the rows first (an alpha in a table's place), or leave out tables and rows that the question doesn't need.",
    11: "Print fewer columns, or ask for fewer rows.",
    12: "docs/BUNDLE.md lists the lines and their order.",
}
NODE_FAULTS = {2: Question.broken_form, 3: Question.wrongly_referred, 4: Question.unknown_relation, 5: Question.out_of_scope, 6: Question.too_wide}


def say(*lines):
    print(*lines, sep="\n")


def explain_plan(bundle, command):
    """The question and its plan; hands back the plan's nodes."""
    nodes = plan_of(bundle, command)
    heavy = sum(node.op in HEAVY for node in nodes)
    say("Question (a to z are the variables 0 to 25, T0 is table 0):", "  " + Question(bundle).notation(),
        f"Plan, {'shortened' if bundle.mode == 'short' else 'plain'}: {len(nodes)} nodes, {heavy} heavy (#1 is column 1; in a pair the left one is of the "
        "node named first):", *plan_lines(nodes))
    return nodes


def explain_at_plan_node(bundle, status, place, command):
    nodes = explain_plan(bundle, command)
    say(f"Place {place}: plan node {place}, {' '.join(nodes[place].words().split())}.")
    if status == 10:
        taken = max((node.room for node in nodes if node.ran), default=0)
        say(f"It needs more than the {MOST_ROOM - taken:,} words that are left." + " Try mode=short: its plan often needs less room." * (bundle.mode == "plain"))


def explain_refusal(text, listing, command):
    status, place = listing["status"], listing["place"]
    say(f"Refusal {status}: {MEANINGS[status]}.")
    if status == 12:
        say(f"Place {place}: {f'line {place} of the text' if place else 'the whole text'}. {wrong_line(text, place)}")
    elif status in NODE_FAULTS:
        question = Question(Bundle(text))
        say(f"Place {place}: {question.at(place)}: node={' '.join(map(str, question.nodes[place]))}", NODE_FAULTS[status](question, place))
    elif command:
        explain_at_plan_node(Bundle(text), status, place, command)
    if status in CURES:
        say(CURES[status])


def main():
    sys.stdout.reconfigure(encoding="utf-8")
    text = pathlib.Path(sys.argv[1]).read_bytes()
    listing = {key: int(value) for key, _, value in (line.partition("=") for line in sys.stdin.read().splitlines()) if key != "row"}
    if listing["status"] == 0:
        explain_plan(Bundle(text), sys.argv[2:])
        rows, width = listing["rows"], listing["width"]
        say(f"Answer: {rows:,} row{'s' * (rows != 1)} of {width} column{'s' * (width != 1)}.")
    else:
        explain_refusal(text, listing, sys.argv[2:])


if __name__ == "__main__":
    main()
