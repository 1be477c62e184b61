"""The desk's three calls on lent buffers (lists of words), with the order of refusals and what each buffer holds after.

Each gives (status, place, nodes, heavy[, room, width, rows]) and writes its buffers as the C functions must.
"""

from catalogue import pairs_of, tables_of
from plan import heavy_count, plan_words, read_plan
from question import cut_into_nodes, judge
from refusals import MOST_WORDS, PLAN_BUFFER_WORDS, Refusal
from running import run_plan
from translation import Translation


def translate(mode, plan, catalogue, question):
    try:
        written = written_plan(mode, plan, pairs_of(catalogue), question)
    except Refusal as refusal:
        return (refusal.status, refusal.place, 0, 0)
    return (0, 0, len(written), heavy_count(written))


def run(work, output, catalogue, tables, plan):
    try:
        pairs = pairs_of(catalogue)
        return run_within(work, output, pairs, tables_of(pairs, tables), plan)
    except Refusal as refusal:
        return (refusal.status, refusal.place, 0, 0, 0, 0, 0)


def answer(mode, plan, work, output, catalogue, tables, question):
    try:
        pairs = pairs_of(catalogue)
        rows = tables_of(pairs, tables)
        written = written_plan(mode, plan, pairs, question)
        return run_within(work, output, pairs, rows, plan_words(written))
    except Refusal as refusal:
        return (refusal.status, refusal.place, 0, 0, 0, 0, 0)


def written_plan(mode, plan, pairs, question):
    """Refusals 1, 8, 2 to 6; then the plan stands at the front of its buffer."""
    nodes = cut_into_nodes(question)
    if len(plan) < PLAN_BUFFER_WORDS:
        raise Refusal(8, 0)
    judge(nodes, pairs)
    translation = Translation(nodes, [columns for columns, _ in pairs], mode != 0)
    put_in_front(plan, plan_words(translation.plan))
    return translation.plan


def run_within(work, output, pairs, tables, plan):
    """Refusals 9, 10, 11. Once running starts, all words within capacity are 0 afterwards."""
    nodes, widths = read_plan(plan, [columns for columns, _ in pairs])
    capacity = min(len(work), MOST_WORDS)
    work[:capacity] = [0] * capacity
    rows, room = run_plan(nodes, widths, tables, capacity)
    words = [word for row in rows for word in row]
    if len(words) > len(output):
        raise Refusal(11, len(nodes) - 1)
    put_in_front(output, words)
    return (0, 0, len(nodes), heavy_count(nodes), room, widths[-1], len(rows))


def put_in_front(buffer, words):
    buffer[:len(words)] = words
