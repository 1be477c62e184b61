"""The catalogue (pairs of columns and rows) and the lent data: refusal 7, and a table as a set of rows."""

from refusals import MOST_WORDS, Refusal

MOST_PAIRS = 16


def pairs_of(catalogue):
    """The pairs (columns, rows); refusal 7 when the catalogue itself is wrong."""
    if len(catalogue) % 2 or len(catalogue) > 2 * MOST_PAIRS:
        raise Refusal(7, 0)
    pairs = list(zip(catalogue[0::2], catalogue[1::2]))
    for columns, rows in pairs:
        if not 1 <= columns <= 8 or rows > MOST_WORDS:
            raise Refusal(7, 0)
    if words_in_all(pairs) > MOST_WORDS:
        raise Refusal(7, 0)
    return pairs


def words_in_all(pairs):
    return sum(columns * rows for columns, rows in pairs)


def tables_of(pairs, data):
    """Each table as a set of rows, so that repeated stored rows count once; refusal 7 when the length is wrong."""
    if len(data) != words_in_all(pairs):
        raise Refusal(7, 0)
    tables, start = [], 0
    for columns, rows in pairs:
        end = start + columns * rows
        tables.append({tuple(data[i:i + columns]) for i in range(start, end, columns)})
        start = end
    return tables
