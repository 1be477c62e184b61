"""Bundle text (refusal 12) and the program's listing."""

import re

from calls import Call
from refusals import GREATEST, MOST_WORDS, PLAN_BUFFER_WORDS, Refusal

MOST_BYTES = 65536
NUMBER = re.compile(r"0|[1-9][0-9]*")


class Bundle:
    def __init__(self, mode):
        self.mode, self.catalogue, self.tables, self.question = mode, [], [], []

    def call(self):
        """The answer call that the program makes for this bundle, with full-size buffers."""
        return Call("answer", (self.mode, PLAN_BUFFER_WORDS, MOST_WORDS, MOST_WORDS),
                    (self.catalogue, self.tables, self.question))

    def text(self):
        lines = ["mode=" + ("short" if self.mode else "plain")]
        start = 0
        for columns, rows in zip(self.catalogue[0::2], self.catalogue[1::2]):
            lines.append(f"relation={columns} {rows}")
            for _ in range(rows):
                lines.append("row=" + " ".join(map(str, self.tables[start:start + columns])))
                start += columns
        for i in range(0, len(self.question), 6):
            lines.append("node=" + " ".join(map(str, self.question[i:i + 6])))
        return "\n".join(lines) + "\n"


class Lines:
    """The text's lines one by one. A missing line and an unended one are both wrong, at the same place."""

    def __init__(self, text):
        self.ended = text.split("\n")[:-1]
        self.whole = text.endswith("\n") or text == ""
        self.number = 0

    def at_end(self):
        return self.number == len(self.ended) and self.whole

    def peek(self):
        if self.number == len(self.ended):
            raise Refusal(12, self.number + 1)
        return self.ended[self.number]

    def wrong(self):
        return Refusal(12, self.number + 1)

    def take(self, key, count):
        """The numbers of the next line, which must be KEY= and `count` numbers."""
        line = self.peek()
        parts = line[len(key) + 1:].split(" ")
        good = line.startswith(key + "=") and len(parts) == count and all(NUMBER.fullmatch(part) for part in parts)
        if not good or any(len(part) > 10 or int(part) > GREATEST for part in parts):
            raise self.wrong()
        self.number += 1
        return [int(part) for part in parts]


def read_bundle(data):
    if len(data) > MOST_BYTES:
        raise Refusal(12, 0)
    lines = Lines(data.decode("latin-1"))
    if lines.peek() not in ("mode=plain", "mode=short"):
        raise lines.wrong()
    bundle = Bundle(int(lines.peek() == "mode=short"))
    lines.number += 1
    while lines.peek().startswith("relation="):
        read_table(lines, bundle)
    while True:
        if len(bundle.question) == 64 * 6 and not lines.at_end():
            raise lines.wrong()
        bundle.question += lines.take("node", 6)
        if lines.at_end():
            return bundle


def read_table(lines, bundle):
    if len(bundle.catalogue) == 32:
        raise lines.wrong()
    columns, rows = lines.take("relation", 2)
    if not 1 <= columns <= 8 or rows > MOST_WORDS or len(bundle.tables) + columns * rows > MOST_WORDS:
        raise Refusal(12, lines.number)
    bundle.catalogue += [columns, rows]
    for _ in range(rows):
        bundle.tables += lines.take("row", columns)


def listing(data):
    """What the program prints for a bundle's bytes."""
    try:
        call = read_bundle(data).call()
    except Refusal as refusal:
        return f"status={refusal.status}\nplace={refusal.place}\n"
    results, (_, _, output) = call.perform()
    status, place, nodes, heavy, room, width, rows = results
    if status:
        return f"status={status}\nplace={place}\n"
    lines = [f"status={status}", f"nodes={nodes}", f"heavy={heavy}", f"room={room}", f"width={width}", f"rows={rows}"]
    for i in range(rows):
        lines.append("row=" + " ".join(map(str, output[i * width:(i + 1) * width])))
    return "\n".join(lines) + "\n"
