"""Call lines, `CALL => OUTCOME`, in the format of the shared vectors: reading a call, and working out its outcome."""

import desk

# For each call: its numbers and its lists, in the order of the line.
NUMBERS = {"translate": ("mode", "plan"), "run": ("work", "output"), "answer": ("mode", "plan", "work", "output")}
LISTS = {"translate": ("catalogue", "question"), "run": ("catalogue", "tables", "plan"),
         "answer": ("catalogue", "tables", "question")}


class Call:
    """`name` may start with x: then `fill` is what every lent buffer holds before the call."""

    def __init__(self, name, numbers, lists, fill=0):
        self.name, self.numbers, self.lists, self.fill = name, numbers, lists, fill
        self.shows_buffers = name.startswith("x")
        self.base = name.lstrip("x")

    def text(self):
        numbers = ([self.fill] if self.shows_buffers else []) + list(self.numbers)
        return self.name + spaced(numbers) + "".join(f" | {len(words)}{spaced(words)}" for words in self.lists)

    def perform(self):
        """(the result numbers, the lent buffers after the call in the order in which the line shows them)"""
        named = dict(zip(NUMBERS[self.base], self.numbers))
        buffers = {name: [self.fill] * size for name, size in named.items() if name != "mode"}
        arguments = {**named, **buffers, **dict(zip(LISTS[self.base], self.lists))}
        results = getattr(desk, self.base)(**arguments)
        return results, list(buffers.values())

    def outcome(self, performed=None):
        results, buffers = performed or self.perform()
        if self.shows_buffers:
            return spaced(results)[1:] + "".join(" |" + spaced(words) for words in buffers)
        return spaced(results)[1:] + " |" + spaced(self.words_made(results, buffers))

    def words_made(self, results, buffers):
        if self.base == "translate":
            return buffers[0][:36 * results[2]]
        return buffers[-1][:results[5] * results[6]]

    def line(self, performed=None):
        return self.text() + " => " + self.outcome(performed)


def spaced(words):
    return "".join(map(" %d".__mod__, words))


def read_call(text):
    parts = text.split("|")
    name, *numbers = parts[0].split()
    numbers = [int(number) for number in numbers]
    fill = numbers.pop(0) if name.startswith("x") else 0
    lists = []
    for part in parts[1:]:
        length, *words = [int(word) for word in part.split()]
        if length != len(words):
            raise ValueError("a list's length and its words differ")
        lists.append(words)
    return Call(name, numbers, lists, fill)
