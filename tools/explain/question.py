"""A question's nodes: in document 000's notation (section 2.1; ∃≥3 is "at least 3"), in words, and what refusals 2 to 6 found at one of them."""

RANGES, CONDITIONS = {1, 2, 5, 6, 7}, {*range(8, 15), 16}
QUANTIFIERS = {13, 14, 16}
BINDERS = {4} | QUANTIFIERS
SIGN = {1: "=", 2: "<>", 3: "<", 4: "<=", 5: ">", 6: ">="}

# Each kind: its name, and what its words a to e are; ? marks a reference that may be 0.
KINDS = {
    1: ("table", ["relation"]),
    2: ("alpha", ["target", "binding", "condition?"]),
    3: ("target", ["variable", "attribute or 0", "target?"]),
    4: ("binding", ["variable", "range", "binding?"]),
    5: ("or of two ranges", ["range", "range"]),
    6: ("and of two ranges", ["range", "range"]),
    7: ("and-not of two ranges", ["range", "range"]),
    8: ("atom with a constant", ["variable", "attribute", "operator", "constant"]),
    9: ("atom with an attribute", ["variable", "attribute", "operator", "variable", "attribute"]),
    10: ('"and"', ["condition", "condition"]),
    11: ('"or"', ["condition", "condition"]),
    12: ('"not"', ["condition"]),
    13: ('"some"', ["variable", "range", "condition"]),
    14: ('"every"', ["variable", "range", "condition"]),
    16: ('"at least"', ["variable", "range", "condition", "least number"]),
}
SORTS = {"target": {3}, "binding": {4}, "range": RANGES, "condition": CONDITIONS}
LEAST_AND_MOST = {"variable": (0, 25), "attribute": (1, 32), "attribute or 0": (0, 32), "operator": (1, 6), "least number": (1, 2 ** 32 - 1)}


def letter(variable):
    return chr(ord("a") + variable) if variable < 26 else f"variable {variable}"


def kind_of(node):
    return KINDS[node[0]][0] if node[0] in KINDS else f"of kind {node[0]}"


def with_article(name):
    return f"an {name}" if name.lstrip('"')[0] in "aeiou" else f"a {name}"


def references(node):
    """The numbers of the nodes that a node refers to."""
    sorts = KINDS[node[0]][1] if node[0] in KINDS else []
    return [word - 1 for sort, word in zip(sorts, node[1:]) if sort.rstrip("?") in SORTS and word]


class Question:
    """Of good form and order where notation, scopes and widths are asked for: the desk's refusals 2, 3 and 4 are past."""

    def __init__(self, bundle):
        self.nodes, self.lines = bundle.nodes, bundle.node_lines
        self.columns = [table.columns for table in bundle.tables]

    def at(self, number):
        return f"node {number} (line {self.lines[number]}), {with_article(kind_of(self.nodes[number]))}"

    def notation(self):
        return self.alpha(len(self.nodes) - 1)

    def chain(self, reference):
        """The nodes of a chain of targets or bindings."""
        while reference:
            node = self.nodes[reference - 1]
            yield node
            reference = node[3]

    def alpha(self, number):
        _, first_target, first_binding, condition, _, _ = self.nodes[number]
        targets = ", ".join(f"{letter(v)}[{n}]" if n else letter(v) for _, v, n, *_ in self.chain(first_target))
        bindings = ", ".join(f"{self.range(r - 1)}({letter(v)})" for _, v, r, *_ in self.chain(first_binding))
        return f"({targets}) : {bindings}" + (f" : {self.condition(condition - 1)}" if condition else "")

    def range(self, number):
        kind, left, right = self.nodes[number][:3]
        if kind == 1:
            return f"T{left}"
        if kind == 2:
            return f"({self.alpha(number)})"
        sign = {5: "∨ ", 6: "∧ ", 7: "∧ ~"}[kind]
        return f"({self.range(left - 1)} {sign}{self.range(right - 1)})"

    def condition(self, number):
        kind, a, b, c, d, e = self.nodes[number]
        if kind in (8, 9):
            return f"{letter(a)}[{b}] {SIGN[c]} " + (str(d) if kind == 8 else f"{letter(d)}[{e}]")
        if kind == 10:
            return " ∧ ".join(self.inner(part - 1, {11}) for part in (a, b))
        if kind == 11:
            return f"{self.condition(a - 1)} ∨ {self.condition(b - 1)}"
        if kind == 12:
            return f"~{self.inner(a - 1, {8, 9, 10, 11})}"
        sign = {13: "∃", 14: "∀", 16: f"∃≥{d} "}[kind]
        return f"{sign}{self.range(b - 1)}({letter(a)}) {self.inner(c - 1, {8, 9, 10, 11, 12})}"

    def inner(self, number, bracketed):
        text = self.condition(number)
        return f"({text})" if self.nodes[number][0] in bracketed else text

    # ---- what a refusal found

    def broken_form(self, number):
        """Refusal 2: the first word that doesn't fit its field."""
        node = self.nodes[number]
        if node[0] not in KINDS:
            return f"There is no kind {node[0]}: kinds are 1 to 14 and 16."
        sorts = KINDS[node[0]][1]
        for field, word in zip("abcde", node[1:]):
            sort = sorts["abcde".index(field)] if "abcde".index(field) < len(sorts) else "unused"
            found = self.misfit(number, sort, word)
            if found:
                return f"Its word {field} is {word}: {found}."
        return ""

    def misfit(self, number, sort, word):
        if sort == "unused":
            return word and "this kind doesn't use it, so it must be 0"
        if sort in LEAST_AND_MOST:
            least, most = LEAST_AND_MOST[sort]
            return not least <= word <= most and f"{with_article(sort)} is {least} to {most:,}"
        name = sort.rstrip("?")
        if name not in SORTS or (word == 0 and sort.endswith("?")):
            return ""
        if word == 0:
            return f"{with_article(name)} is needed there, and 0 means none; a reference is a node's number plus one"
        if word > number:
            return f"it refers to node {word - 1}, which doesn't stand above node {number}; a reference is a node's number plus one"
        return self.nodes[word - 1][0] not in SORTS[name] and f"it refers to {self.at(word - 1)}, where {with_article(name)} is needed"

    def wrongly_referred(self, number):
        """Refusal 3."""
        users = [user for user, node in enumerate(self.nodes) for named in references(node) if named == number]
        if number == len(self.nodes) - 1:
            return "The last node must be an alpha: the one that says what to print."
        if not users:
            return f"No node refers to it. A node that uses it holds {number + 1}, its number plus one."
        return (f"It is referred to {len(users)} times, by node {' and node '.join(map(str, users))}: one of them means another node (a reference is a node's "
                "number plus one), or it must be written once for each.")

    def unknown_relation(self, number):
        """Refusal 4."""
        return f"It names relation {self.nodes[number][1]}; the bundle has {len(self.columns)}, counted from 0."

    def scopes(self):
        """For each node that binds or uses variables, the widths of those in scope just before it."""
        found = {}
        self.scope_of_alpha(len(self.nodes) - 1, found)
        return found

    def scope_of_alpha(self, number, found):
        _, first_target, first_binding, condition, _, _ = self.nodes[number]
        scope, width, at = {}, 0, first_binding
        while at:
            scope = self.bound(at - 1, scope, found)
            at = self.nodes[at - 1][3]
        at = first_target
        while at:
            found[at - 1] = scope
            _, variable, attribute, following, _, _ = self.nodes[at - 1]
            width += 1 if attribute else scope.get(variable, 0)
            at = following
        if condition:
            self.scope_of_condition(condition - 1, scope, found)
        return width

    def bound(self, binder, scope, found):
        found[binder] = scope
        _, variable, named, *_ = self.nodes[binder]
        return {**scope, variable: self.width(named - 1, found)}

    def width(self, number, found):
        kind, left, right = self.nodes[number][:3]
        if kind == 1:
            return self.columns[left]
        if kind == 2:
            return self.scope_of_alpha(number, found)
        self.width(right - 1, found)
        return self.width(left - 1, found)

    def scope_of_condition(self, number, scope, found):
        node = self.nodes[number]
        if node[0] in (8, 9):
            found[number] = scope
        elif node[0] in QUANTIFIERS:
            self.scope_of_condition(node[3] - 1, self.bound(number, scope, found), found)
        else:
            for part in references(node):
                self.scope_of_condition(part, scope, found)

    def uses(self, number):
        """The variables with attributes that a target or an atom uses."""
        kind, variable, attribute, _, second, second_attribute = self.nodes[number]
        return [(variable, attribute)] + ([(second, second_attribute)] if kind == 9 else [])

    def out_of_scope(self, number):
        """Refusal 5."""
        scope = self.scopes()[number]
        if self.nodes[number][0] in BINDERS:
            return f"It binds {letter(self.nodes[number][1])}, which is bound already where it stands: take another variable."
        lost = [letter(variable) for variable, _ in self.uses(number) if variable not in scope]
        there = ", ".join(map(letter, sorted(scope))) or "none"
        return f"It uses {' and '.join(lost)}; in scope there: {there}. A range sees no variable from outside it, a target only the variables of bindings."

    def too_wide(self, number):
        """Refusal 6."""
        kind, variable, named = self.nodes[number][:3]
        if kind in (5, 6, 7):
            left, right = (self.width(part, {}) for part in references(self.nodes[number]))
            return f"Its sides have {left} and {right} columns; they must have the same number."
        scope = self.scopes().get(number, {})
        if kind in BINDERS:
            columns = sum({**scope, variable: self.width(named - 1, {})}.values())
            return f"With {letter(variable)} there are {columns} columns in scope; 32 is the most."
        if kind == 2:
            return f"Its targets have {self.scope_of_alpha(number, {})} columns together; 32 is the most."
        beyond = [(v, n) for v, n in self.uses(number) if n > scope.get(v, n)]
        return " ".join(f"It uses {letter(v)}[{n}], and {letter(v)} has {scope[v]} column{'s' * (scope[v] > 1)}." for v, n in beyond)
