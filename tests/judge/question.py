"""A question's node table and its judgement: refusals 1 to 6 with their places, and readers of its tree.

Written from documents 01 and 02 and the rulings alone; it shares nothing with the proved crates.
"""

from refusals import MOST_COLUMNS, Refusal

TABLE, ALPHA, TARGET, BINDING = 1, 2, 3, 4
RANGE_OR, RANGE_AND, RANGE_AND_NOT = 5, 6, 7
WITH_CONSTANT, WITH_ATTRIBUTE = 8, 9
AND, OR, NOT, SOME, EVERY = 10, 11, 12, 13, 14
SO_MANY = 16

RANGES = {TABLE, ALPHA, RANGE_OR, RANGE_AND, RANGE_AND_NOT}
CONDITIONS = {WITH_CONSTANT, WITH_ATTRIBUTE, AND, OR, NOT, SOME, EVERY, SO_MANY}
ATOMS = {WITH_CONSTANT, WITH_ATTRIBUTE}
QUANTIFIERS = {SOME, EVERY, SO_MANY}
MOST_NODES = 64


# The form of a field: (word, number of its node, kinds of all nodes) -> whether it is good.
def unused(word, node, kinds):
    return word == 0


def anything(word, node, kinds):
    return True


def variable(word, node, kinds):
    return word <= 25


def attribute(word, node, kinds):
    return 1 <= word <= 32


def attribute_or_row(word, node, kinds):
    return word <= 32


def operator(word, node, kinds):
    return 1 <= word <= 6


def at_least_one(word, node, kinds):
    return word >= 1


def reference(sort):
    return lambda word, node, kinds: 1 <= word <= node and kinds[word - 1] in sort


def maybe(form):
    return lambda word, node, kinds: word == 0 or form(word, node, kinds)


to_range, to_condition = reference(RANGES), reference(CONDITIONS)
to_target, to_binding = reference({TARGET}), reference({BINDING})
two_ranges = (to_range, to_range, unused, unused, unused)
two_conditions = (to_condition, to_condition, unused, unused, unused)
quantifier = (variable, to_range, to_condition, unused, unused)

FORMS = {
    TABLE: (anything, unused, unused, unused, unused),
    ALPHA: (to_target, to_binding, maybe(to_condition), unused, unused),
    TARGET: (variable, attribute_or_row, maybe(to_target), unused, unused),
    BINDING: (variable, to_range, maybe(to_binding), unused, unused),
    RANGE_OR: two_ranges,
    RANGE_AND: two_ranges,
    RANGE_AND_NOT: two_ranges,
    WITH_CONSTANT: (variable, attribute, operator, anything, unused),
    WITH_ATTRIBUTE: (variable, attribute, operator, variable, attribute),
    AND: two_conditions,
    OR: two_conditions,
    NOT: (to_condition, unused, unused, unused, unused),
    SOME: quantifier,
    EVERY: quantifier,
    SO_MANY: (variable, to_range, to_condition, at_least_one, unused),
}

# Which words of a node, counted from its kind at 0, are references.
REFERENCES = {
    ALPHA: (1, 2, 3), TARGET: (3,), BINDING: (2, 3), RANGE_OR: (1, 2), RANGE_AND: (1, 2), RANGE_AND_NOT: (1, 2),
    AND: (1, 2), OR: (1, 2), NOT: (1,), SOME: (2, 3), EVERY: (2, 3), SO_MANY: (2, 3),
}


def cut_into_nodes(words):
    """Refusal 1."""
    if len(words) % 6 or not 1 <= len(words) // 6 <= MOST_NODES:
        raise Refusal(1, 0)
    return [tuple(words[i:i + 6]) for i in range(0, len(words), 6)]


def judge(nodes, pairs):
    """Refusals 2 to 6, each looked for over the whole table before the next."""
    judge_forms(nodes)
    judge_references(nodes)
    for number, node in enumerate(nodes):
        if node[0] == TABLE and node[1] >= len(pairs):
            raise Refusal(4, number)
    scopes = Scopes(nodes, [columns for columns, _ in pairs])
    scopes.alpha(len(nodes) - 1)
    if scopes.scope_faults:
        raise Refusal(5, min(scopes.scope_faults))
    if scopes.width_faults:
        raise Refusal(6, min(scopes.width_faults))


def judge_forms(nodes):
    kinds = [node[0] for node in nodes]
    for number, node in enumerate(nodes):
        forms = FORMS.get(node[0])
        if forms is None or not all(form(word, number, kinds) for form, word in zip(forms, node[1:])):
            raise Refusal(2, number)


def judge_references(nodes):
    times = [0] * len(nodes)
    for node in nodes:
        for field in REFERENCES.get(node[0], ()):
            if node[field]:
                times[node[field] - 1] += 1
    last = len(nodes) - 1
    for number in range(last):
        if times[number] != 1:
            raise Refusal(3, number)
    if nodes[last][0] != ALPHA:
        raise Refusal(3, last)


def targets(nodes, alpha):
    """The chain of an alpha's targets: (node number, variable, attribute)."""
    at = nodes[alpha][1]
    while at:
        _, var, attr, following, _, _ = nodes[at - 1]
        yield at - 1, var, attr
        at = following


def bindings(nodes, alpha):
    """The chain of an alpha's bindings: (node number, variable, number of the range's node)."""
    at = nodes[alpha][2]
    while at:
        _, var, range_reference, following, _, _ = nodes[at - 1]
        yield at - 1, var, range_reference - 1
        at = following


def leaves(nodes, condition, joiner):
    """The leaves, left to right, of the tree of and (or of or) nodes that starts at a condition."""
    kind, left, right = nodes[condition][:3]
    if kind != joiner:
        return [condition]
    return leaves(nodes, left - 1, joiner) + leaves(nodes, right - 1, joiner)


class Scopes:
    """One walk that gathers every fault of refusals 5 and 6. A scope maps variables to widths.

    A fault hides no other: faulty parts still have a width (a range operation its left side's).
    """

    def __init__(self, nodes, columns):
        self.nodes, self.columns = nodes, columns
        self.scope_faults, self.width_faults = [], []

    def range(self, number):
        """A range's width. It sees no variable of its surroundings, so no scope is handed in."""
        kind, left, right = self.nodes[number][:3]
        if kind == TABLE:
            return self.columns[left]
        if kind == ALPHA:
            return self.alpha(number)
        left_width, right_width = self.range(left - 1), self.range(right - 1)
        if left_width != right_width:
            self.width_faults.append(number)
        return left_width

    def alpha(self, number):
        scope = {}
        for binding, var, range_number in bindings(self.nodes, number):
            scope = self.bind(binding, var, range_number, scope)
        width = 0
        for target, var, attr in targets(self.nodes, number):
            self.use(target, var, attr, scope)
            width += 1 if attr else scope.get(var, 0)
        if width > MOST_COLUMNS:
            self.width_faults.append(number)
        if self.nodes[number][3]:
            self.condition(self.nodes[number][3] - 1, scope)
        return width

    def bind(self, binder, var, range_number, scope):
        if var in scope:
            self.scope_faults.append(binder)
        wider = {**scope, var: self.range(range_number)}
        if sum(wider.values()) > MOST_COLUMNS:
            self.width_faults.append(binder)
        return wider

    def use(self, user, var, attr, scope):
        if var not in scope:
            self.scope_faults.append(user)
        elif attr > scope[var]:
            self.width_faults.append(user)

    def condition(self, number, scope):
        kind, a, b, c, d, e = self.nodes[number]
        if kind in ATOMS:
            self.use(number, a, b, scope)
            if kind == WITH_ATTRIBUTE:
                self.use(number, d, e, scope)
        elif kind in QUANTIFIERS:
            self.condition(c - 1, self.bind(number, a, b - 1, scope))
        else:
            self.condition(a - 1, scope)
            if kind != NOT:
                self.condition(b - 1, scope)
