"""Random databases and questions, good ones and ones with slips, small enough to be judged by brute force."""

from question import (ALPHA, AND, BINDING, EVERY, MOST_NODES, NOT, OR, RANGE_AND_NOT, RANGE_OR, REFERENCES, SO_MANY,
                      SOME, TABLE, TARGET, WITH_ATTRIBUTE, WITH_CONSTANT)
from refusals import GREATEST, MOST_COLUMNS

VALUES = (0, 0, 1, 1, 1, 2, 2, GREATEST, GREATEST - 1)
# Counts of comparing atoms: 8 just fits the short rules, 9 just doesn't.
COMPARING = (0, 1, 1, 1, 2, 2, 3, 8, 8, 9, 9)
# Least numbers of "at least so many": within reach of the small tables, and far beyond.
LEAST = (1, 1, 1, 2, 2, 2, 2, 3, 4, GREATEST)
# More choices of rows than this for the variables in scope, and no further variable is bound.
MOST_CHOICES = 40

SLIPS = ("unknown relation", "out of scope", "bound twice", "unequal widths", "attribute beyond",
         "too many columns", "wide alpha", "at least none")


class Database:
    def __init__(self, random, wide=False):
        self.random = random
        count = random.choice((1, 2, 2, 3, 3, 4, 16 if wide else 5))
        self.columns = [random.choice((8, 8, 8, 4, 1)) if wide else random.choice((1, 1, 2, 2, 3)) for _ in range(count)]
        self.rows = [random.choice((0, 1, 2, 2, 5) if wide else (0, 1, 2, 3, 3, 4, 4, 6, 8)) for _ in range(count)]
        self.catalogue = [word for pair in zip(self.columns, self.rows) for word in pair]
        # With few values many rows agree, so that conditions of many atoms still hold for some.
        self.values = random.choice((VALUES, VALUES, random.sample(VALUES, 2)))
        self.tables = []
        for columns, rows in zip(self.columns, self.rows):
            self.tables += self.table(columns, rows)

    def table(self, columns, rows):
        made = []
        for _ in range(rows):
            repeated = made and self.random.random() < 0.2
            made.append(self.random.choice(made) if repeated else self.row(columns))
        return [word for row in made for word in row]

    def row(self, columns):
        if self.random.random() < 0.3:
            return [self.random.choice(self.values)] * columns
        return [self.random.choice(self.values) for _ in range(columns)]


class Scope:
    """The variables in scope with their widths, and the most choices of rows for them."""

    def __init__(self, widths, choices):
        self.widths, self.choices = widths, choices

    def free_columns(self):
        return MOST_COLUMNS - sum(self.widths.values())


class QuestionMaker:
    """Adds nodes children first; each maker gives the reference of what it made."""

    def __init__(self, random, database, slips=()):
        self.random, self.database, self.slips = random, database, slips
        self.nodes = []

    def add(self, kind, *fields):
        self.nodes.append([kind, *fields] + [0] * (5 - len(fields)))
        return len(self.nodes)

    def chance(self, part):
        return self.random.random() < part

    def slip(self, name):
        return name in self.slips and self.chance(0.3)

    def question(self):
        self.alpha(2, None)
        return self.nodes

    # Ranges: each gives (reference, width, most rows)
    def range(self, depth, width):
        tables = [r for r, columns in enumerate(self.database.columns) if columns == width]
        if depth and self.chance(0.2):
            return self.range_operation(depth - 1, width)
        if not tables or depth and self.chance(0.2):
            return self.alpha(max(depth - 1, 0), width)
        relation = self.random.choice(tables)
        if self.slip("unknown relation"):
            relation = self.random.choice((len(self.database.columns), GREATEST))
            return self.add(TABLE, relation), width, 0
        return self.add(TABLE, relation), width, self.database.rows[relation]

    def range_operation(self, depth, width):
        left, width, left_rows = self.range(depth, width)
        other = self.any_width(MOST_COLUMNS) if self.slip("unequal widths") else width
        right, _, right_rows = self.range(depth, other)
        kind = self.random.randint(RANGE_OR, RANGE_AND_NOT)
        return self.add(kind, left, right), width, left_rows + right_rows

    def any_width(self, most):
        fitting = [columns for columns in self.database.columns if columns <= most]
        if not fitting or self.chance(0.1):
            return self.random.randint(1, min(4, most))
        return self.random.choice(fitting)

    def alpha(self, depth, width):
        scope, bound = Scope({}, 1), []
        bindings = (1, 4, 5, 6) if "too many columns" in self.slips else (1, 1, 1, 2, 2, 3, 4)
        for _ in range(self.random.choice(bindings)):
            if bound and not self.may_bind(scope):
                break
            var, reference, scope = self.bind(scope, depth, table_only=depth == 0)
            bound.append((var, reference))
        condition = self.condition(scope, depth + 1) if self.chance(0.8) else 0
        binding = 0
        for var, reference in reversed(bound):
            binding = self.add(BINDING, var, reference, binding)
        target, made_width = self.targets(scope, width)
        return self.add(ALPHA, target, binding, condition), made_width, scope.choices

    def targets(self, scope, width):
        wanted, made = [], 0
        limit = width or self.random.choice((1, 1, 2, 3, 5, MOST_COLUMNS))
        if self.slip("wide alpha"):
            limit = self.random.randint(MOST_COLUMNS + 1, MOST_COLUMNS + 8)
        while made < limit and len(wanted) < MOST_COLUMNS:
            var, attr = self.use(scope)
            row_width = scope.widths.get(var, 1)
            if self.chance(0.8 if limit >= MOST_COLUMNS else 0.3) and made + row_width <= limit:
                attr = 0
            wanted.append((var, attr))
            made += 1 if attr else row_width
        target = 0
        for var, attr in reversed(wanted):
            target = self.add(TARGET, var, attr, target)
        return target, made

    def may_bind(self, scope):
        return scope.choices <= MOST_CHOICES and (scope.free_columns() > 0 or "too many columns" in self.slips)

    def bind(self, scope, depth, table_only=False):
        free = MOST_COLUMNS if "too many columns" in self.slips else scope.free_columns()
        width = self.random.choice(self.database.columns) if table_only else MOST_COLUMNS + 1
        if width > free:
            width = self.any_width(free)
        return self.named(scope, *self.range(depth, width))

    def bind_largest(self, scope):
        """The table of most rows, so that a row may have several partners in it."""
        fitting = [r for r, columns in enumerate(self.database.columns) if columns <= scope.free_columns()]
        if not fitting:
            return self.bind(scope, 0)
        relation = max(fitting, key=self.database.rows.__getitem__)
        return self.named(scope, self.add(TABLE, relation), self.database.columns[relation], self.database.rows[relation])

    def named(self, scope, reference, width, rows):
        var = self.random.choice([v for v in range(26) if v not in scope.widths])
        if scope.widths and self.slip("bound twice"):
            var = self.random.choice(list(scope.widths))
        return var, reference, Scope({**scope.widths, var: width}, scope.choices * max(rows, 1))

    # Uses of variables: (variable, attribute)
    def use(self, scope, var=None):
        if var is None:
            var = self.random.choice(list(scope.widths))
        width = scope.widths[var]
        if self.slip("attribute beyond") and width < MOST_COLUMNS:
            return var, self.random.choice((width + 1, MOST_COLUMNS))
        attr = self.random.randint(1, width)
        if self.slip("out of scope"):
            var = self.random.randint(0, 25)
        return var, attr

    # Conditions
    def condition(self, scope, depth):
        makers = [self.atom, self.negated_atom]
        if depth:
            makers += [self.both, self.either, self.negated]
        if depth and self.may_bind(scope):
            makers += [self.quantified, self.some_match, self.no_match, self.every_match, self.every_some,
                       self.every_some, self.so_many_match, self.so_many_match]
        return self.random.choice(makers)(scope, depth - 1)

    def atom(self, scope, depth=0):
        if self.chance(0.4):
            return self.with_constant(scope, None)
        return self.with_attribute(scope, None, None)

    def with_constant(self, scope, var):
        return self.add(WITH_CONSTANT, *self.use(scope, var), self.random.randint(1, 6), self.random.choice(VALUES))

    def with_attribute(self, scope, var, other, operator=None):
        sides = [self.use(scope, var), self.use(scope, other)]
        if self.chance(0.5):
            sides.reverse()
        (a, b), (d, e) = sides
        return self.add(WITH_ATTRIBUTE, a, b, operator or self.random.choice((1, 1, 2, 3, 4, 5, 6)), d, e)

    def negated_atom(self, scope, depth):
        return self.add(NOT, self.atom(scope))

    def both(self, scope, depth):
        return self.add(AND, self.condition(scope, depth), self.condition(scope, depth))

    def either(self, scope, depth):
        return self.add(OR, self.condition(scope, depth), self.condition(scope, depth))

    def negated(self, scope, depth):
        return self.add(NOT, self.condition(scope, depth))

    def quantified(self, scope, depth):
        var, reference, inner = self.bind(scope, max(depth, 0))
        kind = self.random.choice((SOME, EVERY, SO_MANY))
        return self.quantifier(kind, var, reference, self.condition(inner, max(depth, 0)))

    def quantifier(self, kind, var, reference, condition):
        least = (self.least(),) if kind == SO_MANY else ()
        return self.add(kind, var, reference, condition, *least)

    def least(self):
        return 0 if self.slip("at least none") else self.random.choice(LEAST)

    # Shapes that the short rules look for, fitting and just not fitting
    def some_match(self, scope, depth):
        return self.match(scope, depth, SOME, AND)

    def no_match(self, scope, depth):
        return self.add(NOT, self.match(scope, depth, self.mostly(SOME), AND))

    def every_match(self, scope, depth):
        return self.match(scope, depth, EVERY, OR)

    def so_many_match(self, scope, depth):
        return self.match(scope, depth, SO_MANY, self.random.choice((AND, OR)))

    def mostly(self, kind):
        """A quantifier that a short rule looks for, or now and then the one that none looks at."""
        return SO_MANY if self.chance(0.1) else kind

    def match(self, scope, depth, quantifier, joiner):
        largest = quantifier == SO_MANY and self.chance(0.8)
        var, reference, inner = self.bind_largest(scope) if largest else self.bind(scope, max(depth, 0))
        comparing = self.random.choice(COMPARING)
        alone = self.random.choice((0, 0, 1, 2)) if comparing else self.random.choice((1, 2, 10))
        if quantifier == SO_MANY and self.chance(0.8):
            comparing, alone = 1, 0  # with more hardly a row has several partners
        outer = list(scope.widths)
        # Many random comparisons never hold at once; these do on equal values.
        operators = (1, 4, 6) if comparing > 2 and joiner == AND else (1, 1, 2, 3, 4, 5, 6)
        atoms = [self.with_attribute(inner, var, self.random.choice(outer), self.random.choice(operators))
                 for _ in range(comparing)]
        atoms += [self.alone(inner, var) for _ in range(alone)]
        if self.chance(0.15):
            atoms.append(self.misfit(scope, inner))
        return self.quantifier(quantifier, var, reference, self.tree(joiner, atoms))

    def alone(self, scope, var):
        return self.with_constant(scope, var) if self.chance(0.6) else self.with_attribute(scope, var, var)

    def misfit(self, outer, inner):
        """A leaf with which no match rule fits."""
        if self.chance(0.4) and self.may_bind(inner):
            return self.so_many(inner)
        if self.chance(0.5):
            return self.atom(outer)
        return self.add(NOT, self.atom(inner))

    def so_many(self, scope):
        var, reference, inner = self.bind_largest(scope)
        return self.quantifier(SO_MANY, var, reference, self.atom(inner))

    def every_some(self, scope, depth):
        y, y_range, with_y = self.bind(scope, max(depth, 0))
        if not self.may_bind(with_y):
            return self.add(EVERY, y, y_range, self.atom(with_y))
        z, z_range, inner = self.bind(with_y, 0)
        outer = list(scope.widths)
        if inner.widths[z] > 1 and self.chance(0.2):
            condition = self.all_columns_in_order(inner, y, z, outer)
        else:
            condition = self.tree(AND, self.division_atoms(inner, with_y, y, z, outer))
        some = self.quantifier(self.mostly(SOME), z, z_range, condition)
        return self.quantifier(self.mostly(EVERY), y, y_range, some)

    def division_atoms(self, inner, with_y, y, z, outer):
        outside, inside = self.random.choice(COMPARING), self.random.choice(COMPARING)
        if self.chance(0.7):
            outside, inside = max(outside, 1), max(inside, 1)
        atoms = [self.with_attribute(inner, z, self.random.choice(outer), 1) for _ in range(outside)]
        atoms += [self.with_attribute(inner, z, y, 1) for _ in range(inside)]
        atoms += [self.alone(inner, z) for _ in range(self.random.choice((0, 0, 1, 2)))]
        if self.chance(0.1) or not atoms:
            # on y alone, on the outside alone, or between the two
            atoms.append(self.atom(with_y))
        elif self.chance(0.15):
            # z compared by another operator than =
            atoms.append(self.with_attribute(inner, z, self.random.choice((y, *outer)), self.random.randint(2, 6)))
        elif self.chance(0.1) and self.may_bind(inner):
            atoms.append(self.so_many(inner))
        return atoms

    def all_columns_in_order(self, inner, y, z, outer):
        """Atoms that name all of z's columns in order, the outside ones first: the project before the division goes."""
        width = inner.widths[z]
        outside = self.random.randint(1, width - 1)
        others = [self.random.choice(outer) if i < outside else y for i in range(width)]
        atoms = [self.add(WITH_ATTRIBUTE, z, i, 1, *self.use(inner, other)) for i, other in enumerate(others, 1)]
        return self.joined(AND, atoms)

    def tree(self, joiner, atoms):
        self.random.shuffle(atoms)
        return self.joined(joiner, atoms)

    def joined(self, joiner, atoms):
        if len(atoms) == 1:
            return atoms[0]
        cut = self.random.randint(1, len(atoms) - 1)
        return self.add(joiner, self.joined(joiner, atoms[:cut]), self.joined(joiner, atoms[cut:]))


def make_question(random, database, slips=()):
    """A question of at most 64 nodes, in a random order that keeps references pointing down."""
    while True:
        nodes = QuestionMaker(random, database, slips).question()
        if len(nodes) <= MOST_NODES:
            return renumbered(random, nodes)


def part_of(nodes, top):
    """Only what stands below a node, and the node itself as the last."""
    kept = {top}
    for number in range(top, -1, -1):
        if number in kept:
            kept.update(children(nodes[number]))
    new_number = {number: place for place, number in enumerate(sorted(kept))}
    return [moved(nodes[number], new_number) for number in sorted(kept)]


def children(node):
    return [node[field] - 1 for field in REFERENCES.get(node[0], ()) if node[field]]


def renumbered(random, nodes):
    below = [children(node) for node in nodes]
    waiting = [len(numbers) for numbers in below]
    above = {number: parent for parent, numbers in enumerate(below) for number in numbers}
    ready = [number for number, count in enumerate(waiting) if not count]
    new_number, ordered = {}, []
    while ready:
        number = ready.pop(random.randrange(len(ready)))
        new_number[number] = len(ordered)
        ordered.append(number)
        parent = above.get(number)
        if parent is not None:
            waiting[parent] -= 1
            if not waiting[parent]:
                ready.append(parent)
    return [moved(nodes[number], new_number) for number in ordered]


def moved(node, new_number):
    node = list(node)
    for field in REFERENCES.get(node[0], ()):
        if node[field]:
            node[field] = new_number[node[field] - 1] + 1
    return node


def lengthened(nodes, count):
    """The same question with "not not" (or, for an odd rest, "not") above its condition, up to `count` nodes."""
    *others, (_, target, binding, condition, _, _) = nodes
    longer = [list(node) for node in others]
    while condition and len(longer) < count - 1:
        longer.append([NOT, condition, 0, 0, 0, 0])
        condition = len(longer)
    return longer + [[ALPHA, target, binding, condition, 0, 0]]
