"""A plan's words, its legality (refusal 9), and its heavy operations."""

from refusals import MOST_COLUMNS, Refusal

LOAD, PROJECT, SELECT_CONSTANT, SELECT_ATTRIBUTE = 1, 2, 3, 4
JOIN, SEMIJOIN, ANTIJOIN, DIVISION = 5, 6, 7, 8
UNION, INTERSECTION, DIFFERENCE = 9, 10, 11
TALLY = 13

HEAVY = {JOIN, DIVISION, UNION, INTERSECTION, DIFFERENCE, TALLY}
NODE_WORDS = 36
MOST_NODES = 256
# Words of a list for each unit of its count.
UNIT = {PROJECT: 1, SELECT_CONSTANT: 3, SELECT_ATTRIBUTE: 3, JOIN: 3, SEMIJOIN: 3, ANTIJOIN: 3, DIVISION: 2, TALLY: 1}


class Node:
    """One plan node: its list holds only the words that are used."""

    def __init__(self, op, left, right, count, items):
        self.op, self.left, self.right, self.count, self.items = op, left, right, count, items

    def words(self):
        return [self.op, self.left, self.right, self.count, *self.items] + [0] * (32 - len(self.items))

    def groups(self):
        """The list cut into its triples or pairs."""
        unit = UNIT[self.op]
        return [tuple(self.items[i:i + unit]) for i in range(0, len(self.items), unit)]


def heavy_count(nodes):
    return sum(node.op in HEAVY for node in nodes)


def plan_words(nodes):
    return [word for node in nodes for word in node.words()]


def read_plan(words, columns):
    """The plan's nodes and their widths; refusal 9 at the lowest illegal node. `columns` are the tables' widths."""
    if len(words) % NODE_WORDS or not 1 <= len(words) // NODE_WORDS <= MOST_NODES:
        raise Refusal(9, 0)
    nodes, widths = [], []
    for number in range(len(words) // NODE_WORDS):
        node = cut_node(words[number * NODE_WORDS:(number + 1) * NODE_WORDS])
        width = node and width_if_legal(node, widths, columns)
        if not width:
            raise Refusal(9, number)
        nodes.append(node)
        widths.append(width)
    return nodes, widths


def cut_node(words):
    """None when an unused list word isn't 0, or the count is beyond the list."""
    op, left, right, count = words[:4]
    used = count * UNIT.get(op, 0)
    if used > 32 or any(words[4 + used:]):
        return None
    return Node(op, left, right, count, words[4:4 + used])


def width_if_legal(node, widths, columns):
    """The width of the node's value, or 0 for an illegal node. `widths` are those of the lower nodes."""
    if node.op == LOAD:
        good = node.left < len(columns) and node.right == 0 and node.count == 0
        return columns[node.left] if good else 0
    if node.left >= len(widths):
        return 0
    left = widths[node.left]
    if node.op in (PROJECT, SELECT_CONSTANT, SELECT_ATTRIBUTE):
        return width_of_one_sided(node, left) if node.right == 0 else 0
    if node.right >= len(widths):
        return 0
    return width_of_two_sided(node, left, widths[node.right])


def width_of_one_sided(node, left):
    if node.op == PROJECT:
        return node.count if 1 <= node.count and all(1 <= item <= left for item in node.items) else 0
    if node.count != 1:
        return 0
    attr, operator, operand = node.items
    operand_good = node.op == SELECT_CONSTANT or 1 <= operand <= left
    return left if 1 <= attr <= left and 1 <= operator <= 6 and operand_good else 0


def width_of_two_sided(node, left, right):
    if node.op in (JOIN, SEMIJOIN, ANTIJOIN):
        good = node.count <= 8 and all(1 <= a <= left and 1 <= o <= 6 and 1 <= b <= right for a, o, b in node.groups())
        width = left + right if node.op == JOIN else left
        return width if good and width <= MOST_COLUMNS else 0
    if node.op == DIVISION:
        pairs = node.groups() if 1 <= node.count <= 8 else []
        distinct = len({a for a, _ in pairs}) == len(pairs)
        good = pairs and distinct and all(1 <= a <= left and 1 <= b <= right for a, b in pairs)
        return left - len(pairs) if good else 0
    if node.op == TALLY:
        good = node.count == 1 and node.items[0] >= 1 and right > left
        return left if good else 0
    good = node.op in (UNION, INTERSECTION, DIFFERENCE) and node.count == 0 and left == right
    return left if good else 0
