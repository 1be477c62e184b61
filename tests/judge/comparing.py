"""The six operators: what they test, their opposites, and what they become when their sides change places."""

import operator

EQUAL, UNEQUAL, LESS, AT_MOST, MORE, AT_LEAST = 1, 2, 3, 4, 5, 6

TESTS = {EQUAL: operator.eq, UNEQUAL: operator.ne, LESS: operator.lt,
         AT_MOST: operator.le, MORE: operator.gt, AT_LEAST: operator.ge}
OPPOSITE = {EQUAL: UNEQUAL, UNEQUAL: EQUAL, LESS: AT_LEAST, AT_LEAST: LESS, AT_MOST: MORE, MORE: AT_MOST}
TURNED = {EQUAL: EQUAL, UNEQUAL: UNEQUAL, LESS: MORE, MORE: LESS, AT_MOST: AT_LEAST, AT_LEAST: AT_MOST}
