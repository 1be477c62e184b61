#!/usr/bin/env python3
"""Compares two files of call lines: compare_lines.py EXPECTED GOT. The last line is 'N passed, M failed'."""

import sys
from itertools import zip_longest

MOST_SHOWN = 5


def main():
    passed, failed = 0, 0
    with open(sys.argv[1]) as expected_lines, open(sys.argv[2]) as got_lines:
        for number, (expected, got) in enumerate(zip_longest(expected_lines, got_lines, fillvalue="nothing"), 1):
            if expected == got:
                passed += 1
                continue
            failed += 1
            if failed <= MOST_SHOWN:
                show(number, expected, got)
    print(f"{passed} passed, {failed} failed")
    return 0 if passed and not failed else 1


def show(number, expected, got):
    call, _, outcome = expected.partition(" => ")
    print(f"FAILED: line {number}: {call[:2000]}")
    print(f"  expected {outcome.strip()[:200]}")
    print(f"  got      {got.partition(' => ')[2].strip()[:200] or got[:200]}")


if __name__ == "__main__":
    sys.exit(main())
