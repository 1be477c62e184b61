#!/usr/bin/env python3
"""Compares the judge itself with files of call lines, and with folders of bundles and listings. Needs no desk.

    check_vectors.py FILE-OR-FOLDER...
"""

import pathlib
import sys

from bundle import listing
from calls import read_call


def check_calls(path):
    for number, line in enumerate(path.read_text().splitlines(), 1):
        call, _, outcome = line.partition(" =>")
        yield f"{path.name}:{number}", read_call(call).outcome() == outcome.strip()


def check_bundles(folder):
    for bundle in sorted(folder.glob("*.bundle")):
        yield bundle.name, listing(bundle.read_bytes()) == bundle.with_suffix(".listing").read_text()


def main():
    passed, failed = 0, 0
    for argument in sys.argv[1:]:
        path = pathlib.Path(argument)
        for name, good in (check_bundles if path.is_dir() else check_calls)(path):
            passed += good
            failed += not good
            if not good:
                print(f"FAILED: {name}")
    print(f"{passed} passed, {failed} failed")
    return 0 if passed and not failed else 1


if __name__ == "__main__":
    sys.exit(main())
