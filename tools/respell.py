#!/usr/bin/env python3
"""Respells this repository's own definitions and lemmas as today's Rattle spells them.

usage: python3 tools/respell.py COMMIT     in a checkout of COMMIT on which the kit's port.py ran
       python3 tools/respell.py --list COMMIT     prints each old name and its new one

Words are in snake case: `rowBefore` is `row_before`. Types keep their camel case. In a lemma's name a dash joins two definitions (`length-rows_at`);
a plain word is added with an underscore (`times_least`). The names are those that COMMIT defines in specs/ and proofs/. Rewritten are the crates' .antt, .rt and .edit files,
and in README.md, docs/, tests/ and tools/ each such name that stands in backticks or has a capital inside.
"""
import re
import subprocess
import sys
from pathlib import Path

ROOT = Path(__file__).resolve().parent.parent
# A name ends at a bracket, a space or a sign of the logic.
NAME = r"[A-Za-z_][A-Za-z0-9_'\u2080-\u2089\u2032-]*"
TOKEN = re.compile(NAME)
KEYWORDS = {"abbrev", "pub", "unfoldable", "opaque", "private", "use", "module", "where", "let", "in", "data", "record", "mutual", "open", "elim", "go"}
# Words of the library that lemmas are named after.
LIBRARY = "length take drop append filter map get_or sets set sum replicate cond reverse".split()
# Plain words that are also the name of a small definition somewhere.
PLAIN = set("at in of to is on by no all end one two same".split())


def landed_files(commit):
    names = subprocess.run(["git", "-C", ROOT, "ls-tree", "-r", "--name-only", commit, "crates"], capture_output=True, text=True, check=True).stdout.split("\n")
    return [n for n in names if re.fullmatch(r"crates/\w+/(specs|proofs)/[^/]+\.antt", n)]


def function_proofs(commit):
    names = subprocess.run(["git", "-C", ROOT, "ls-tree", "-r", "--name-only", commit, "crates"], capture_output=True, text=True, check=True).stdout.split("\n")
    return [n for n in names if re.fullmatch(r"crates/\w+/proofs/.+/[^/]+\.antt", n)]


def text_at(commit, name):
    return subprocess.run(["git", "-C", ROOT, "show", f"{commit}:{name}"], capture_output=True, text=True, check=True).stdout


def definitions(text):
    """The names that a file defines: types, definitions, lemmas, fields and constructors, also those of a `where`."""
    for line in text.split("\n"):
        line = line.split("--")[0]
        if re.match(r"\s*(use|module)\b", line):
            continue
        found = re.match(r"\s*(?:abbrev |unfoldable |opaque |private |pub )*(?:data|record) (\S+)", line)
        if found:
            yield found.group(1)
            continue
        found = re.match(r"\s*((?:[^\s:(){}\[\].,;=λ→≡]+ )+): ", line)
        if found:
            yield from (w for w in found.group(1).split() if w not in KEYWORDS and TOKEN.fullmatch(w))


def snake(word):
    """A word in snake case; a type keeps its capital."""
    if not word[:1].islower():
        return word
    word = re.sub(r"(?<=[a-z0-9'\u2080-\u2089])(?=[A-Z])", "_", word)
    return word if word.isupper() else word.lower()


def respelled(old, defined):
    parts = [snake(p) for p in old.replace("\u2032", "'").split("-")]
    new = parts[0]
    for left, right in zip(parts, parts[1:]):
        joins = (left in defined or left[:1].isupper()) and right in defined
        new += ("-" if joins else "_") + right
    return new


def renaming(commit):
    files = landed_files(commit)
    names, specified = set(), set()
    for name in files:
        found = set(definitions(text_at(commit, name)))
        names |= found
        if "/specs/" in name:
            specified |= found
    defined = ({snake(n) for n in specified if "-" not in n} | set(LIBRARY)) - PLAIN
    definitions_now = {snake(n) for n in names if "-" not in n} | {"bit_and", "bit_or", "bit_xor"}
    new_names = {}
    for name in sorted(names):
        new = respelled(name, defined)
        # a lemma that would have its definition's name
        if "-" in name and new in definitions_now:
            new += "_lem"
        if new != name:
            new_names[name] = new
    return new_names


def respell(text, new_names, everywhere):
    def one(found):
        word = found.group(0)
        new = new_names.get(word)
        if new is None:
            return word
        return new

    if everywhere:
        return TOKEN.sub(one, text)
    parts = re.split(r"(`[^`\n]*`)", text)
    inner = re.compile(r"\b[a-z][a-z0-9]*[A-Z][A-Za-z0-9]*\b")
    return "".join(TOKEN.sub(one, p) if p.startswith("`") else inner.sub(one, p) for p in parts)


def main():
    listing = sys.argv[1:2] == ["--list"]
    commit = sys.argv[-1]
    new_names = renaming(commit)
    if listing:
        for old, new in new_names.items():
            print(old, new)
        return
    # port.py respells some lemmas by their endings: one that now has its definition's name
    for name in landed_files(commit) + function_proofs(commit):
        path = ROOT / name
        if path.exists():
            words = set(TOKEN.findall(text_at(commit, name)))
            clash = {n.replace("-", "_"): new for n, new in new_names.items() if new.endswith("_lem") and n in words}
            text = path.read_text(encoding="utf-8")
            again = TOKEN.sub(lambda found: clash.get(found.group(0), found.group(0)), text)
            if again != text:
                path.write_text(again, encoding="utf-8")
    code = [p for p in (ROOT / "crates").rglob("*") if p.suffix in (".antt", ".rt", ".edit") and "out" not in p.parts]
    pages = [ROOT / "README.md", *sorted((ROOT / "docs").rglob("*.md")), ROOT / "tests/README.md"]
    for path in code + pages:
        text = path.read_text(encoding="utf-8")
        again = respell(text, new_names, path in code)
        if again != text:
            path.write_text(again, encoding="utf-8")


if __name__ == "__main__":
    main()
