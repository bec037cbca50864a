#!/usr/bin/env python3
"""Counts what one more word costs: which definitions and lemmas have a clause of their own for (nearly) each kind of entry, and how many files name a word.

Usage: tools/entry_count.py [WORD]      the word is `reset` where none is given

A definition or lemma counts where its clauses name at least two thirds of the kinds of Entry. Fails where there are more than ten, or where the word is named
in 30 files or more (of crates, their tests left out).
"""
import re
import sys
from pathlib import Path

ROOT = Path(__file__).resolve().parent.parent
CLAUSE = re.compile(r"^\s*(?:abbrev\s+|pub\s+)*([A-Za-z_][\w\-]*)\b(.*?)\s=(?:\s|$)")


def kinds():
    text = (ROOT / "crates/gt_model/src/entry.rt").read_text()
    body = text[text.index("pub enum Entry {"):]
    body = body[: body.index("\n}\n")]
    return re.findall(r"^    (\w+)(?: \{|,|\()", body, re.M)


def sources(pattern):
    return sorted(p for p in ROOT.glob(pattern) if "/out/" not in p.as_posix())


def main():
    word = sys.argv[1] if len(sys.argv) > 1 else "reset"
    all_kinds = set(kinds())
    most = 2 * len(all_kinds) / 3
    found = []
    for path in sources("crates/*/specs/**/*.antt") + sources("crates/*/proofs/**/*.antt"):
        named = {}
        for line in path.read_text().splitlines():
            clause = CLAUSE.match(line)
            if clause and clause.group(1) != "let":
                named.setdefault(clause.group(1), set()).update(re.findall(r"\bEntry\.(\w+)", clause.group(2)))
        found += [(path.relative_to(ROOT), name, len(ks & all_kinds)) for name, ks in named.items() if len(ks & all_kinds) >= most]
    print(f"{len(found)} definitions and lemmas have a clause for two thirds or more of the {len(all_kinds)} kinds of entry:")
    for path, name, count in found:
        print(f"  {count:3} {name} ({path})")
    tests = re.compile(r"_tests/|gt_examples/|/tests?\.rt$|Broken")
    spelled = re.compile(rf"(?<![A-Za-z]){word}(?![a-z])|(?<![A-Za-z]){word.capitalize()}(?![a-z])")
    files = [p.relative_to(ROOT) for p in sources("crates/**/*.rt") + sources("crates/**/*.antt") if spelled.search(p.read_text()) and not tests.search(p.as_posix())]
    print(f"{len(files)} files of crates name `{word}` (tests, worked histories and broken lists left out):")
    for path in files:
        print(f"      {path}")
    return 0 if len(found) <= 10 and len(files) < 30 else 1


sys.exit(main())
