#!/usr/bin/env python3
"""Whether the definitions of two checkouts differ in spelling alone.

usage: tools/respelled.py OLD NEW      the tops of two checkouts, OLD of an older Rattle

It reads crates/*/specs/*.antt of both without comments, `use` lines and brackets, word by word. Each file has to have as many words as before, each old
word has to be one new word throughout, and no two old words may be one new word. It sees no bracket: those stand in the diff. Ends with 0 if all of this
holds, else with 1 and a line for each place; with 2 for other words.
"""
import re
import sys
from collections import defaultdict
from pathlib import Path

WORD = re.compile(r"[^\s(){}.;,@\"«»`\[\]]+")
# a projection of an older Rattle is a word of its own, ` .field`
APART = re.compile(r"(?<=\s)\.(?=\w)")


def words(path):
    found = []
    for line in path.read_text(encoding="utf-8").splitlines():
        if not line.strip().startswith(("--", "use ")):
            found += WORD.findall(APART.sub("", line.partition(" -- ")[0]))
    return found


def main():
    if len(sys.argv) != 3:
        print(__doc__.strip(), file=sys.stderr)
        return 2
    old, new = map(Path, sys.argv[1:])
    turned, faults = defaultdict(set), []
    for path in sorted(old.glob("crates/*/specs/*.antt")):
        other = new / path.relative_to(old)
        before, after = words(path), words(other) if other.is_file() else []
        if len(before) != len(after):
            faults.append(f"{path.relative_to(old)}: {len(before)} words, and {len(after)} now")
            continue
        for a, b in zip(before, after):
            turned[a].add(b)
    back = defaultdict(set)
    for a, bs in turned.items():
        if len(bs) > 1:
            faults.append(f"{a} is now {' and '.join(sorted(bs))}")
        for b in bs:
            back[b].add(a)
    faults += [f"{' and '.join(sorted(many))} are now {b}" for b, many in back.items() if len(many) > 1]
    print("\n".join(faults + [f"{len(turned)} words, {sum(bs != {a} for a, bs in turned.items())} spelled anew, {len(faults)} faults"]))
    return 1 if faults or not turned else 0


sys.exit(main())
