#!/usr/bin/env python3
"""Spells this repository's own ghost names as today's Rattle does: a function, a lemma, a field and a constructor in snake case.

usage: tools/respell.py [--list]      at the top, once, after port.py; --list prints the names, old and new, and writes nothing

A hump becomes an underscore (`inUse`, `in_use`), and so does a dash (`all-at`, `all_at`). A lemma that would have its function's name gets
`_lem`. Types, modules and what Rust names stay. Names of the kit stay: a file that imports one keeps that word. In a comment a name with a
dash turns only in backticks and in the list of names at a file's head, since it may be a word of English.
"""
import re
import sys
from collections import defaultdict
from pathlib import Path

ROOT = Path(".")
WORD = re.compile(r"[^\s(){}.;,@\"«»`\[\]]+")
HEAD = re.compile(r"^\s*(?:(?:pub|abbrev|unfoldable)\s+)*([^\s:(){}.;,@\"|]+)((?:\s+(?:\{[^{}]*\}|\([^()]*\)))*)\s+:\s(.*)")
MANY = re.compile(r"^  ((?:pub )?[a-z]\w*(?: [a-z]\w*)+) : \S")
BOUND = re.compile(r"[({]([^\s(){}:.,;]+(?: [^\s(){}:.,;]+)*) :\s")
LET = re.compile(r"\blet\s+([^\s:=(){}]+)\s*[:=]")
FOREIGN = re.compile(r"^use ((?:mathlib|Prim|native|lib|borrow|denote|seplogic|std)\.|Rattle\.std\.)")
ITEMS = re.compile(r"\{([^{}]*)\}")
# names that would fall together with a definition in one file, and have no dash
APART = {
    "crates/claims/proofs/Claims.antt": {"line_refused": "line_refused_lem"},
    "crates/line/proofs/Examples.antt": {"line_refused": "line_refused_lem"},
    "crates/soundness/proofs/Tests.antt": {"link_fits": "link_fits_lem"},
    "crates/soundness/proofs/Laws.antt": {"link_fits": "link_fits_lem"},
    "crates/table/proofs/Clear.antt": {"in_use": "used_still"},
    "crates/image/proofs/Placed.antt": {"exits_of": "exits_alike"},
    "crates/writing/proofs/Writing.antt": {"frontLength": "length_front"},
}


def antt():
    return sorted(p for p in ROOT.glob("crates/*/*/**/*.antt") if "out" not in p.parts)


def rt():
    return sorted(p for p in ROOT.glob("crates/*/src/**/*.rt"))


def foreign(text):
    """The words that a file takes from the kit."""
    found = set()
    for line in text.splitlines():
        if FOREIGN.match(line) or line.startswith("ghost use Rattle.std"):
            for items in ITEMS.findall(line):
                found |= {w.strip() for w in items.split(",")}
    return found


def answers(path):
    """A file of the proof of one function, whose goals Rattle names."""
    return path.parent.name != "proofs" and "proofs" in path.parts


def declared():
    """The names that the repository declares, and those of definitions among them."""
    names, definitions = set(), set()
    for path in antt():
        text = path.read_text(encoding="utf-8")
        kit = foreign(text)
        found = set()
        for line in text.splitlines():
            if line.lstrip().startswith("--") or line.startswith("use "):
                continue
            if m := MANY.match(line):
                found |= set(m[1].split())
            if m := HEAD.match(line):
                if not (answers(path) and re.match(r"(tie\.|\{M )", m[3])):
                    found.add(m[1])
                    if "/specs/" in str(path):
                        definitions.add(m[1])
            if "/specs/" in str(path):
                if m := re.match(r"^(?:pub )?(?:data|record) (\S+)", line):
                    definitions.add(m[1])
            for m in BOUND.finditer(line):
                found |= set(m[1].split())
            found |= set(LET.findall(line))
        names |= {n for n in found if n not in kit and not re.search(r"[◌→×≡⊎λ∷+*/%≤<∙=|?]", n)}
    return names, definitions


def hump(part):
    if not part[:1].islower():
        return part
    part = re.sub(r"^getD$|^get_d(?=_)", "get_or", part)
    return re.sub(r"(?<=[a-z0-9])([A-Z])", lambda m: "_" + m[1].lower(), part)


def spelled(name):
    if not name[:1].islower():
        return name
    return "_".join(hump(p) for p in name.split("-"))


def turn_code(text, table, keep):
    return WORD.sub(lambda m: table.get(m[0], m[0]) if m[0] not in keep else m[0], text)


def turn_comment(text, table, keep, head):
    """The prose of a comment. head: it is a line of the list of names at a file's head."""
    def word(m):
        w, tail = m[0], ""
        while w and w[-1] in ":,'s" and w not in table:
            w, tail = w[:-1], w[-1] + tail
        if w in keep or w not in table or ("-" in w and not head):
            return m[0]
        return table[w] + tail

    parts = re.split(r"(`[^`]*`)", text)
    for k, part in enumerate(parts):
        if part.startswith("`"):
            parts[k] = "`" + turn_code(part[1:-1], table, keep) + "`"
        elif head:
            lead = part[: len(part) - len(part.lstrip())]
            names, gap, rest = part.lstrip().partition("   ")
            parts[k] = lead + WORD.sub(word, names) + gap + turn_comment(rest, table, keep, False)
        else:
            parts[k] = WORD.sub(word, part)
    return "".join(parts)


def turn_antt(text, table, keep):
    out = []
    for line in text.split("\n"):
        m = re.match(r"^(\s*--)(.*)$", line)
        if m:
            out.append(m[1] + turn_comment(m[2], table, keep, m[2].startswith("   ")))
        elif " -- " in line:
            code, _, rest = line.partition(" -- ")
            out.append(turn_code(code, table, keep) + " -- " + turn_comment(rest, table, keep, False))
        else:
            out.append(turn_code(line, table, keep))
    return "\n".join(out)


def turn_rt(text, table, keep):
    out = []
    for line in text.split("\n"):
        m = re.match(r"^(\s*//)(.*)$", line)
        out.append(m[1] + turn_comment(m[2], table, keep, False) if m else turn_code(line, table, keep))
    return "\n".join(out)


def main():
    names, definitions = declared()
    definitions = {hump(d) for d in definitions}
    table = {n: spelled(n) for n in names}
    # a lemma that would have its function's name
    same = definitions | {n for o, n in table.items() if "-" not in o}
    table = {o: n + "_lem" if "-" in o and n in same else n for o, n in table.items()}
    table = {o: n for o, n in table.items() if o != n}
    turned = {}
    for path in antt() + rt():
        text = path.read_text(encoding="utf-8")
        own = table | APART.get(str(path), {})
        keep = foreign(text)
        turned[path] = (turn_antt if path.suffix == ".antt" else turn_rt)(text, own, keep)
        olds = defaultdict(set)
        for w in WORD.findall(text):
            olds[own.get(w, w) if w not in keep else w].add(w)
        for n, os in olds.items():
            if len(os) > 1:
                print(f"{path}: {' and '.join(sorted(os))} are {n} now")
    if sys.argv[1:] == ["--list"]:
        print("\n".join(f"{o}\t{table[o]}" for o in sorted(table)))
        return
    for path, text in turned.items():
        path.write_text(text, encoding="utf-8")


main()
