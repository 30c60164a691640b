#!/usr/bin/env python3
"""Brings the repository's own definitions and lemmas to one spelling: functions, lemmas, fields and constructors in snake case,
with a dash only between two names of functions; types and facts in upper camel case. Names that the code makes, and names that are
imported from elsewhere, stay. Run once, at the top; prints each name that was changed, and stops before names fall together."""
import os
import re
import sys

ROOT = "crates"
IDENT = re.compile(r"[^\s(){}\[\];,.\"λ]+")
SIG = re.compile(r"^\s*(?:(?:pub|abbrev|unfoldable|data|record)\s+)*((?:[^\s(){}\[\];,.\"]+\s+)*?[^\s(){}\[\];,.\"]+)\s+:\s")
KEYWORDS = {"pub", "abbrev", "unfoldable", "data", "record", "module", "where", "let", "in", "use", "mutual", "open", "as", "elim", "unfolding", "unfold", "ruleset", "Type"}
MADE = re.compile(r"/proofs/.*/(Answers|Invariants|Choices|Proof)\.antt$")
# names that would fall together with others
CHOSEN = {
    "eachFork": "fork_each", "eachFilter": "filter_each", "eachJoin": "join_each", "ifFork": "fork_if", "ifElse": "switch_if", "ifJoin": "join_if",
    "eachOf": "flat_map", "parts-of": "parts_of_parted", "word-kind": "word_kind_lem",
}
KNOWN = {"length", "take", "drop", "append", "map", "get_or", "set", "sum", "sum_by", "concat", "reverse", "slice_index", "decimal", "signed", "product", "zero", "suc"}


def files():
    for d, ds, fs in os.walk(ROOT):
        ds[:] = sorted(x for x in ds if x != "out")
        for f in sorted(fs):
            if f.endswith((".antt", ".rt", ".edit")):
                yield os.path.join(d, f)


def snake(part):
    return re.sub(r"(?<=[a-z0-9])([A-Z])", lambda m: "_" + m.group(1).lower(), part)


def outside(text):
    """The names that a file imports from outside the repository."""
    names = set()
    for m in re.finditer(r"(?m)^(?:ghost )?use ([\w.+<>-]+?)\.\{([^}]*)\}", text):
        crate = m.group(1).split(".")
        own = crate[0] == "Rattle" and os.path.isdir(os.path.join(ROOT, crate[1])) and "Goals" not in crate and "Given" not in crate and "declared" not in crate
        if not own:
            for n in m.group(2).split(","):
                names.add(n.strip().split(" as ")[-1].strip())
                names.add(n.strip().split(" as ")[0].strip())
    return names


def main():
    text = {p: open(p, encoding="utf-8").read() for p in files()}
    defined, functions = {}, set(KNOWN)
    for p, t in text.items():
        if not p.endswith(".antt"):
            continue
        made = bool(MADE.search(p))
        for line in t.split("\n"):
            if line.lstrip().startswith("--"):
                continue
            m = SIG.match(line)
            if not m:
                continue
            for n in m.group(1).split():
                if n in KEYWORDS or n in ("→", "×", "≡"):
                    continue
                if made and re.search(r":\s+(goal|given|need)\.", line):
                    continue
                defined.setdefault(n, set()).add(p)
                if "/specs/" in p and re.match(r"\s*(abbrev|unfoldable)", line):
                    functions.add(n)
    functions |= {re.sub("-", "_", snake(f)) for f in functions}
    new = {}
    for n in sorted(defined):
        if n[:1].isupper():
            parts = n.split("-")
            to = parts[0] + "".join(x[:1].upper() + x[1:] for x in parts[1:])
            to = re.sub(r"_(\w)", lambda m: m.group(1).upper(), to)
        else:
            parts = [x for x in n.split("-")]
            if any(x == "" for x in parts):
                continue
            to = snake(parts[0])
            for a, b in zip(parts, parts[1:]):
                joined = not (n in functions) and a in functions and b in functions
                to += ("-" if joined else "_") + snake(b)
        to = CHOSEN.get(n, to)
        if to != n:
            new[n] = to
    taken = {}
    for n, to in new.items():
        taken.setdefault(to, set()).add(n)
    bad = False
    for to, ns in sorted(taken.items()):
        if len(ns) > 1 or to in defined:
            print(f"falls together: {', '.join(sorted(ns))} -> {to}" + (f" (there: {sorted(defined[to])[:2]})" if to in defined else ""))
            bad = True
    for p, t in text.items():
        o = outside(t)
        for n in new:
            if new[n] in o:
                print(f"falls together with an import: {n} -> {new[n]} in {p}") if re.search(r"(?<![\w-])" + re.escape(n) + r"(?![\w-])", t) else None
    if bad and "--force" not in sys.argv:
        return 1
    count = 0
    for p, t in text.items():
        o = outside(t)
        ext = p.rsplit(".", 1)[1]

        def turn(m):
            w = m.group(0)
            if w in new and w not in o:
                if ext in ("rt", "edit") and not ("-" in w or re.match(r"[a-z]+[A-Z]", w) or w[:1].isupper()):
                    return w
                return new[w]
            return w

        u = "\n".join(l if l.lstrip().startswith(("--", "//")) else IDENT.sub(turn, l) for l in t.split("\n"))
        if u != t:
            count += 1
            if "--dry" not in sys.argv:
                open(p, "w", encoding="utf-8").write(u)
    for n in sorted(new):
        print(f"{n} -> {new[n]}")
    print(f"{len(new)} names, {count} files")
    return 0


raise SystemExit(main())
