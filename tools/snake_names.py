#!/usr/bin/env python3
"""Brings this repository's own definitions and lemmas to today's spelling, once, after the kit's port.py.

A word in lower camel case becomes one in snake case (`sumBits` to `sum_bits`); one that names a fact, that is, whose type
ends in `Type`, becomes a type's name (`quickSays` to `QuickSays`). Names of `src/` stay. Where the new name stands
already, mostly as that of the function whose answer it is, it gets `_lem`, as the kit's guides have it. It stops, and
writes nothing, where two names would fall together all the same.

usage: python3 tools/snake_names.py [--list]
"""
import os
import re
import sys

WORD = re.compile(r"(?<![\w'·-])[A-Za-z][\w'-]*")
HEAD = re.compile(r"^\s*(?:(?:abbrev|unfoldable|pub|record|data|ruleset)\s+)*(?P<name>[A-Za-z][\w'-]*)\s*(?P<rest>(?:\([^)]*\)\s*|\{[^}]*\}\s*)*:\s.*)$")
STRING = re.compile(r'"(?:[^"\\]|\\.)*"')
KEPT = {"tt", "ready"}


def files():
    for top in ("crates", "docs", "tests", "README.md", "include", "bindings", "examples"):
        if os.path.isfile(top):
            yield top
        for folder, dirs, names in os.walk(top):
            dirs[:] = sorted(d for d in dirs if d not in ("out", "target", "build"))
            for n in sorted(names):
                if n.endswith((".antt", ".rt", ".edit", ".md")) and n not in ("PORT.md",):
                    yield os.path.join(folder, n)


def snake(name):
    parts = []
    for p in name.split("-"):
        if p == "getD":
            p = "get_or"
        if p[:1].islower():
            p = re.sub(r"(?<=[a-z0-9])([A-Z])", lambda m: "_" + m.group(1).lower(), p)
            p = p if p.islower() else re.sub(r"[A-Z]", lambda m: m.group(0).lower(), p)
        parts.append(p)
    return "-".join(parts)


def upper(name):
    return name[0].upper() + re.sub(r"_([a-z0-9])", lambda m: m.group(1).upper(), name[1:])


def read(p):
    with open(p, encoding="utf-8") as f:
        return f.read()


def main():
    listing = "--list" in sys.argv
    texts = {p: read(p) for p in files()}
    facts, own, words = {}, {}, {}
    for p, t in texts.items():
        if p.endswith((".antt", ".rt")):
            for w in WORD.findall(t):
                words.setdefault(w, set()).add(p)
        if not p.endswith(".antt"):
            continue
        lines = t.split("\n")
        for i, l in enumerate(lines):
            m = HEAD.match(l)
            if not m or re.match(r"\s*(?:pub\s+)?(?:use|let|--)\b", l):
                continue
            rest, k = m.group("rest"), i + 1
            while k < len(lines) and lines[k].startswith("    →"):
                rest += " " + lines[k].strip()
                k += 1
            own.setdefault(m.group("name"), set()).add(p)
            if re.search(r"(?:→|:)\s*Type(?: \d)?\s*(?:where)?\s*$", rest) and not re.match(r"\s*(?:pub\s+)?(?:record|data)\b", l):
                facts.setdefault(m.group("name"), set()).add(p)
    turned = {}
    for name in own:
        if name in KEPT:
            continue
        if name in facts and name[0].islower() and len(name) > 1:
            turned[name] = ("fact", upper(name))
        elif re.search(r"[a-z0-9][A-Z]", name) and name[0].islower():
            to = snake(name)
            if to != name:
                turned[name] = ("word", to)
    turned = {name: (kind, to + "_lem" if to in words else to) for name, (kind, to) in turned.items()}
    if listing:
        for name, (kind, to) in sorted(turned.items()):
            print(kind, name, to, "STANDS " + " ".join(sorted(words[to])[:4]) if to in words else "")
        return 0
    into = {}
    for name, (_, to) in turned.items():
        into.setdefault(to, []).append(name)
    bad = [f"{to}: {' '.join(ns)}" for to, ns in into.items() if len(ns) > 1] + [f"{to} stands already" for to in into if to in words]
    if bad:
        print("\n".join(bad))
        return 1

    def other(m):
        w = m.group(0)
        return turned[w][1] if w in turned else w

    changed = 0
    for p, t in texts.items():
        if p.endswith(".rt"):
            parts, at = [], 0
            for s in STRING.finditer(t):
                parts += [WORD.sub(other, t[at : s.start()]), s.group(0)]
                at = s.end()
            new = "".join(parts) + WORD.sub(other, t[at:])
        else:
            new = WORD.sub(other, t)
        if new != t:
            changed += 1
            with open(p, "w", encoding="utf-8") as f:
                f.write(new)
    print(f"{len(turned)} names, {changed} files")
    return 0


if __name__ == "__main__":
    raise SystemExit(main())
