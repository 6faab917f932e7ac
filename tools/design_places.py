#!/usr/bin/env python3
"""Counts the places of docs/DESIGN-PASS.md: tools/design_places.py [POINT] prints each place of a point, or the counts.

It reads crates/*/src (and crates/*/proofs for point 8) of the checkout that it stands in, or of the folder in ROOT. It
goes by text, so what it lists is what a reader would look at, not a judgement.
"""
import collections
import glob
import os
import re
import sys

ROOT = os.environ.get("ROOT", os.path.join(os.path.dirname(os.path.abspath(__file__)), ".."))


def sources():
    for path in sorted(glob.glob(os.path.join(ROOT, "crates/*/src/**/*.rt"), recursive=True)):
        with open(path, encoding="utf-8") as f:
            yield os.path.relpath(path, os.path.join(ROOT, "crates")), f.read()


def functions(text):
    """(line, head, clauses, body) of each function with a body."""
    for m in re.finditer(r"^( *)(pub(?:\(crate\))? )?(?:unsafe )?(?:extern \"C\" )?fn (\w+)", text, re.M):
        end = re.search(r"^%s\}$" % m.group(1), text[m.start():], re.M)
        if not end:
            continue
        whole = text[m.start():m.start() + end.end()]
        open_ = re.search(r"^%s\{$|\{$" % m.group(1), whole, re.M)
        if not open_:
            continue
        head, body = whole[:open_.start()], whole[open_.end():]
        yield text[:m.start()].count("\n") + 1, m.group(3), head, body


def point_1():
    """Own enums of the shape of Option or Result, flags with a value beside, marks, numbers for kinds."""
    nothing = ("Refused|Mismatch|Absent|Nothing|Outside|TooBig|NoNumber|NoKind|Malformed|Unknown|Passed|On|"
               "OutOfRange|WrongKind|BadWidth")
    for path, text in sources():
        for m in re.finditer(r"^(?:pub(?:\(crate\))? )?enum (\w+)[^{]*\{(.*?)^\}", text, re.M | re.S):
            if re.search(r"^    (%s)\b" % nothing, m.group(2), re.M):
                yield path, text[:m.start()].count("\n") + 1, "enum " + m.group(1)
        flags = r"\b(?:good|bad|long|waits|over|ended|more|inside|stores|wants|fresh): bool"
        for m in re.finditer(r"^(?:pub(?:\(crate\))? )?struct (\w+)[^{;]*\{(.*?)^\}", text, re.M | re.S):
            found = re.findall(flags, m.group(2))
            if found:
                yield path, text[:m.start()].count("\n") + 1, "struct %s: %s" % (m.group(1), ", ".join(found))
        for m in re.finditer(r"^pub(?:\(crate\))? const (NO_DIGIT|LOST)\b", text, re.M):
            yield path, text[:m.start()].count("\n") + 1, "mark " + m.group(1)
        names = (r"^ *(?:pub(?:\(crate\))? )?fn (number|letter|unit|code_of|silence_of|kind_of|resolution_of|"
                 r"place_in|value_of|\w+_code)\(")
        for m in re.finditer(names, text, re.M):
            yield path, text[:m.start()].count("\n") + 1, "number for a kind or for none: " + m.group(1)


def point_2():
    """Functions and types of one crate whose names differ only in a type, a size or a base; functions with one body."""
    groups = collections.defaultdict(list)
    bodies = collections.defaultdict(list)
    size = re.compile(r"_?(u64|u32|u16|u8|i64|i32|f64|f32|decimal|hex|single|double|words|value)(?=_|$)")
    for path, text in sources():
        crate = path.split("/")[0]
        for line, name, head, body in functions(text):
            bare = size.sub("_", name)
            if bare != name:
                groups[crate, bare].append((path, line, name))
            plain = re.sub(r"\s+", " ", re.sub(r"//.*", "", body)).strip()
            if len(plain) > 60:
                bodies[re.sub(r"\b(u64|u32|u16|u8|\d+)\b", "N", plain)].append((path, line, name))
            elif plain:
                bodies[name + plain].append((path, line, name))
        for m in re.finditer(r"^(?:pub(?:\(crate\))? )?(?:enum|struct) (\w+)", text, re.M):
            bare = re.sub(r"(U64|U32|U16|U8|I64|F64|F32)$", "", m.group(1))
            groups[crate, "type " + bare].append((path, text[:m.start()].count("\n") + 1, m.group(1)))
    for (crate, bare), places in sorted(groups.items()):
        if len(places) > 1:
            yield places[0][0], places[0][1], "one name: " + ", ".join(p[2] for p in places)
    for places in bodies.values():
        if len(places) > 1:
            yield places[0][0], places[0][1], "one body: " + ", ".join("%s:%d %s" % p for p in places)


def point_3():
    """Loops that are no `for`."""
    for path, text in sources():
        for i, line in enumerate(text.splitlines(), 1):
            if re.match(r"\s*(?:'\w+: )?(while|loop)\b", line):
                yield path, i, line.strip()


def point_4():
    """Conversions and comparisons by hand: a body that is one cast or one choice of two numbers; lists of equal arms."""
    for path, text in sources():
        for line, name, head, body in functions(text):
            plain = re.sub(r"\s+", " ", re.sub(r"//.*", "", body)).strip().rstrip("}").strip()
            if re.fullmatch(r"\w+ as \w+|\(?[\w.]+\)? as \w+", plain):
                yield path, line, "a cast: " + name
            elif re.fullmatch(r"if (\w+) < (\w+) \{ (\w+)( - \w+)? \} else \{ (\w+) \}", plain):
                yield path, line, "a choice: " + name
            arms = collections.Counter(re.findall(r"^ *\w+::\w+(?:\([^)]*\)| \{[^}]*\})? => (true|false|[\w:]+|[\w:]+\(_?\)),$", body, re.M))
            most = sum(n - 1 for n in arms.values())
            if most >= 3:
                yield path, line, "%d arms that another arm has: %s" % (most, name)


def point_5():
    """A `requires` that stands in three or more functions of a crate; three or more parameters that travel together in three or more."""
    facts = collections.defaultdict(list)
    together = collections.defaultdict(list)
    for path, text in sources():
        crate = path.split("/")[0]
        for line, name, head, body in functions(text):
            for m in re.finditer(r"^\s*requires \w* ?\{ (.*) \}$", head, re.M):
                facts[crate, m.group(1)].append((path, line, name))
            list_ = re.search(r"\((.*?)\)(?: ->|\s|$)", head, re.S)
            params = [re.sub(r"\s+", " ", p).strip() for p in list_.group(1).split(",")] if list_ else []
            params = [p for p in params if ":" in p]
            for i in range(len(params) - 2):
                together[crate, ", ".join(params[i:i + 3])].append((path, line, name))
    for (crate, fact), places in sorted(facts.items()):
        if len(places) >= 3:
            yield places[0][0], places[0][1], "requires { %s }: %s" % (fact, ", ".join(p[2] for p in places))
    for (crate, three), places in sorted(together.items()):
        if len(places) >= 3:
            yield places[0][0], places[0][1], "(%s): %s" % (three, ", ".join(p[2] for p in places))


def point_6():
    """Buffers with a length or place beside them, and lists searched by hand."""
    for path, text in sources():
        for line, name, head, body in functions(text):
            if re.search(r"\w+: &(?:mut )?\[u\w+\],\s*(?:n|len|count|at|to|room): (?:usize|u32)", head):
                yield path, line, "a slice and a number of it: " + name
            if re.search(r"while .*\{\n(?:.*\n){0,2}?\s*if .*\{\n\s*return", body):
                yield path, line, "a search: " + name


def point_7():
    """Switches on which call or step to run."""
    for path, text in sources():
        for i, line in enumerate(text.splitlines(), 1):
            if re.match(r"\s*(?:match|if) .*\b(call|step|turns)\b.*\{", line) or re.match(r"\s*while turns > 0", line):
                yield path, i, line.strip()


def point_8():
    """Answers written in proofs/."""
    for path in sorted(glob.glob(os.path.join(ROOT, "crates/*/proofs/**/Answers.antt"), recursive=True)):
        with open(path, encoding="utf-8") as f:
            n = len(re.findall(r"^pub [\w-]+ : goal", f.read(), re.M))
        if n:
            yield os.path.relpath(path, os.path.join(ROOT, "crates")), n, "answers"


POINTS = [point_1, point_2, point_3, point_4, point_5, point_6, point_7, point_8]
if len(sys.argv) > 1:
    for path, line, what in POINTS[int(sys.argv[1]) - 1]():
        print("%s:%d: %s" % (path, line, what))
else:
    for k, point in enumerate(POINTS, 1):
        places = list(point())
        n = sum(p[1] for p in places) if k == 8 else len(places)
        print("point %d: %d" % (k, n))
    lines = 0
    for path in glob.glob(os.path.join(ROOT, "crates/*/proofs/**/*.antt"), recursive=True):
        with open(path, encoding="utf-8") as f:
            lines += f.read().count("\n")
    print("lines of proofs/: %d" % lines)
