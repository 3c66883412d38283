#!/usr/bin/env python3
"""Places in src/ where today's Rattle may have a plainer form, one line each, and their number.

    tools/places.py POINT [FOLDER]

POINT is 1 to 8 (docs/DESIGN-PASS.md says what each is); FOLDER is a checkout, this one if none is given. The rules are rough:
a line is a place to look at, not a fault.
"""
import re
import sys
from collections import defaultdict
from pathlib import Path

ROOT = Path(sys.argv[2] if len(sys.argv) > 2 else Path(__file__).resolve().parent.parent)
CLAUSE = re.compile(r"^\s*(requires|ensures)\b")


def sources():
    for path in sorted(ROOT.glob("crates/*/src/**/*.rt")):
        yield str(path.relative_to(ROOT)), path.read_text()


def functions():
    """Each function: where, name, parameters (name, type), clauses, body."""
    head = re.compile(r"^( *)(?:pub(?:\(crate\))? )?(?:extern \"C\" )?fn (\w+)(?:<[^(]*>)?\(", re.M)
    for file, text in sources():
        for m in head.finditer(text):
            depth, i = 1, m.end()
            while depth:
                depth += {"(": 1, ")": -1}.get(text[i], 0)
                i += 1
            params = [p.strip() for p in re.split(r",(?![^<\[(]*[>\])])", text[m.end():i - 1]) if p.strip()]
            params = [tuple(q.strip() for q in p.split(":", 1)) if ":" in p else (p, "Self") for p in params]
            end = text.find("\n" + m.group(1) + "}", i)
            rest = text[i:end if end > 0 else len(text)]
            lines = rest.split("\n")
            clauses = [l.strip() for l in lines if CLAUSE.match(l)]
            body = "\n".join(l for l in lines[1:] if not CLAUSE.match(l))
            yield f"{file}:{text.count(chr(10), 0, m.start()) + 1}", m.group(2), params, clauses, body


def bodies(keyword):
    item = re.compile(r"^(?:pub )?" + keyword + r" (\w+)(?:<[^{]*>)? \{\n(.*?)^\}", re.M | re.S)
    for file, text in sources():
        for m in item.finditer(text):
            inner = [l.strip() for l in m.group(2).split("\n") if l.strip() and not l.strip().startswith("//")]
            yield f"{file}:{text.count(chr(10), 0, m.start()) + 1}", m.group(1), inner


def point1():
    """Enums of two cases of which one holds a value, or that hold a refusal or an end; flags beside values; numbers for kinds."""
    for where, name, inner in bodies("enum"):
        flat = re.sub(r"\{[^}]*\}", "{..}", " ".join(inner))
        cases = [c for c in re.split(r",\s*(?![^(]*\))", flat) if c.strip()]
        if len(cases) == 2 and any("(" in c or "{" in c for c in cases) or any(re.match(r"(Ok|Nothing|None|Nowhere)\b", c) for c in cases):
            yield where, f"enum {name}: {', '.join(cases)}"
    for where, name, inner in bodies("struct"):
        if len(inner) > 1 and any(l.endswith(": bool,") for l in inner):
            yield where, f"struct {name} has a flag beside values"
        if any(re.match(r"(pub )?kind: u", l) for l in inner):
            yield where, f"struct {name} has a number for a kind"
    for file, text in sources():
        for k, line in enumerate(text.split("\n"), 1):
            if re.match(r"\s*\d+ => ", line) and not re.match(r"\s*\d+ => ", text.split("\n")[k - 2]):
                yield f"{file}:{k}", "numbers told apart: " + line.strip()
            if re.search(r"put_entry\(\w+, \w+, (\d|mark)", line) or re.search(r"Cut\(\d", line) or re.search(r"\b(kind|mark) [!=]= \d", line):
                yield f"{file}:{k}", "a number for a kind: " + line.strip()


def point2():
    """Functions of one shape: the same but for names, types and numbers."""
    words = {"if", "else", "while", "for", "in", "let", "mut", "return", "match", "loop", "as", "break", "continue"}
    groups = defaultdict(list)
    for where, name, params, clauses, body in functions():
        seen, out = {}, []
        for t in re.findall(r"[A-Za-z_]\w*|\d[\w.]*|\S", re.sub(r"//.*", "", body)):
            if t in words or not re.match(r"\w", t):
                out.append(t)
            elif t[0].isdigit():
                out.append("0")
            else:
                out.append(str(seen.setdefault(t, len(seen))))
        if len(out) >= 14:
            groups[(len(params), " ".join(out))].append(f"{where} {name}")
    for members in groups.values():
        if len(members) > 1:
            yield members[0].split()[0], f"{len(members)} of one shape: " + ", ".join(m.split()[1] + " (" + m.split()[0] + ")" for m in members)


def point3():
    """`while` and `loop`."""
    for file, text in sources():
        for k, line in enumerate(text.split("\n"), 1):
            if re.match(r"\s*(while|loop)\b", line):
                yield f"{file}:{k}", line.strip()


def point4():
    """Equality, arithmetic, conversion and printing in functions of the repository's own."""
    own = re.compile(r"^(eq|add|sub|neg|scale|same_\w+|numbers?|\w+_number|write|write_\w+|say|say_\w+|wide|place|none|word|float|double|f32_of)$")
    for where, name, params, clauses, body in functions():
        if own.match(name):
            yield where, "fn " + name


def point5():
    """Parameters of one name and type that stand together in three functions or more; clauses that three functions or more have."""
    together, clause = defaultdict(list), defaultdict(list)
    for where, name, params, clauses, body in functions():
        for i in range(len(params) - 1):
            together[(params[i], params[i + 1])].append(where)
        for c in clauses:
            if c.startswith("requires"):
                clause[re.sub(r"^requires \w* ?", "", c)].append(where)
    for pair, places in together.items():
        if len(places) > 2:
            yield places[0], f"{len(places)} functions have " + ", ".join(": ".join(p) for p in pair)
    for c, places in clause.items():
        if len(places) > 2:
            yield places[0], f"{len(places)} functions require {c}"


def point6():
    """A slice with a place or a length in it beside it."""
    for where, name, params, clauses, body in functions():
        if any("[" in t and "&mut" in t for _, t in params) and any(
                n in ("at", "n", "m", "c", "count", "known", "from") and t in ("usize", "u32") for n, t in params):
            yield where, "fn " + name


def point7():
    """A parameter that says which step to run: a bool, or an enum that is only told apart."""
    for where, name, params, clauses, body in functions():
        for n, t in params:
            if t in ("bool", "Group", "Counting", "Axis") and re.search(r"(if|match) !?\(?" + n + r"\b", body):
                yield where, f"fn {name} switches on {n}: {t}"


def point8():
    """Answers that one file gives three times or more."""
    for path in sorted(ROOT.glob("crates/*/proofs/**/Answers.antt")):
        same = defaultdict(list)
        for m in re.finditer(r"^pub ([^\s:]+) : goal\.[^\n]*\n(.*?)(?=\n\n|\Z)", path.read_text(), re.M | re.S):
            same[m.group(2).replace(m.group(1), "")].append(m.group(1))
        for names in same.values():
            if len(names) > 2:
                yield str(path.relative_to(ROOT)), f"one answer for {len(names)} goals, from {names[0]} on"


found = sorted(set(globals()["point" + sys.argv[1]]()))
for place in found:
    print(": ".join(place))
print(len(found))
