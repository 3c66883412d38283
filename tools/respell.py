#!/usr/bin/env python3
"""Spells the repository's own definitions and lemmas in snake case: noArea becomes no_area, thin-norm becomes thin_norm.

usage: tools/respell.py [--check]      at the top of the repository, after the kit's port.py and before any edit by hand

Types, modules and constructors that begin with a capital keep their spelling, and so do operators, functions of src/, the names
that Rattle makes (goals, steps, `tie`), and names of a library. A second run changes nothing. --check writes nothing.
A name whose new spelling stands already in one of its files is printed on a line 'meets:' and stays as it is.
"""

import os
import re
import sys

BREAK = r'\s(){}.;,@"«»'
WORD = re.compile(rf"[^{BREAK}]+")
# not behind a dot: neither a step of a proof nor a folder
ALONE = re.compile(rf"(?<![^{BREAK}])(?<!\.)[^{BREAK}]+")
# In prose a name stands in a code span, also behind a path, as `lid/Lid:seenAt`.
SPAN = re.compile(r"`[^`\n]+`")
PART = re.compile(rf"[^{BREAK}/:\[\]|*…=≡]+")
DECLARED = re.compile(r"^\s*(?:(?:pub|abbrev|unfoldable|data|record|module|instance)\s+)*([^\s(){}.;,@\"«»:]+)(?: \{[^{}\n]*\})* :(?=\s)(.*)$", re.M)
GOAL = re.compile(r"\s*(?:tie|goal)\.")
IMPORT = re.compile(r"^\s*(?:pub |unfoldable |ghost )*use ([^\s;{]+)\.\{([^}]*)\}", re.M)
MADE = re.compile(r"(?:[A-Za-z0-9]+[-_])*spec$|returns(?:-.*)?$|.*-(?:requires|ensures|init|preserved|smaller|result|measure)(?:-\d+)?$|invariant-.*|(?:bounds|overflow|nonzero)[-_].*")


# Constructors that are declared several in a line.
SEVERAL = {"alongX", "alongY", "alongZ"}
# Lemmas that port.py had given the name of a definition, and the definition's old name.
LEMMAS = {"root_in": "rootIn", "write_kept": "writeKept"}


def texts(top, ends):
    for folder, dirs, files in os.walk(top):
        dirs[:] = sorted(d for d in dirs if d not in ("out", "target", ".git"))
        for name in sorted(files):
            if name.endswith(ends):
                yield os.path.join(folder, name)


def read(path):
    with open(path, encoding="utf-8") as f:
        return f.read()


def snake(name):
    name = re.sub(r"(?<=[a-z0-9'])[A-Z]+", lambda m: "_" + m[0].lower(), name)
    return name.replace("-", "_").replace("′", "'")


def spans(text, table):
    return SPAN.sub(lambda s: "`" + PART.sub(lambda m: table.get(m[0], m[0]), s[0][1:-1]) + "`", text)


def is_word(name):
    return re.fullmatch(r"[a-z][A-Za-z0-9_'′-]*", name) is not None


def main():
    write = "--check" not in sys.argv[1:]
    antt = {p: read(p) for p in texts("crates", (".antt",))}
    names, others = set(), set()
    for path, text in antt.items():
        code = re.sub(r"--.*", "", text)
        for m in DECLARED.finditer(code):
            name, kind = m[1], m[2]
            if GOAL.match(kind) or path.endswith("Proof.antt") and MADE.fullmatch(name):
                continue
            if is_word(name) and snake(name) != name:
                names.add(name)
        for m in IMPORT.finditer(code):
            own = re.match(r"Rattle\.(\w+)", m[1])
            if not own or not os.path.isdir(os.path.join("crates", own[1])):
                for item in m[2].split(","):
                    others.add(item.split(" as ")[0].strip())
    for name in sorted(names & others):
        print("library:", name)
    names |= {n for n in SEVERAL if any(n in WORD.findall(t) for t in antt.values())}
    table = {n: snake(n) for n in names - others}
    # a lemma that would have its definition's name
    for old in sorted(table):
        if "-" in old and any(table[o] == table[old] for o in table if o != old and "-" not in o):
            table[old] += "_lem"
    lemmas = {lemma: lemma + "_lem" for lemma, definition in LEMMAS.items() if definition in table}
    for path, text in antt.items():
        words = set(ALONE.findall(re.sub(r"--.*", "", text)))
        for old in [o for o in words & set(table) if table[o] in words and table[o] not in lemmas]:
            if "-" in old:
                table[old] = snake(old) + "_lem"
    back = {}
    for old, new in sorted(table.items()):
        back.setdefault(new, []).append(old)
    meets = {o for olds in back.values() if len(olds) > 1 for o in olds}
    for path, text in antt.items():
        words = set(ALONE.findall(re.sub(r"--.*", "", text)))
        for old in words & set(table):
            if table[old] in words and table[old] not in lemmas:
                meets.add(old)
                print("meets:", path, old)
    for old in sorted(meets):
        print("meets:", old, back[table[old]])
        del table[old]
    changed = 0
    for path in [*antt, *texts("crates", (".rt", ".edit"))]:
        text = antt.get(path) or read(path)
        new = ALONE.sub(lambda m: lemmas.get(m[0], m[0]), text) if path in antt else text
        new = WORD.sub(lambda m: table.get(m[0], m[0]), new)
        new = re.sub(r"(?:--|//|#).*", lambda c: spans(c[0], table), new)
        if new != text:
            changed += 1
            if write:
                with open(path, "w", encoding="utf-8") as f:
                    f.write(new)
    for path in [*texts(".", (".md",)), *texts("compare", (".py", ".rs"))]:
        text = read(path)
        new = spans(text, table)
        if new != text:
            changed += 1
            if write:
                with open(path, "w", encoding="utf-8") as f:
                    f.write(new)
    print(f"{len(table)} names, {changed} files")


main()
