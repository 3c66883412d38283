#!/usr/bin/env python3
"""Which definitions a reader must believe: those that the contracts of the exported functions and demand 3 rest on.

Run from the repository's root:
    docs/believed.py            how many they are, and how many lines, by file
    docs/believed.py --names    also each by its name
    docs/believed.py --apart    exits 1 and names what stands on the wrong side: what is believed and stands under
                                specs/Contract/, and what is not and stands in another file of specs/

From the names in a contract it follows every definition into all that it cites, through imports, re-exports,
constructors and the structs and enums of src/. What the toolchain's own libraries define is not counted.
"""
import re
import sys
from collections import namedtuple
from pathlib import Path

# The exported functions: the crate, and how their lines begin.
EXPORTED = [
    ("object_mesh", 'extern "C" fn '),
    ("mesh_measure", "pub fn measure("),
    ("mesh_measure", "pub fn bound("),
    ("mesh_build", "pub fn build("),
    ("validate_mesh", "pub fn validate("),
    ("mesh_build_and_validate", "pub fn build_and_validate("),
    ("quote_write", "pub fn quote("),
]
# Believed although no exported contract cites it: demand 3 as one statement on the definitions.
ALSO = [("mesh", "Demand3", "Demand3")]
# Crates with definitions that serve neither: tests, and a theorem of its own on the number of ear clipping's tests.
BESIDE = ("test_", "lid_clip_cost")

DEFINES = re.compile(r"(?:(?:unfoldable|abbrev|opaque) )?(?:pub )?(?:(record|data) ([^\s:({]+)|([^\s:]+) :(?: |$))")
USES = re.compile(r"^(?:unfoldable )?(?:pub )?(?:ghost )?use Rattle\.(?!std\b)(\w+)\.specs\.([^{}\n]+)\.\{([^}]*)\}", re.M)
RUST_USES = re.compile(r"^(?:pub )?use ((?:\w+::)+)(\w+);", re.M)
RUST_TYPES = re.compile(r"((?://.*\n|#\[.*\n)*)^((?:pub )?(?:struct|enum|type) (\w+)(?: \{[^}]*\}|[^;{]*;))", re.M)

# A definition's key is (crate, path of its module, name); the structs and enums of a crate are its module "declared".
Definition = namedtuple("Definition", "name kind comment lines")
Module = namedtuple("Module", "crate path file definitions constructors imports")


def imported(text):
    """What the use lines of definitions bring: {name here: (crate, path, name there)}."""
    names = {}
    for crate, path, listed in USES.findall(text):
        for name in filter(None, re.split(r"[,\s]*[,\n][,\s]*", listed.strip())):
            there, _, here = name.partition(" as ")
            names[here or there] = (crate, path, there)
    return names


def read_module(crate, path, file):
    """The definitions of a file, each with the comment that stands directly above it."""
    text = file.read_text()
    module, current, comment = Module(crate, path, file, {}, {}, imported(text)), None, []
    for line in text.split("\n"):
        defines = DEFINES.match(line)
        if line.startswith("--"):
            current, comment = None, comment + [line]
        elif line == "" or re.match(r"(unfoldable )?(pub )?use ", line):
            current, comment = None, []
        elif defines:
            current = Definition(defines[2] or defines[3], defines[1], comment, [line])
            module.definitions[current.name], comment = current, []
        elif current:
            current.lines.append(line)
            names = current.kind == "data" and re.match(r" +(\S.*?) : ", line)
            module.constructors.update({n: current.name for n in names[1].split()} if names else {})
    return module


def rust_imports(text, crate):
    """{type: (crate, its path below declared)} of a Rust file's use lines."""
    paths = [(p.split("::")[:-1], name) for p, name in RUST_USES.findall(text)]
    return {name: (crate if p[0] == "crate" else p[0], ".".join(p[1:] + [name])) for p, name in paths}


def read_declared(crate, src):
    """The structs, enums and types of a crate's code, as one module: a name has its file's module before it."""
    module = Module(crate, "declared", src, {}, {}, {})
    for file in sorted(src.rglob("*.rt")):
        text, inside = file.read_text(), [] if file.stem in ("lib", "main") else [file.stem]
        uses = rust_imports(text, crate)
        for comment, lines, name in RUST_TYPES.findall(text):
            path = ".".join(inside + [name])
            types = [uses.get(t, (crate, ".".join(inside + [t]))) for t in re.findall(r"\w+", lines)]
            module.definitions[path] = Definition(path, "declared", comment.split("\n")[:-1], lines.split("\n"))
            module.imports[path] = [(c, "declared", p) for c, p in types]
    return module


def read_tree(root):
    """All modules, by (crate, path)."""
    tree = {}
    for crate in sorted(root.glob("crates/*")):
        tree[crate.name, "declared"] = read_declared(crate.name, crate / "src")
        for file in sorted(crate.glob("specs/**/*.antt")):
            path = ".".join(file.relative_to(crate / "specs").with_suffix("").parts)
            if path not in ("Lib", "Contract"):
                tree[crate.name, path] = read_module(crate.name, path, file)
    return tree


def find(tree, crate, path, name):
    """The key of the definition that a name of a module means, a constructor's being its data's; or None."""
    if path.startswith("declared."):
        return crate, "declared", path.removeprefix("declared.").removesuffix(".TheVariants")
    if (crate, path) not in tree:  # the constructors of a data, by its name
        above, _, data = path.rpartition(".")
        return find(tree, crate, above, data) if above else None
    module = tree[crate, path]
    name = module.constructors.get(name, name)
    if name in module.definitions:
        return crate, path, name
    if name not in module.imports:
        return None
    return find(tree, *module.imports[name]) or sys.exit(f"{module.file}: {name} is not found")


def defined(tree, key):
    return key[:2] in tree and key[2] in tree[key[:2]].definitions


def words(text):
    """The names in a text, without projections."""
    return [w.split(".")[0] for w in re.split(r"[\s(){};,]+", text) if not w.startswith(".")]


def bound(clause):
    """What a clause binds itself: by its patterns, with a type, by λ and by let."""
    left, equals, _ = clause.partition(" = ")
    patterns = words(left)[1:] if equals and " : " not in left else []
    typed = re.findall(r"[({]([^(){}:]+) : ", clause) + re.findall(r"λ ([^.]*)\.", clause)
    return set(patterns).union(*map(words, typed), re.findall(r"let (\S+) =", clause))


def clauses_of(definition):
    """A definition's clauses, each as one line, without strings, comments and the labels of record expressions."""
    lines = [re.sub(r'"(?:[^"\\]|\\.)*"|(^| )-- .*', " ", line) for line in definition.lines]
    clauses = lines if definition.kind else re.sub(r"\n +", " ", "\n".join(lines)).split("\n")
    return [re.sub(r"(?<=[{;]) ?[^\s{};]+ = ", " ", c) for c in clauses]


def citations(tree, key):
    """The keys of the definitions that a definition cites."""
    module, definition = tree[key[:2]], tree[key[:2]].definitions[key[2]]
    if definition.kind == "declared":
        return {k for k in module.imports[key[2]] if defined(tree, k)}
    clauses = clauses_of(definition)
    shared = bound(clauses[0]) if definition.kind else set()
    names = set().union(*[set(words(c)) - bound(c) - shared for c in clauses])
    return {find(tree, *key[:2], n) or find(tree, *key[:2], f"◌{n}◌") for n in names} - {None}


def named_by(tree, root, crate, start):
    """What the contracts and signatures of the functions that begin so name."""
    found = set()
    for file in sorted((root / "crates" / crate / "src").rglob("*.rt")):
        text = file.read_text()
        names, uses = imported(text), rust_imports(text, crate)
        for head in re.findall(re.escape(start) + r".*?\n\{", text, re.S):
            found |= {find(tree, *names[n]) for n in words(head) if n in names}
            types = [uses.get(t, (crate, t)) for t in re.findall(r"\w+", head.split("ensures")[0])]
            found |= {(c, "declared", t) for c, t in types if defined(tree, (c, "declared", t))}
    return found or sys.exit(f"crates/{crate} has no function that begins with `{start}`")


def believed(tree, root):
    """The keys of all that the exported contracts and demand 3 rest on."""
    seen, todo = set(), list(ALSO)
    for crate, start in EXPORTED:
        todo += named_by(tree, root, crate, start)
    while todo:
        key = todo.pop()
        if key not in seen:
            seen.add(key)
            todo += citations(tree, key)
    return seen


def wrong_side(tree, needed):
    """What stands on the wrong side, as lines to print."""
    for module in tree.values():
        apart = module.path.startswith("Contract.")
        if module.path == "declared" or module.crate.startswith(BESIDE):
            continue
        for name in module.definitions:
            if apart == ((module.crate, module.path, name) in needed):
                yield f"{module.file}: {name} is {'' if apart else 'not '}believed"
        for name, (crate, path, _) in module.imports.items():
            if path.startswith("Contract.") and not apart:
                yield f"{module.file}: uses {name} of {crate}/specs/Contract/"


def count(definitions, what):
    """How many definitions these are, and how many lines with and without the comments above them."""
    code = sum(len(d.lines) for d in definitions)
    return "{:5}{:6}{:6} {}".format(len(definitions), code + sum(len(d.comment) for d in definitions), code, what)


def report(tree, needed, names):
    print("definitions, lines with the comments above them, lines without")
    everything = []
    for module in tree.values():
        here = [d for d in module.definitions.values() if (module.crate, module.path, d.name) in needed]
        everything += here
        if here:
            print(count(here, module.file), *[d.name for d in here if names])
    print(count([d for d in everything if d.kind != "declared"], "in specs/"))
    print(count([d for d in everything if d.kind == "declared"], "in src/"))


def main():
    root = Path(".")
    tree = read_tree(root)
    needed = believed(tree, root)
    if "--apart" in sys.argv:
        wrong = list(wrong_side(tree, needed))
        print("\n".join(wrong + [f"{len(wrong)} on the wrong side"]))
        sys.exit(1 if wrong else 0)
    report(tree, needed, "--names" in sys.argv)


if __name__ == "__main__":
    main()
