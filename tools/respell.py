#!/usr/bin/env python3
"""Brings this repository's own definitions and lemmas to one spelling: words in snake case, so `lineAt` is `line_at` and `row-next` is `row_next`.

usage: tools/respell.py [--apply] [--pages] [LANDED]
Run once, after the kit's port.py, at the top: with --apply it turns specs/, proofs/, the clauses of src/ and the must-fail edits, with --pages the names that
the pages give in backticks. Facts and types keep their capitals; what Rattle names itself (`invariant-loop`, `returns-2`), functions of src/, strings, inputs
and outputs keep theirs. Edits and pages are turned from the spelling of LANDED (a commit, default HEAD), so with what port.py renamed, too.
A name is left alone in a file that imports it from another library. It names what would fall together; where a lemma would have its function's name it gets `_lem`.
"""
import collections
import os
import re
import subprocess
import sys

SIG = re.compile(r"^\s*(?:(?:pub|abbrev|unfoldable|data|record|ruleset|infixl?|infixr?)\s+)*([^\s(){}:.,;=|]+)\s*(?:\(.*\)|\{.*\})*\s*(?::\s|=\s)")
TOKEN = re.compile(r"[^\s(){}\[\].,;:`\"|«»⌜⌝/*<>]+")
KEPT = re.compile(r"^(invariant-|decreases-|returns(-|$)|loop-|ghost-)")
USE = re.compile(r"^\s*(?:ghost\s+)?use\s+([^\s{]+?)\.\{([^}]*)\}", re.M)
ALIAS = re.compile(r"^\s*use\s+\S+\s+as\s+(\S+)\s*$", re.M)
COMMENT = re.compile(r"(--.*|//.*)$")

# Lemmas that would have the name of the definition that they are about
LEMMAS = {n: n.replace("-", "_") + "_lem" for n in ("char-at", "num-at", "walk-of", "kept-at", "number-of", "up-to", "row-line", "stored-by", "item-key", "no-extent", "line-end", "run-text", "hint-key", "extent-line", "no-access-line", "zero-piece", "run-codes", "met-from", "refused-line", "after-window")}
# The same, where port.py had turned the lemma's name already: in the file that has it and in those that import it from there
TURNED = {
    "crates/descriptor/proofs/Empties.antt": ("no_read", "no_record"),
    "crates/maps/proofs/Steps.antt": ("end_mark",),
    "crates/theorems/proofs/Built.antt": ("in_bytes", "in_source"),
    "crates/theorems/proofs/ExtentLines.antt": ("flat_line",),
    "crates/theorems/proofs/Shared.antt": ("met_by",),
}
# Fields of such a name, which are no lemmas, and where they stand
FIELDS = {
    "kept-at": ("crates/theorems/specs/Counted.antt", "crates/theorems/proofs/Counted.antt", "crates/theorems/proofs/RuledOut.antt"),
    "no-extent": ("crates/theorems/",),
}
# Names within one proof
INSIDE = {"crates/maps/proofs/halving/+search/Proof.antt": {"code-of": "code_to", "keptOf": "kept_from"}}


def files(root, endings):
    for folder, dirs, names in os.walk(root):
        dirs[:] = sorted(d for d in dirs if d not in ("out", ".git", "target", "wip"))
        for n in sorted(names):
            if n.endswith(endings):
                yield os.path.join(folder, n)


def read(path):
    with open(path, encoding="utf-8") as f:
        return f.read()


def write(path, text, was):
    if text != was:
        with open(path, "w", encoding="utf-8") as f:
            f.write(text)


def snake(name):
    if name in LEMMAS:
        return LEMMAS[name]
    if not name[0].islower() or KEPT.match(name):
        return name
    name = re.sub(r"(?<=[a-z0-9])([A-Z])(?=[a-z]|$|[0-9'_-])", lambda m: "_" + m[1].lower(), name)
    return name.replace("-", "_")


def defined(text):
    """The names that a file defines, in order: at its top, or a record's fields and constructors."""
    names = []
    for line in text.split("\n"):
        if not line.lstrip().startswith(("use ", "open ", "module ", "--", "let ")) and (m := SIG.match(line)):
            names.append(m[1])
    return names


def code(text):
    return "\n".join(COMMENT.sub("", line) for line in text.split("\n"))


def tokens(text):
    """The names of a file outside its comments; neither the parts of a path nor fields."""
    text = code(text)
    return {m[0] for m in TOKEN.finditer(text) if text[m.start() - 1 : m.start()] != "." and text[m.end() : m.end() + 1] != "."}


def turned_already(commit):
    """What port.py renamed: by the order of the definitions in each file."""
    pairs = collections.defaultdict(collections.Counter)
    for path in files("crates", (".antt",)):
        r = subprocess.run(["git", "show", f"{commit}:{path}"], capture_output=True, text=True)
        if r.returncode == 0:
            a, b = defined(r.stdout), defined(read(path))
            if len(a) == len(b):
                for x, y in zip(a, b):
                    pairs[x][y] += 1
    return {x: ys.most_common(1)[0][0] for x, ys in pairs.items() if x not in ys}


def foreign(text, crates):
    """The names that a file imports from outside this repository's own files."""
    out = set()
    for path, names in USE.findall(text):
        part = path.split(".")
        own = part[0] == "Rattle" and len(part) > 2 and part[1] in crates and part[2] in ("specs", "proofs") and not {"declared", "contracts"} & set(part)
        if not own:
            for n in names.split(","):
                out |= {w.strip() for w in n.split(" as ")}
    return out


def module_of(path):
    part = path[: -len(".antt")].split("/")
    return "Rattle." + ".".join(part[1:])


def own_names(path, text, names, crates):
    """What is renamed in one file."""
    here = {n: m for n, m in names.items() if n not in foreign(text, crates)}
    for home, lemmas in TURNED.items():
        if path == home:
            here |= {n: n + "_lem" for n in lemmas}
        elif m := re.search(r"use " + re.escape(module_of(home)) + r"\.\{([^}]*)\}", text):
            here |= {n: n + "_lem" for n in lemmas if n in re.split(r"[,\s]+", m[1])}
    here |= INSIDE.get(path, {})
    here |= {n: n.replace("-", "_") for n, places in FIELDS.items() if path.startswith(places)}
    # a module that a proof names as the definition would be named
    for alias in ALIAS.findall(text):
        for n in [n for n, m in here.items() if m == alias and n != alias]:
            here[n] = alias + "_of"
        here.pop(alias, None)
    return here


def turn(text, here):
    return TOKEN.sub(lambda m: here.get(m[0], m[0]), text)


def in_ticks(text, here):
    return re.sub(r"`[^`\n]*`", lambda m: turn(m[0], here), text)


def turn_file(text, here, aliased):
    lines = []
    for line in text.split("\n"):
        m = COMMENT.search(line)
        body, note = (line[: m.start()], m[0]) if m else (line, "")
        if "use " in body and aliased:
            body = re.sub(r"(?<=[{ ])(" + "|".join(map(re.escape, aliased)) + r")(?=[,}])", lambda m: f"{snake(m[1])} as {here[m[1]]}", body)
        lines.append(turn(body, here) + in_ticks(note, here))
    return "\n".join(lines)


def main(argv):
    apply, pages = "--apply" in argv, "--pages" in argv
    commit = next((a for a in argv if not a.startswith("-")), "HEAD")
    crates = set(os.listdir("crates"))
    before = turned_already(commit)
    names = {n: snake(n) for path in files("crates", (".antt",)) for n in defined(read(path)) if snake(n) != n}
    bad, turns = 0, []
    for path in files("crates", (".antt", ".rt")):
        text = read(path)
        here = own_names(path, text, names, crates)
        if path.endswith(".antt"):
            there = tokens(text)
            for n in sorted(there & set(here)):
                if here[n] in there and here[n] not in here:
                    print(f"falls together: {path}: {n} and {here[n]}")
                    bad += 1
            for n, k in collections.Counter(here.get(n, n) for n in there).items():
                if k > 1:
                    print(f"twice: {path}: {n}")
                    bad += 1
        aliased = [n for n in here if n in names and here[n] != names[n] and here[n].endswith("_of")]
        turns.append((path, text, turn_file(text, here, aliased)))
    print(f"{len(names)} names, {len(before)} turned before, {bad} that fall together")
    both = names | {n: names.get(m, m) for n, m in before.items()} | {n: n.replace("-", "_") for n in FIELDS}
    if apply:
        for path, text, to in turns:
            write(path, to, text)
        for path in [*files("crates", (".edit",)), *files("edits", (".edit",))]:
            text = read(path)
            write(path, "\n".join(turn(l, both) if re.match("(old|new):", l) else in_ticks(l, both) for l in text.split("\n")), text)
    if pages:
        for path in ["README.md", *files("docs", (".md",)), *files("compare", (".md",)), *files("bench", (".md",))]:
            text = read(path)
            write(path, in_ticks(text, both), text)
    return bool(bad)


if __name__ == "__main__":
    raise SystemExit(main(sys.argv[1:]))
