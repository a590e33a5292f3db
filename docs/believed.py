#!/usr/bin/env python3
"""Which definitions a reader must believe, and whether they stand where they should.

    docs/believed.py            a row for each file of specs/ that must be believed, with its lines; then what stands in the wrong place
    docs/believed.py --names    the names too

A definition must be believed if the contract of an exported function names it, or a theorem of a page (crates/*/proofs/Theorems*.antt),
or another definition that must be believed. All others only say how the code goes: they stand in `specs/inside/`. Exit 1 where one of
either kind stands with the other, or where a theorem of a page names something that stands in `proofs/`.
"""
import glob, os, re, sys

os.chdir(os.path.join(os.path.dirname(os.path.abspath(__file__)), ".."))
WORD = re.compile(r"[^\s(){}\[\];,.λ∀]+")
DEF = re.compile(r"^(?:abbrev |unfoldable )*(?:pub )(?:(data|record|ruleset) )?(\S+)(?: .*)?:")


def imports(text, prefix):
    """local name -> (module, name), of the `use` lines of a file"""
    found = {}
    for m in re.finditer(r"^" + prefix + r"use (Rattle\.\S+)\.\{(.*?)\};?$", text, re.M | re.S):
        for item in m.group(2).split(","):
            name, _, local = item.strip().partition(" as ")
            found[(local or name).strip()] = (m.group(1), name.strip())
    return found


definitions, order = {}, []                         # (module, name) -> names that its text has
for path in sorted(glob.glob("crates/*/specs/**/*.antt", recursive=True)):
    crate, rest = re.match(r"crates/(\w+)/specs/(.*)\.antt", path).groups()
    module = f"Rattle.{crate}.specs." + rest.replace("/", ".")
    text = open(path, encoding="utf-8").read()
    known, current = imports(text, ""), None
    for line in text.split("\n"):
        m = DEF.match(line)
        if m:
            current = (module, m.group(2))
            definitions[current] = (set(), path)
            order.append(current)
        elif line.startswith("  ") and current and re.match(r"  (?:pub )?\S+ :", line) and "data" in kinds.get(current, ""):
            pass
        if current:
            definitions[current][0].update((known.get(w, (module, w))) for w in WORD.findall(line.split("--")[0]))
        kinds = globals().setdefault("kinds", {})
        if m:
            kinds[current] = m.group(1) or ""
        elif current and kinds[current] == "data":
            c = re.match(r"  (\S+) :", line)
            if c:
                definitions[(module, c.group(1))] = ({current}, path)

roots, astray = set(), []
for lib in glob.glob("crates/*/src/lib.rt") + glob.glob("crates/*/src/main.rt"):
    crate = lib.split("/")[1]
    top = open(lib, encoding="utf-8").read()
    for path in [lib] + [f"crates/{crate}/src/{m}.rt" for m in re.findall(r"^pub mod (\w+);", top, re.M)]:
        text = open(path, encoding="utf-8").read()
        known = imports(text, "ghost ")
        for m in re.finditer(r"^(?:#\[unsafe\(no_mangle\)\]\n)? *pub (?:extern \"C\" )?fn .*?\n *\{$", text, re.S | re.M):
            for w in WORD.findall(" ".join(re.findall(r"(?:ensures|requires) .*", m.group(0)))):
                if w in known:
                    roots.add(known[w])
for path in glob.glob("crates/*/proofs/Theorems*.antt"):
    text = open(path, encoding="utf-8").read()
    known = imports(text, "")
    for line in re.findall(r"^pub \S+ :.*", text, re.M):
        named = {known[w] for w in WORD.findall(line) if w in known}
        roots |= named
        astray += [f"{path}: {n} stands in {m}" for m, n in named if ".proofs." in m]

seen, todo = set(), [r for r in roots if r in definitions]
while todo:
    d = todo.pop()
    if d not in seen:
        seen.add(d)
        todo.extend(n for n in definitions[d][0] if n in definitions and n not in seen)

files = {}
for d in order:
    files.setdefault(definitions[d][1], []).append(d)
wrong = 0
print("| definitions | lines | what must be believed |\n|---|---|---|")
total = 0
for path, ds in sorted(files.items()):
    if "/inside/" in path:
        continue
    text = open(path, encoding="utf-8").read()
    lines = sum(1 for l in text.split("\n") if l.strip() and not l.startswith(("use ", "--")))
    total += lines
    head = text.split("\n")[0].lstrip("- ")
    print(f"| `{path.removeprefix('crates/')}` | {lines} | {head} |")
    if "--names" in sys.argv:
        print("    " + ", ".join(n for _, n in ds))
print(f"| together | {total} | |")
for path, ds in sorted(files.items()):
    inside = "/inside/" in path
    for d in ds:
        if (d in seen) == inside:
            wrong += 1
            print(f"{path}: {d[1]} {'must be believed, and stands inside' if inside else 'is promised by private functions only'}")
print("".join(a + "\n" for a in astray), end="")
sys.exit(1 if wrong or astray else 0)
