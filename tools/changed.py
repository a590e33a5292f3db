#!/usr/bin/env python3
"""Lists what docs/DESIGN-PASS.md ends with: public functions, types, definitions and theorems that differ from a commit's, old and new below each other.

usage: tools/changed.py OLD [NEW] [--spelling]     OLD and NEW are commits or folders with crates/; NEW is by default this repository
       prints Markdown. What differs by spelling alone is only named; with --spelling it is printed in full.

Spelling alone: equal once an enum of the repository's own is read as the Option or Result that came for it, a refusal's number as its fault's name, one name
of a bound variable as another, and parentheses and the commas of pairs are left out (`plain`, below). That only sorts the list: it proves nothing.
Theorems are those of crates/*/proofs/Theorems*.antt, and what else of proofs/ README or docs/ name in backticks at OLD.
"""
import collections, glob, os, re, subprocess, sys, tempfile

sys.dont_write_bytecode = True
from forms import HERE, closing, squeeze, take_apart

# Variants and types of OLD, and of NEW, and what is read for them: + a value, - none, ! a refusal, T an Option or Result
OWN = {
    **dict.fromkeys("Value Here Count Range Found Row Answer".split(), "+"),
    **dict.fromkeys("Bad Nowhere Wrong TooLarge Never Missing Pass None".split(), "-"),
    **dict.fromkeys("Refused Stopped NameRefused LineRefused".split(), "!"),
    **dict.fromkeys("Sound Name Fits".split(), ""),
    **dict.fromkeys("Num Place SectorCount ByteCount Trimmed Word Second Third FileName Said ShallowMapping Stop Opened Probed".split(), "T"),
}
STD = {"Some": "+", "Range": "+", "None": "-", "Bad": "-", "Err": "!", "Ok": "", "tt": ""}


def text_of(path):
    with open(path, encoding="utf-8") as f:
        return f.read()


def plain(s, name, names):
    """The words of a text that count; each clause of a definition counts its variables anew."""
    if names is STD:
        s = re.sub(r"(?:Option|Result) (?:\([^()]*\)|\S+?\b)(?: Fault\b)?", "T", s)
        s = re.sub(r"refusal_number \(?(\w+)\)?", r"\1", s)
    words, seen = [], {}
    for w in re.findall(r"\"[^\"]*\"|[^\s(){}\[\].,;\"]+|[.;{}\[\]]", s):
        w = w if w[0] == '"' else names.get(re.sub(r"^\w+-as-", "", w), re.sub(r"^\w+-as-", "", w))
        if w == name:
            seen = {}
        if re.fullmatch(r"[a-z]['0-9]?|number|fault", w):
            w = seen.setdefault(w, f"x{len(seen)}")
        words += [w] if w else []
    return words


def entries(text, whole):
    """The definitions of a file of specs/ or proofs/: name and text, or, if not whole, the statement alone."""
    found, name, on = {}, None, True
    start = re.compile(r"(?:(?:abbrev|unfoldable|opaque|instance|pub)\s+)*(?:(?:record|data)\s+)?([^\s:(){}]+)(?:\s+(?:\([^=]*?\)|\{[^=]*?\}))*\s+:(?:\s|$)")
    for line in re.sub(r"(?m)(^|\s)--.*", "", text).split("\n"):
        if re.match(r"(?:pub )?(?:use|mod|module|open|infix\w*|prefix|ruleset)\b", line):
            name = None
        elif line[:1].strip() and (m := start.match(line)):
            name, on = m[1], True
            found[name] = [line]
        elif name and line.strip():
            on = on and (whole or line[0] == " ")
            found[name] += [line] if on else []
    return {n: squeeze(" ".join(t)) for n, t in found.items()}


def functions(module, raw):
    """Each function: whether it is public, its signature, and its clauses."""
    t, fns, _ = take_apart(module, raw)
    impls = [(m.start(), closing(t, m.end() - 1), m[1]) for m in re.finditer(r"\bimpl\b(?:<[^>]*>)?\s+(?:[\w:<>' ]+ for )?(\w+)[^{;]*\{", t)]
    heads = list(re.finditer(r"\bfn\s+\w+", t))
    for x, m in zip(fns, heads):
        inside = next((i[2] + "::" for i in impls if i[0] < m.start() < i[1]), "")
        end = re.compile(r"\b(?:requires|ensures)\b|\{").search(t, m.end()).start()
        public = bool(re.search(r'\bpub (?:unsafe |extern b?"[^"\n]*" )*$', t[: m.start()]))
        yield (module, inside + x.name), public, squeeze(t[m.start() : end]), [f"{w} {{ {c} }}" for w, c, _ in x.clauses]


def read(root):
    out = collections.defaultdict(dict)
    rel = lambda p: os.path.relpath(p, os.path.join(root, "crates")).split(os.sep, 1)  # noqa: E731
    for path in sorted(glob.glob(os.path.join(root, "crates/*/src/**/*.rt"), recursive=True)):
        crate, rest = rel(path)
        module, raw = f"{crate}::{rest[4:-3].replace(os.sep, '::')}", text_of(path)
        for key, public, sign, clauses in functions(module, raw):
            if public or clauses:
                out["public" if public else "inner"][key] = " ".join([sign, *clauses]) if public else " ".join(clauses)
        t = take_apart(module, raw)[0]
        for m in re.finditer(r"\bpub(?:\(crate\))?\s+((struct|enum|const|type)\s+(\w+))", t):
            at = re.compile(r"[({;]").search(t, m.end()).start()
            end = closing(t, at) if m[2] in ("struct", "enum") else t.index(";", m.end())
            text = squeeze(re.sub(r"//[^\n]*", "", raw[m.start(1) : end]))
            if not m[0].startswith("pub(") or "ghost" in text:
                out["types"][module, m[3]] = text
    for kind in ("specs", "proofs"):
        for path in sorted(glob.glob(os.path.join(root, f"crates/*/{kind}/**/*.antt"), recursive=True)):
            crate, rest = rel(path)
            if not path.endswith(("Answers.antt", "Invariants.antt", "Lib.antt", "inside.antt")):
                for n, text in entries(text_of(path), kind == "specs").items():
                    out["inside" if "/inside/" in rest else kind][f"{crate}/{rest[len(kind) + 1 : -5]}", n] = text
    return out


def match(old, new):
    """Pairs of what is in both: at its place, else of its name in its crate, else of its name and text anywhere; then what is gone, and what is new."""
    pairs, left, by = [], dict(new), collections.defaultdict(list)
    for k in new:
        by[k[1]].append(k)
    crate = lambda k: re.split(r"[:/]", k[0])[0]  # noqa: E731
    for test in (lambda a, b: a == b, lambda a, b: crate(a) == crate(b), lambda a, b: plain(old[a], a[1], OWN) == plain(new[b], b[1], STD)):
        for k in [k for k in old if k not in [p[0] for p in pairs]]:
            q = next((q for q in by[k[1]] if q in left and test(k, q)), None)
            if q is not None:
                pairs.append((k, q, old[k], left.pop(q)))
    met = {p[0] for p in pairs}
    return pairs, {k: v for k, v in old.items() if k not in met}, left


def show(title, old, new, spelling, full, keep=lambda k: True):
    """A part of the list. Where it is full, what is gone and what is new is printed with its text."""
    pairs, gone, more = match(old, new)
    pairs, gone, more = sorted(p for p in pairs if keep(p[0]) and p[2] != p[3]), [k for k in gone if keep(k)], [k for k in more if keep(k)]
    same = [p for p in pairs if plain(p[2], p[0][1], OWN) == plain(p[3], p[1][1], STD)]
    print(f"\n## {title}\n\nChanged: {len(pairs)}, of which by spelling alone {len(same)}; gone {len(gone)}; new {len(more)}.")
    for part in ([p for p in pairs if p not in same], same if spelling else []):
        if part is same and same:
            print(f"\n### {title}: by spelling alone")
        for k, q, a, b in part:
            print(f"\n- `{k[0]}` `{k[1]}`" + (f", now `{q[0]}`" if k[0] != q[0] else "") + f"\n  - old: `{a}`\n  - new: `{b}`")
    for label, these, texts in (("By spelling alone", [] if spelling else [p[0] for p in same], None), ("Gone", gone, old), ("New", more, new)):
        if full and texts:
            print("".join(f"\n- {label.lower()}: `{k[0]}` `{k[1]}`\n  - `{texts[k]}`\n" for k in sorted(these)), end="")
        elif these:
            by = collections.defaultdict(list)
            for k in sorted(these):
                by[k[0]].append(f"`{k[1]}`")
            print(f"\n{label}:\n" + "\n".join(f"- `{place}`: {', '.join(names)}" for place, names in by.items()))


def main(argv):
    spelling, places = "--spelling" in argv, [a for a in argv if not a.startswith("--")]
    with tempfile.TemporaryDirectory() as d:
        roots = []
        for a in places[:1] + (places[1:2] or [HERE]):
            if not os.path.isdir(a):
                roots.append(os.path.join(d, str(len(roots))))
                os.mkdir(roots[-1])
                tar = subprocess.run(["git", "-C", HERE, "archive", a], check=True, stdout=subprocess.PIPE).stdout
                subprocess.run(["tar", "-x", "-C", roots[-1]], input=tar, check=True)
            else:
                roots.append(a)
        # A fault's name is read as its number
        if m := re.search(r"enum Fault \{(.*?)\n\}", text_of(os.path.join(roots[1], "crates/lines/src/record.rt")), re.S):
            STD.update((n, str(i + 1)) for i, n in enumerate(re.findall(r"(?m)^\s+(\w+)(?: = \d+)?,", m[1])))
        old, new = map(read, roots)
        pages = " ".join(map(text_of, [os.path.join(roots[0], "README.md"), *glob.glob(os.path.join(roots[0], "docs/**/*.md"), recursive=True)]))
        named = set(re.findall(r"`([\w'-]+)`", pages))
        show("Public functions", old["public"], new["public"], spelling, True)
        show("Public types and constants, and type invariants", old["types"], new["types"], spelling, True)
        show("Clauses of functions that are not public", old["inner"], new["inner"], spelling, False)
        show("Definitions that an exported contract or a theorem rests on", old["specs"], new["specs"], spelling, False)
        show("Definitions of specs/inside/, which say how the code goes", old["inside"], new["inside"], spelling, False)
        show("Theorems", old["proofs"], new["proofs"], spelling, False, lambda k: "/Theorems" in k[0] or k[1] in named)


if __name__ == "__main__":
    main(sys.argv[1:])
