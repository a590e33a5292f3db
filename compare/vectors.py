#!/usr/bin/env python3
"""Makes the text vectors: crates/text_vectors/stdin, and the output that goes with it, crates/text_vectors/stdout.

    python3 compare/vectors.py            writes the two files
    python3 compare/vectors.py --check    says whether they are as this script would write them

The answers come from Python: its strict UTF-8 decoder, its integers, its table of the Unicode characters, and the rules as
the paper states them. A vector is a line `KIND LENGTH TAG A B`, then LENGTH bytes of text and a byte 0A. The kinds:
c character, b blank, t trim, w word, n number up to 2^64-1, v number up to 2^32-1, q quotes, s sectors, l line end,
e first `=`, i is `version`, d starts with `ddb.`, k which key.
"""
import os, re, sys

# PropList.txt, White_Space
WHITE_SPACE = [0x09, 0x0A, 0x0B, 0x0C, 0x0D, 0x20, 0x85, 0xA0, 0x1680, 0x2000, 0x2001, 0x2002, 0x2003, 0x2004, 0x2005,
               0x2006, 0x2007, 0x2008, 0x2009, 0x200A, 0x2028, 0x2029, 0x202F, 0x205F, 0x3000]
# Python's own table has these, and the four controls 1C to 1F, which are separators and no White_Space
assert WHITE_SPACE == [c for c in range(0x110000) if chr(c).isspace() and not 0x1C <= c <= 0x1F]
BLANKS = "".join(map(chr, WHITE_SPACE))
MOST = 2 ** 64 - 1
KEYS = [b"version", b"CID", b"parentCID", b"createType", b"parentFileNameHint",
        b"ddb.geometry.sectors", b"ddb.geometry.heads", b"ddb.geometry.cylinders"]


def char(t):
    """The code point and the width of the character that t starts with, or None."""
    for n in range(1, 5):
        try:
            s = t[:n].decode("utf-8", "strict")
        except UnicodeDecodeError:
            continue
        if len(s) == 1:
            return ord(s), n
    return None


def run(t, at, wanted):
    """Where the characters from a place end that are blanks, or that are none."""
    while at < len(t):
        c = char(t[at:])
        if c is None or (c[0] in WHITE_SPACE) != wanted:
            break
        at += c[1]
    return at


def number(t, limit):
    return int(t) if re.fullmatch(rb"\+?[0-9]+", t) and int(t) <= limit else None


def answer(kind, t):
    if kind == "c":
        c = char(t)
        return (2, 0, 0) if not t else (1, *c) if c else (0, 0, 0)
    if kind == "b":
        return (int(char(t)[0] in WHITE_SPACE), 0, 0)
    if kind == "t":
        try:
            s = t.decode("utf-8", "strict")
        except UnicodeDecodeError:
            return (0, 0, 0)
        front = len(s) - len(s.lstrip(BLANKS))
        a = len(s[:front].encode())
        inner = len(s.strip(BLANKS).encode())
        return (1, a, a + inner) if inner else (1, 0, 0)
    if kind == "w":
        a = run(t, 0, True)
        e = run(t, a, False)
        return (1, a, e) if a != e else (0, 0, 0)
    if kind in "nv":
        v = number(t, MOST if kind == "n" else 2 ** 32 - 1)
        return (0, 0, 0) if v is None else (1, v, 0)
    if kind == "q":
        return (1, 1, len(t) - 1) if len(t) > 1 and t[:1] == t[-1:] == b'"' else (1, 0, len(t))
    if kind == "s":
        v = number(t, MOST)
        return (0, 0, 0) if v is None else (1, v, v * 512) if v * 512 <= MOST else (2, v, 0)
    if kind == "l":
        return (1, 0, len(t.split(b"\n")[0]))
    if kind == "e":
        return (1, t.index(b"="), 0) if b"=" in t else (0, 0, 0)
    if kind == "i":
        return (int(t == b"version"), 0, 0)
    if kind == "d":
        return (int(t.startswith(b"ddb.")), 0, 0)
    if kind == "k":
        return (KEYS.index(t) + 1 if t in KEYS else 9 if t.startswith(b"ddb.") else 0, 0, 0)


def vectors():
    # every row of Table 3-7 at its edges and one outside
    firsts = [0x00, 0x7F, 0x80, 0xBF, 0xC0, 0xC1, 0xC2, 0xDF, 0xE0, 0xE1, 0xEC, 0xED, 0xEE, 0xEF, 0xF0, 0xF1, 0xF3, 0xF4, 0xF5, 0xFF]
    seconds = [0x00, 0x7F, 0x80, 0x8F, 0x90, 0x9F, 0xA0, 0xBF, 0xC0, 0xFF]
    thirds = [0x7F, 0x80, 0xBF, 0xC0]
    for f in firsts:
        yield "c", bytes([f])
        for s in seconds:
            yield "c", bytes([f, s])
            yield "c", bytes([f, s, 0x80])
            yield "c", bytes([f, s, 0xBF, 0x80])
        for s in (0x80, 0x8F, 0x90, 0x9F, 0xA0, 0xBF):
            for x in thirds:
                yield "c", bytes([f, s, x, 0xBF])
                yield "c", bytes([f, s, 0x80, x])
    # every first byte with all that can follow it
    for f in range(256):
        yield "c", bytes([f, 0x90, 0x80, 0x80])
    yield "c", b""
    # every length's first and last scalar value, and those around the surrogates
    for c in (0x00, 0x7F, 0x80, 0x7FF, 0x800, 0xFFF, 0x1000, 0xCFFF, 0xD000, 0xD7FF, 0xE000, 0xFFFF, 0x10000, 0x3FFFF, 0x40000, 0xFFFFF, 0x100000, 0x10FFFF):
        yield "c", chr(c).encode()
        yield "c", chr(c).encode() + b"\x80"
    # every blank and its neighbours, and the characters that look blank and are none
    for c in sorted({n for w in WHITE_SPACE for n in (w - 1, w, w + 1)} | {0x00, 0x1C, 0x1D, 0x1E, 0x1F, 0x180E, 0x200B, 0x2060, 0xFEFF, 0x10FFFF}):
        yield "b", chr(c).encode()
    # trimming and words
    for c in WHITE_SPACE + [0x1C, 0x1F, 0x180E, 0x200B, 0x2060, 0xFEFF]:
        b = chr(c).encode()
        yield "t", b + b"key" + b
        yield "w", b + b"a" + b + b"b"
    for t in (b"", b" ", b"  \t ", b"a", b" a", b"a ", b" a b ", "\u00a0\u3000é \u2028".encode(), b"\xff", b"a \xff", b" \xc2", b"\xc2\xa0", b"\xa0", b"a\xe2\x80", b"# x\r", b"a\x00b", b"\x00"):
        yield "t", t
        yield "w", t
    # numbers at their edges
    edges = [0, 1, 2 ** 32 - 2, 2 ** 32 - 1, 2 ** 32, 2 ** 55 - 1, 2 ** 55, 2 ** 63, 2 ** 64 - 2, 2 ** 64 - 1, 2 ** 64, 2 ** 64 + 1, 10 ** 19, 10 ** 20, 2 ** 65]
    for v in edges:
        for t in (b"%d" % v, b"+%d" % v, b"-%d" % v, b"000000000000000000000000%d" % v, b"+0%d" % v, b" %d" % v, b"%d " % v):
            for kind in "nvs":
                yield kind, t
    for t in (b"", b"+", b"-", b"-0", b"++1", b"+-1", b"1+", b"/", b"0", b"9", b":", b"1:", b":1", b"1/", b"0x10", b"1e3", b"1_0", b"1,0", b"\xd9\xa1", "１".encode(), b"1.0", b"00", b"1 2"):
        for kind in "nvs":
            yield kind, t
    # quotes
    for t in (b"", b'"', b'""', b'"""', b'"a"', b'"a', b'a"', b"a", b'" "', b"'a'", b'a"b', b' "a"', b'"a" ', b'""a""'):
        yield "q", t
    # lines, the first `=`, keys
    for t in (b"", b"\n", b"a", b"a\n", b"\na", b"a\r\nb\n", b"ab\ncd"):
        yield "l", t
    for t in (b"", b"=", b"a", b"a=", b"=a", b"a=b=c", b"ab <"):
        yield "e", t
    for t in (b"", b"version", b"Version", b"versio", b"versions", b"aversion", b"version\x00"):
        yield "i", t
    for t in (b"", b"ddb", b"ddb.", b"ddb.x", b"Ddb.", b"xddb.", b"ddb:"):
        yield "d", t
    for t in KEYS + [b"ddb."]:
        for k in (t, t[:-1], t[1:], t + b"s", b" " + t, t.lower(), t.upper(), t + b"\x00"):
            yield "k", k
    for t in (b"", b"ddb", b"ddb.geometry", b"ddb.geometry.", b"ddb.uuid", b"encoding", b"cid", b"parentcid"):
        yield "k", t


def files():
    stdin, stdout, count = b"", b"", 0
    for kind, t in vectors():
        tag, a, b = answer(kind, t)
        stdin += b"%s %d %d %d %d\n%s\n" % (kind.encode(), len(t), tag, a, b, t)
        stdout += b"%s %d %d %d\n" % (kind.encode(), tag, a, b)
        count += 1
    assert len(stdin) < 65536
    return {"stdin": stdin, "stdout": stdout + b"run %d\nfailed 0\n" % count}


folder = os.path.join(os.path.dirname(os.path.abspath(__file__)), "..", "crates", "text_vectors")
same = True
for name, data in files().items():
    path = os.path.join(folder, name)
    if "--check" in sys.argv:
        same = same and open(path, "rb").read() == data
    else:
        open(path, "wb").write(data)
        print(f"{name}: {len(data)} bytes")
if not same:
    sys.exit("the vectors are not as this script writes them")
