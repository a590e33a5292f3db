#!/usr/bin/env python3
"""Makes the expected output of crates/vmdkmap_cases: each case of its stdin, and what paper.py answers to it.

    compare/texts.py [PAPER] > crates/vmdkmap_cases/stdout

PAPER is paper.py, which stands beside this file; it is written from documents 01 and 02 alone. It answers whole cases, in lines of a letter
and numbers (FORMAT.md); here the lines that a mode writes are picked out and put into the program's words. The rules
of the arguments and number 24 are written out below.
"""
import re
import struct
import subprocess
import sys
from pathlib import Path

HERE = Path(__file__).resolve().parent
PAPER = Path(sys.argv[1]) if len(sys.argv) > 1 else HERE / "paper.py"
CASES = HERE.parent / "crates" / "vmdkmap_cases"
MOST_INPUT = 65536
MOST_PLACES = 1024


def number(word, most=2**64 - 1):
    """An argument's number, or None."""
    if not re.fullmatch(r"\+?[0-9]+", word, re.ASCII):
        return None
    return int(word) if int(word) <= most else None


def asked(words):
    """The mode and its numbers, or None for a usage."""
    if words in ([], ["report"]):
        return ("report",)
    if len(words) == 3 and words[0] == "map":
        numbers = [number(words[1]), number(words[2])]
    elif len(words) == 4 and words[0] == "walk":
        numbers = [number(words[1]), number(words[2]), number(words[3], MOST_PLACES)]
    else:
        return None
    return None if None in numbers else (words[0], *numbers)


def paper(descriptor, queries):
    """The lines that paper.py answers to one case: of each the letter, the five numbers, and the text's bytes."""
    case = struct.pack("<I", len(descriptor)) + descriptor + bytes([len(queries)])
    for query in queries:
        case += struct.pack("<BQQH", *query)
    out = subprocess.run([sys.executable, PAPER], input=case, stdout=subprocess.PIPE, check=True).stdout
    for line in out.decode().split("\n")[:-1]:
        letter, *numbers = line.split(" ")
        yield letter, [int(number) for number in numbers[:5]], bytes(map(int, numbers[5:]))


def first(numbers):
    """The lines of a case's first line: what the probe says, and the refusal."""
    _, probed, number, second, _ = numbers
    lines = [b"probe yes" if probed else b"probe no"]
    return lines + [b"refused %d %d" % (number, second)] if number else lines


def numbered(lines):
    """The lines, those of rows with the row's number, as the report has it, in place of its line in the descriptor."""
    row = 0
    for letter, numbers, text in lines:
        if letter in "FZN":
            numbers[0] = row
            row += 1
        yield letter, numbers, text


def texts(letter, numbers, text):
    """A line of an answer as the lines that the program writes."""
    a, b, c, d, e = numbers
    access = b"RW" if d else b"RDONLY"
    return {
        "c": lambda: first(numbers),
        "v": lambda: [b"version %d" % a],
        "p": lambda: [],
        "t": lambda: [b"size %d" % a, b"extents %d" % b],
        "F": lambda: [b"%d %d %d FLAT %s %d %s" % (a, b, c, access, e, text)],
        "Z": lambda: [b"%d %d %d ZERO %s" % (a, b, c, access)],
        "N": lambda: [b"%d %d %d NOACCESS" % (a, b, c)],
        "r": lambda: [b"raw %d run %d row %d %s looked %d %s" % (e, a, c, access, b, text)],
        "z": lambda: [b"zero run %d row %d looked %d" % (a, c, b)],
        "e": lambda: [b"end run %d looked %d" % (a, b)],
        "x": lambda: [b"refused %d %d run %d looked %d" % (c, d, a, b)],
        "D": lambda: [b"%d %d raw %d row %d %s %s" % (a, b, e, c, access, text)],
        "O": lambda: [b"%d %d zero row %d" % (a, b, c)],
        "d": lambda: [b"done at %d pieces %d looked %d" % (a, b, c)],
        "m": lambda: [b"more at %d pieces %d looked %d" % (a, b, c)],
        "w": lambda: [b"refused %d %d at %d pieces %d looked %d" % (d, e, a, b, c)],
    }[letter]()


def answer(descriptor, mode):
    """The lines of the program's answer."""
    if len(descriptor) > MOST_INPUT:
        return [b"refused 24 0"]
    if mode[0] == "report":
        return [text for line in numbered(paper(descriptor, [])) for text in texts(*line)]
    query = (0, mode[1], mode[2], 0) if mode[0] == "map" else (1, *mode[1:])
    start, *lines = paper(descriptor, [query])
    if not lines:
        return first(start[1])[1:]
    return [text for line in lines if line[0] in "rzexDOdmw" for text in texts(*line)]


def main():
    out = sys.stdout.buffer
    cases = (CASES / "stdin").read_text().splitlines()
    for case in cases:
        name, *words = case.split(" ")
        mode = asked(words)
        descriptor = (CASES / "data" / name).read_bytes()
        lines = [b"usage"] if mode is None else answer(descriptor, mode)
        out.write(b"> " + case.encode() + b"\n" + b"".join(line + b"\n" for line in lines))
    out.write(b"cases %d\n" % len(cases))


main()
