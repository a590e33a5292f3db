#!/usr/bin/env python3
"""paper.py < CASES > ANSWERS: a third voice, written from documents 01 and 02 alone and not from the Rust.

It reads a case file and writes the answers that FORMAT.md tells. Plain lists and loops, in the
order and the words of the document's rules; nothing of Python's own notion of blanks, digits or
UTF-8 is used.
"""

import struct
import sys

LARGEST = 2**64 - 1
SECTOR = 512
MOST_ROWS = 1024

# Table 3-7: the first byte's range, then the ranges of the bytes that follow.
TAIL = (0x80, 0xBF)
TABLE_3_7 = [
    (0x00, 0x7F, []),
    (0xC2, 0xDF, [TAIL]),
    (0xE0, 0xE0, [(0xA0, 0xBF), TAIL]),
    (0xE1, 0xEC, [TAIL, TAIL]),
    (0xED, 0xED, [(0x80, 0x9F), TAIL]),
    (0xEE, 0xEF, [TAIL, TAIL]),
    (0xF0, 0xF0, [(0x90, 0xBF), TAIL, TAIL]),
    (0xF1, 0xF3, [TAIL, TAIL, TAIL]),
    (0xF4, 0xF4, [(0x80, 0x8F), TAIL, TAIL]),
]
FOLLOW = {first: after for low, high, after in TABLE_3_7 for first in range(low, high + 1)}
BITS_OF_FIRST = {0: 0x7F, 1: 0x1F, 2: 0x0F, 3: 0x07}

BLANKS = frozenset(
    chr(point)
    for point in [
        *range(0x09, 0x0E), 0x20, 0x85, 0xA0, 0x1680, *range(0x2000, 0x200B),
        0x2028, 0x2029, 0x202F, 0x205F, 0x3000,
    ]
)
DIGITS = frozenset("0123456789")


class Refused(Exception):
    """A refusal: its number and second number."""


def characters(line):
    """The line's characters, or None if it is not UTF-8."""
    if all(byte < 0x80 for byte in line):
        return "".join(map(chr, line))
    found, at = [], 0
    while at < len(line):
        after = FOLLOW.get(line[at])
        if after is None:
            return None
        point = line[at] & BITS_OF_FIRST[len(after)]
        for place, (low, high) in enumerate(after, at + 1):
            if place >= len(line) or not low <= line[place] <= high:
                return None
            point = point * 64 + (line[place] & 0x3F)
        found.append(chr(point))
        at += 1 + len(after)
    return "".join(found)


def trim(text):
    first, last = 0, len(text)
    while first < last and text[first] in BLANKS:
        first += 1
    while first < last and text[last - 1] in BLANKS:
        last -= 1
    return text[first:last]


def words(text):
    """The runs between blanks."""
    found, word = [], []
    for char in text:
        if char not in BLANKS:
            word.append(char)
        elif word:
            found.append("".join(word))
            word = []
    if word:
        found.append("".join(word))
    return found


def number(text, largest=LARGEST):
    """The text's number, or None."""
    digits = text[1:] if text[:1] == "+" else text
    if not digits:
        return None
    value = 0
    for char in digits:
        if char not in DIGITS:
            return None
        value = value * 10 + "0123456789".index(char)
    return value if value <= largest else None


def without_quotes(text):
    if len(text) >= 2 and text[0] == '"' and text[-1] == '"':
        return text[1:-1]
    return text


def probe(descriptor):
    if not 4 <= len(descriptor) <= 2097152:
        return False
    if descriptor[:4] == b"\x4b\x44\x4d\x56":
        return True
    for line in descriptor.split(b"\x0a"):
        text = characters(line)
        if text is None:
            return False
        place = text.find("=")
        if place < 0:
            continue
        if trim(text[:place]) == "version":
            version = number(trim(text[place + 1:]))
            return version is not None and 1 <= version <= 3
    return False


class Record:
    """What reading returns; extents are (line, access, kind, sectors, file start in sectors, name)."""

    def __init__(self):
        self.version = 0
        self.cid = self.parent_cid = self.create_type = ""
        self.geometry = {"sectors": 0, "heads": 0, "cylinders": 0}
        self.extents = []


def read_extent(text, line):
    word = words(text)
    access = word[0]
    sectors = number(word[1])
    if sectors is None:
        raise Refused(5, line)
    if access == "NOACCESS":
        return (line, access, "NOACCESS", sectors, 0, "")
    if len(word) < 3:
        raise Refused(6, line)
    if word[2] == "ZERO":
        return (line, access, "ZERO", sectors, 0, "")
    if word[2] != "FLAT":
        raise Refused(7, line)
    first = text.find('"')
    if first < 0:
        raise Refused(8, line)
    second = text.find('"', first + 1)
    if second < 0:
        raise Refused(9, line)
    if len(words(text[:first])) != 3:
        raise Refused(10, line)
    after = words(text[second + 1:])
    start = number(after[0]) if after else 0
    if start is None:
        raise Refused(11, line)
    return (line, access, "FLAT", sectors, start, trim(text[first + 1:second]))


def first_blank(text):
    for place, char in enumerate(text):
        if char in BLANKS:
            return place
    return None


def read_line(record, text, line):
    if text == "" or text[0] == "#":
        return
    blank = first_blank(text)
    if blank is not None and text[:blank] in ("RW", "RDONLY", "NOACCESS"):
        extent = read_extent(text, line)
        if len(record.extents) == MOST_ROWS:
            raise Refused(16, line)
        record.extents.append(extent)
        return
    place = text.find("=")
    if place < 0:
        return
    key, value = trim(text[:place]), trim(text[place + 1:])
    if key == "version":
        record.version = number(value, 2**32 - 1)
        if record.version is None:
            raise Refused(12, line)
    elif key == "CID":
        record.cid = value
    elif key == "parentCID":
        record.parent_cid = value
    elif key == "createType":
        record.create_type = without_quotes(value)
    elif key == "parentFileNameHint":
        raise Refused(13, line)
    elif key in ("ddb.geometry.sectors", "ddb.geometry.heads", "ddb.geometry.cylinders"):
        found = number(without_quotes(value))
        if found is None:
            raise Refused(14, line)
        record.geometry[key[len("ddb.geometry."):]] = found
    elif key[:4] == "ddb.":
        pass
    else:
        raise Refused(15, line)


def sizes(extents):
    """Each extent in turn: its size, the sum, and the row's start; 18 and 19."""
    total = 0
    for extent in extents:
        line, _, _, sectors, _, _ = extent
        size = sectors * SECTOR
        if size > LARGEST:
            raise Refused(18, line)
        if total + size > LARGEST:
            raise Refused(19, line)
        yield extent, total, total + size
        total += size


def read(descriptor):
    if len(descriptor) < 4:
        raise Refused(1, 0)
    if len(descriptor) > 2097152:
        raise Refused(2, 0)
    if descriptor[:4] == b"\x4b\x44\x4d\x56":
        raise Refused(3, 0)
    record = Record()
    for line, part in enumerate(descriptor.split(b"\x0a"), 1):
        text = characters(part)
        if text is None:
            raise Refused(4, line)
        read_line(record, trim(text), line)
    if not 1 <= record.version <= 3:
        raise Refused(17, 0)
    for _ in sizes(record.extents):
        pass
    return record


def build(record):
    """The rows: (start, end, access, kind, file start in bytes, name, line)."""
    rows = []
    for (line, access, kind, _, file_start, name), start, end in sizes(record.extents):
        if kind == "FLAT" and file_start * SECTOR > LARGEST:
            raise Refused(20, line)
        rows.append((start, end, access, kind, file_start * SECTOR, name, line))
    return rows


def find(rows, offset):
    """The row that halving finds, or None, and the count of rows looked at."""
    low, high, looked = 0, len(rows), 0
    while low < high:
        middle = low + (high - low) // 2
        start, end = rows[middle][:2]
        looked += 1
        if start <= offset < end:
            return middle, looked
        if end <= offset:
            low = middle + 1
        else:
            high = middle
    return None, looked


def mapping(rows, size, offset, length):
    """(kind, run, row, file offset, access, name, looked); a refusal's kind is its number."""
    if offset >= size:
        return ("end", 0, 0, 0, "", "", 0)
    row, looked = find(rows, offset)
    if row is None:
        return ("end", 0, 0, 0, "", "", looked)
    start, end, access, kind, file_start, name, _ = rows[row]
    if kind == "NOACCESS":
        return (21, 0, 0, 0, "", "", looked)
    run = min(length, size - offset, end - offset)
    if kind == "ZERO":
        return ("zero", run, row, 0, "", "", looked)
    if file_start + offset - start > LARGEST:
        return (22, 0, 0, 0, "", "", looked)
    return ("raw", run, row, file_start + offset - start, access, name, looked)


def walk(rows, size, offset, length, places):
    """The pieces' lines, then the line of the walk's end."""
    position, left, count, total, number = offset, length, 0, 0, 0
    while True:
        if left == 0 or position >= size:
            stop = "d"
            break
        if count >= places or count >= MOST_ROWS:
            stop = "m"
            break
        kind, run, row, file_offset, access, name, looked = mapping(rows, size, position, left)
        total += looked
        if kind == "end":
            stop = "d"
            break
        if kind in (21, 22):
            stop, number = "w", kind
            break
        if kind == "raw":
            yield line("D", position, run, row, writable(access), file_offset, text=name)
        else:
            yield line("O", position, run, row)
        count += 1
        position += run
        left -= run
    yield line(stop, position, count, total, number)


def line(letter, *numbers, text=""):
    """A line of an answer: a letter, five numbers (those not given are 0), and the bytes of a text."""
    none = [0] * (5 - len(numbers))
    return " ".join(map(str, [letter, *numbers, *none, *text.encode("utf-8")]))


def writable(access):
    return 1 if access == "RW" else 0


def answer(case, descriptor, queries):
    """The lines of the answer to a case."""
    probed = 1 if probe(descriptor) else 0
    try:
        record = read(descriptor)
        rows = build(record)
    except Refused as refused:
        yield line("c", case, probed, *refused.args)
        return
    yield line("c", case, probed)
    size = rows[-1][1] if rows else 0
    geometry = record.geometry
    yield line("v", record.version, geometry["sectors"], geometry["heads"], geometry["cylinders"], text=record.cid)
    yield line("p", text=record.parent_cid)
    yield line("t", size, len(rows), text=record.create_type)
    for start, end, access, kind, file_start, name, said in rows:
        if kind == "FLAT":
            yield line("F", said, start, end, writable(access), file_start, text=name)
        elif kind == "ZERO":
            yield line("Z", said, start, end, writable(access))
        else:
            yield line("N", said, start, end)
    for what, offset, length, places in queries:
        if what == 1:
            yield from walk(rows, size, offset, length, places)
        else:
            yield map_line(*mapping(rows, size, offset, length))


def map_line(kind, run, row, file_offset, access, name, looked):
    """The line of a mapping."""
    if kind == "raw":
        return line("r", run, looked, row, writable(access), file_offset, text=name)
    if kind == "zero":
        return line("z", run, looked, row)
    if kind == "end":
        return line("e", run, looked)
    return line("x", run, looked, kind)


def main():
    data, out = sys.stdin.buffer.read(), sys.stdout
    at = case = 0
    while at < len(data):
        (length,) = struct.unpack_from("<I", data, at)
        descriptor = data[at + 4:at + 4 + length]
        at += 4 + length
        count = data[at]
        queries = [struct.unpack_from("<BQQH", data, at + 1 + 19 * i) for i in range(count)]
        at += 1 + 19 * count
        out.write("".join(line + "\n" for line in answer(case, descriptor, queries)))
        case += 1


main()
