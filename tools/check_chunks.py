#!/usr/bin/env python3
"""Try the clauses of crates/definition/specs/Trusted.antt on data: a second reading of them, which shares nothing with the definition.

usage: check_chunks.py LISTED SERIES..

LISTED (cases/chunks.txt): each image fails exactly the clauses that its line names. SERIES: every image that a series gives from a session that was made, beside
the number of definitions that the session then has, fails none.
"""
import re
import sys
from pathlib import Path

# operand lengths of the instructions 00 to 1D
WIDTHS = {0x00: (2,), 0x0D: (2,), 0x0E: (2,), 0x10: (2,), 0x11: (2,), 0x12: (2,), 0x13: (2,), 0x15: (1,), 0x18: (1,), 0x19: (1,), 0x1A: (1,), 0x1B: (2, 1), 0x1C: (1,)}
LAST = 0x1D
CONSTANT, JUMP_NOT_TRUTHY, JUMP, GET_GLOBAL, SET_GLOBAL, GET_LOCAL, SET_LOCAL, CLOSURE, GET_FREE, CURRENT_CLOSURE = (
    0x00, 0x0D, 0x0E, 0x10, 0x11, 0x18, 0x19, 0x1B, 0x1C, 0x1D)
INTEGER, STRING, FUNCTION = 0x60, 0x61, 0x62


class Bad(Exception):
    """Bytes that are no image."""


def expand(text):
    """The bytes of a value: hexadecimal, `-` for none, {..}N. for a run."""
    if text == "-":
        return b""
    return bytes.fromhex(re.sub(r"\{([0-9a-f]+)\}(\d+)\.", lambda m: m.group(1) * int(m.group(2)), text))


def fields(data):
    """Tag and content of each field."""
    at, out = 0, []
    while at < len(data):
        end = at + 3 + int.from_bytes(data[at + 1:at + 3], "big")
        if at + 3 > len(data) or end > len(data):
            raise Bad
        out.append((data[at], data[at + 3:end]))
        at = end
    return out


def decode(code):
    """Position, byte and operands of each instruction."""
    at, out = 0, []
    while at < len(code):
        op, start, operands = code[at], at, []
        at += 1
        for width in WIDTHS.get(op, ()):
            operands.append(int.from_bytes(code[at:at + width], "big"))
            at += width
        if op > LAST or at > len(code):
            raise Bad
        out.append((start, op, operands))
    return out


def read_image(image):
    """Main's instructions, and the pool: tag, locals and instructions of each constant."""
    parts = fields(image)
    if [tag for tag, _ in parts] != [0x50, 0x51]:
        raise Bad
    pool = []
    for tag, content in fields(parts[1][1]):
        if tag == FUNCTION and len(content) >= 3:
            pool.append((tag, int.from_bytes(content[:2], "big"), decode(content[3:])))
        elif tag == STRING or tag == INTEGER and len(content) == 8:
            pool.append((tag, 0, []))
        else:
            raise Bad
    return decode(parts[0][1]), pool


def failures(image, definitions):
    """The clauses that are false of an image, beside so many definitions."""
    try:
        main, pool = read_image(image)
    except Bad:
        return {"decode"}
    failed = set()
    counts = {}  # by function: the capture counts of the Closures that name it
    for code in [main] + [code for _, _, code in pool]:
        starts = {start for start, _, _ in code}
        for start, op, operands in code:
            named = pool[operands[0]][0] if op in (CONSTANT, CLOSURE) and operands[0] < len(pool) else None
            if op in (JUMP, JUMP_NOT_TRUTHY) and not (operands[0] > start and operands[0] in starts):
                failed.add("jump")
            if op == CONSTANT and named not in (INTEGER, STRING):
                failed.add("constant")
            if op == CLOSURE and named != FUNCTION:
                failed.add("closure")
            if op in (GET_GLOBAL, SET_GLOBAL) and operands[0] >= definitions:
                failed.add("global")
            if op == CLOSURE:
                counts.setdefault(operands[0], []).append(operands[1])
    for index, (_, locals_, code) in enumerate(pool):
        for _, op, operands in code:
            if op in (GET_LOCAL, SET_LOCAL) and operands[0] >= locals_:
                failed.add("local")
            if op == GET_FREE and any(operands[0] >= count for count in counts.get(index, [])):
                failed.add("free")
    if any(op in (GET_LOCAL, SET_LOCAL, GET_FREE, CURRENT_CLOSURE) for _, op, _ in main):
        failed.add("main")
    return failed


def definitions_in(data):
    """The definitions of a tree's main level: the Lets that stand in no Function."""
    count = 0
    for tag, content in fields(data):
        if tag == 0x13:
            name = 3 + int.from_bytes(content[1:3], "big")
            count += 1 + definitions_in(content[name:])
        elif tag in (0x10, 0x11, 0x12, 0x14, 0x21, 0x22, 0x23, 0x25, 0x29, 0x2A, 0x2B):
            count += definitions_in(content)
    return count


def lines_of(path):
    return [line.split() for line in Path(path).read_text().splitlines() if line and not line.startswith("#")]


def check_listed(path):
    """The images with the clauses that they fail."""
    count = wrong = 0
    image, definitions, name = b"", 0, ""
    for key, *values in lines_of(path):
        if key == "case":
            name = values[0]
        elif key == "chunks":
            definitions, image = int(values[0]), expand(values[1])
        elif key in ("holds", "fails"):
            count += 1
            failed = failures(image, definitions)
            if failed != set(values):
                wrong += 1
                print(f"{name}: fails {sorted(failed)}")
    return count, wrong


def check_series(path):
    """The images of the series from a session that was made."""
    count = wrong = definitions = 0
    tree, name, fresh = b"", "", True
    for key, *values in lines_of(path):
        if key == "case":
            name, definitions, fresh = values[0], 0, True
        elif key == "start":
            fresh = False
        elif key == "tree":
            tree = expand(values[0])
        elif key in ("ok", "twinok") and fresh and tree:
            definitions += definitions_in(tree) if key == "ok" else 0
            count += 1
            failed = failures(expand(values[0]), definitions)
            if failed:
                wrong += 1
                print(f"{name}: fails {sorted(failed)}")
        elif key == "end":
            tree = b""
    return count, wrong


def main(paths):
    listed, wrong = check_listed(paths[0])
    given = 0
    for path in paths[1:]:
        count, more = check_series(path)
        given, wrong = given + count, wrong + more
    print(f"tools/check_chunks: {listed} listed images and {given} images of series, {wrong} differ")
    sys.exit(wrong != 0 or listed == 0 or given == 0)


main(sys.argv[1:])
