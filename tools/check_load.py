#!/usr/bin/env python3
"""Counts what the load promises of seeds 0 to 999: at least 500 trees differ, 500 are accepted, and every statement, expression and operator but MacroLit
and Assign occurs. The trees are made here anew from docs/LOAD.md, and their lengths compared with the recorded lines.

usage: check_load.py LINES
"""
import sys

WORDS = [b"len", b"puts", b"first", b"last", b"rest", b"push", b"a", b"b", b"c"]
INFIXES = [1, 2, 4, 5, 6, 7, 8, 9]
EXPRESSION, STATEMENT, BLOCK = 11, 18, 39


def field(tag, content):
    return bytes([tag]) + len(content).to_bytes(2, "big") + content


class Load:
    """The tree of a seed."""

    def __init__(self, seed):
        self.state = seed

    def draw(self, choices):
        self.state = (self.state * 1664525 + 1013904223) % 2**32
        return self.state // 65536 % choices

    def field(self, tag, parts, most):
        """A field of parts, each a need and a function of the bytes that it may take."""
        most, content = most - 3, b""
        for number, (_, make) in enumerate(parts):
            part = make(most - sum(need for need, _ in parts[number + 1 :]))
            content, most = content + part, most - len(part)
        return field(tag, content)

    def name(self, choices=3):
        return field(0x30, bytes([0x61 + self.draw(choices)]))

    def leaf(self, row):
        if row == 0:
            return field(0x20, WORDS[self.draw(9)])
        if row == 1:
            return field(0x26, self.draw(256).to_bytes(8, "big"))
        if row == 2:
            return field(0x27, bytes([self.draw(2)]))
        return field(0x28, bytes(0x61 + self.draw(26) for _ in range(self.draw(9))))

    def function_name(self):
        row = self.draw(4)
        return field(0x30, bytes([0x60 + row]) if row else b"")

    def parameters(self):
        return field(0x31, b"".join(self.name() for _ in range(self.draw(3))))

    def expression(self, below, most):
        choices = 13 if below >= 3 and most >= 96 else 10 if below >= 1 and most >= 48 else 4
        row = self.draw(choices)
        if row < 4:
            return self.leaf(row)
        inner = (EXPRESSION, lambda m: self.expression(below - 1, m))
        branch = (BLOCK, lambda m: self.branch(below - 1, m))
        if row == 4:
            return self.field(0x21, [(4, lambda m: field(0x32, bytes([2 + self.draw(2)]))), inner], most)
        if row == 5:
            return self.field(0x22, [inner, (4, lambda m: field(0x32, bytes([INFIXES[self.draw(8)]]))), inner], most)
        if row == 6:
            return self.field(0x25, [inner] * (1 + self.draw(3)), most)
        if row == 7:
            return self.field(0x29, [inner] * self.draw(4), most)
        if row == 8:
            return self.field(0x2A, [inner] * 2, most)
        if row == 9:
            return self.field(0x2B, [inner] * (2 * self.draw(3)), most)
        if row < 12:
            return self.field(0x23, [inner] + [branch] * (row - 9), most)
        body = (BLOCK, lambda m: self.block(below - 1, m))
        return self.field(0x24, [(4, lambda m: self.function_name()), (11, lambda m: self.parameters()), body], most)

    def expression_statement(self, tag, below, most):
        return self.field(tag, [(EXPRESSION, lambda m: self.expression(below - 1, m))], most)

    def statement(self, below, most):
        row = self.draw(4 if below >= 3 and most >= 48 else 3)
        if row == 1:
            return self.field(0x13, [(4, lambda m: self.name()), (EXPRESSION, lambda m: self.expression(below - 1, m))], most)
        if row == 3:
            return self.block(below, most)
        return self.expression_statement(0x14 if row else 0x11, below, most)

    def statements(self, below, count):
        return [(STATEMENT, lambda m: self.statement(below, m))] * count

    def block(self, below, most):
        return self.field(0x12, self.statements(below - 1, self.draw(3)), most)

    def branch(self, below, most):
        last = (STATEMENT, lambda m: self.expression_statement(0x11, below - 1, m))
        return self.field(0x12, self.statements(below - 1, self.draw(2)) + [last], most)

    def program(self):
        names, count = self.draw(4), 1 + self.draw(8)
        lets = [(STATEMENT, lambda m, n=n: field(0x13, field(0x30, bytes([n])) + self.leaf(1))) for n in b"abc"[: 3 if names else 2]]
        return self.field(0x10, lets + self.statements(10, count), 2048)


def occurring(tree, at, end, parent, found):
    """The statements and expressions of a part of a tree by tag, Block as a statement by 'block', and operators by their byte."""
    while at < end:
        tag, behind = tree[at], at + 3 + tree[at + 1] * 256 + tree[at + 2]
        if tag == 0x32:
            found.add(("operator", tree[at + 3]))
        elif tag == 0x12:
            found.add("block" if parent in (0x10, 0x12) else "branch")
        elif 0x11 <= tag <= 0x2C:
            found.add(tag)
        if tag < 0x20 or tag in (0x21, 0x22, 0x23, 0x24, 0x25, 0x29, 0x2A, 0x2B):
            occurring(tree, at + 3, behind, tag, found)
        at = behind


lines = [tuple(map(int, line.split(" "))) for line in open(sys.argv[1])]
trees = [Load(seed).program() for seed in range(1000)]
found = set()
for tree in trees:
    occurring(tree, 0, len(tree), None, found)
due = {0x11, 0x13, 0x14, "block"} | set(range(0x20, 0x2C)) | {("operator", o) for o in range(1, 10)}
faults = [
    ([line[0] for line in lines] != list(range(1000)), "the lines are not those of seeds 0 to 999"),
    ([line[1] for line in lines] != [len(tree) for tree in trees], "a length is not the one that docs/LOAD.md gives"),
    (len(set(trees)) < 500, "fewer than 500 trees differ"),
    (sum(line[2] == 0 for line in lines) < 500, "fewer than 500 trees are accepted"),
    (not due <= found, f"does not occur: {due - found}"),
]
for wrong, text in faults:
    if wrong:
        sys.exit(f"check_load.py: {text}")
print(f"check_load.py: {len(set(trees))} trees differ, {sum(line[2] == 0 for line in lines)} are accepted, every kind occurs")
