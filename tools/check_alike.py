#!/usr/bin/env python3
"""Asks `profile alike` of random pairs of scripts, and compares with a reading of its own: the shape of a script's tree, from document 01
and docs/GRAMMAR.md alone. Most pairs differ in one token. Of two that are not alike the command must name the first token that
differs; the images of two that are alike must have one length, and be equal outside the literals' places, and so must their frames.

usage: check_alike.py PROGRAM [PAIRS [SEED]]
"""
import collections
import pathlib
import random
import re
import subprocess
import sys
import tempfile

WORDS = ["let", "return", "true", "false", "if", "else", "fn"]
TOKEN = re.compile(r'[ \t\r\n]*(?:([A-Za-z_]+)|([0-9]+)|("[^"]*")|(==|!=|[=!<>+\-*/()\[\]{},:;]))')
OPERATORS = ["=", "+", "-", "!", "*", "/", "==", "!=", "<", ">"]
LEVELS = [["==", "!="], ["<", ">"], ["+", "-"], ["*", "/"]]
LENGTHS = [3, 1, 1, 1, 1, 1, 1, 1, 1, 1, 1, 1, 1, 3, 3, 1, 3, 3, 3, 3, 1, 2, 1, 1, 2, 2, 2, 4, 2, 1]
Token = collections.namedtuple("Token", "kind text at")


class NoScript(Exception):
    """The text is no script."""


def tokens(text):
    """The tokens of a text: kind (name, integer, string, or the word or mark itself), bytes, offset."""
    found, at = [], 0
    text = text.rstrip(" \t\r\n")
    while at < len(text):
        m = TOKEN.match(text, at)
        if m is None:
            raise NoScript
        name, integer, string, mark = m.groups()
        kind = "integer" if integer else "string" if string else mark or (name if name in WORDS else "name")
        found.append(Token(kind, name or integer or string or mark, m.start(m.lastindex)))
        at = m.end()
        if (name and len(name) > 32) or (integer and int(integer) > 2**63 - 1):
            raise NoScript
    return found


def field(tag, content=b""):
    return bytes([tag]) + len(content).to_bytes(2, "big") + content


class Reader:
    """The shape of a script: its tree, 00 for the content of integers, Booleans and strings."""

    def __init__(self, row):
        self.row, self.at = row, 0

    def kind(self):
        return self.row[self.at].kind if self.at < len(self.row) else "end"

    def take(self, *kinds):
        if self.kind() not in kinds:
            raise NoScript
        self.at += 1
        return self.row[self.at - 1].text

    def until(self, end, item, between=","):
        """Items up to a mark."""
        items = []
        while self.kind() != end:
            if items and between:
                self.take(between)
            items.append(item())
        self.take(end)
        return b"".join(items)

    def statements(self, end):
        content = b""
        while self.kind() != end:
            content += self.statement()
            if self.kind() == ";":
                self.take(";")
        self.take(end) if end != "end" else None
        return content

    def statement(self):
        if self.kind() == "let":
            self.take("let")
            name = field(0x30, self.take("name").encode())
            self.take("=")
            value = self.expression()
            if value[0] == 0x24:  # a function alone has the name of its let
                value = field(0x24, name + value[6:])
            return field(0x13, name + value)
        if self.kind() == "return":
            self.take("return")
            return field(0x14, self.expression())
        return field(0x11, self.expression())

    def block(self):
        self.take("{")
        return field(0x12, self.statements("}"))

    def expression(self, level=0):
        if level == len(LEVELS):
            return self.prefix()
        left = self.expression(level + 1)
        while self.kind() in LEVELS[level]:
            operator = field(0x32, bytes([OPERATORS.index(self.take(*LEVELS[level]))]))
            left = field(0x22, left + operator + self.expression(level + 1))
        return left

    def prefix(self):
        if self.kind() not in ["!", "-"]:
            return self.postfix()
        operator = field(0x32, bytes([OPERATORS.index(self.take("!", "-"))]))
        return field(0x21, operator + self.prefix())

    def postfix(self):
        whole = self.primary()
        while self.kind() in ["(", "["]:
            if self.take("(", "[") == "(":
                whole = field(0x25, whole + self.until(")", self.expression))
            else:
                whole = field(0x2A, whole + self.expression())
                self.take("]")
        return whole

    def pair(self):
        key = self.expression()
        self.take(":")
        return key + self.expression()

    def name(self):
        return field(0x30, self.take("name").encode())

    def primary(self):
        text = self.take("name", "integer", "string", "true", "false", "(", "[", "{", "if", "fn")
        kind = self.row[self.at - 1].kind
        if kind == "name":
            return field(0x20, text.encode())
        if kind == "integer":
            return field(0x26, bytes(8))
        if kind == "string":
            return field(0x28, bytes(len(text) - 2))
        if kind in ["true", "false"]:
            return field(0x27, bytes(1))
        if kind == "(":
            inner = self.expression()
            self.take(")")
            return inner
        if kind == "[":
            return field(0x29, self.until("]", self.expression))
        if kind == "{":
            return field(0x2B, self.until("}", self.pair))
        self.take("(")
        if kind == "fn":
            return field(0x24, field(0x30) + field(0x31, self.until(")", self.name)) + self.block())
        whole = self.expression()
        self.take(")")
        whole += self.block()
        if self.kind() == "else":
            self.take("else")
            whole += self.block()
        return field(0x23, whole)


def shape(text):
    """The shape of a script, or none."""
    try:
        return Reader(tokens(text)).statements("end")
    except NoScript:
        return None


def differ(one, other):
    """Whether two tokens differ in more than a literal's value."""
    boolean = ["true", "false"]
    if one.kind in boolean and other.kind in boolean:
        return False
    if one.kind == other.kind == "integer":
        return False
    if one.kind == other.kind == "string":
        return len(one.text) != len(other.text)
    return one.text != other.text


def first_difference(text, other):
    """Where the first token that differs stands in a text; behind its last token, if that is the end."""
    row, there = tokens(text), tokens(other)
    for k, token in enumerate(row):
        if k == len(there) or differ(token, there[k]):
            return token.at
    return row[-1].at + len(row[-1].text) if row else 0


class Writer:
    """A random script, as a row of tokens."""

    def __init__(self, draw):
        self.draw, self.names, self.open = draw, ["len", "puts", "first"], 0

    def literal(self):
        string = '"' + self.draw.choice("ab") * self.draw.randrange(4) + '"'
        return self.draw.choice([str(self.draw.randrange(200)), "true", "false", string])

    def items(self, between=","):
        row = []
        for k in range(self.draw.randrange(3)):
            row += ([between] if k else []) + self.expression(1)
        return row

    def expression(self, depth):
        choice = self.draw.randrange(12 if depth < 3 else 3)
        if choice < 2:
            return [self.literal()]
        if choice == 2:
            return [self.draw.choice(self.names)]
        if choice < 6:
            return self.expression(depth + 1) + [self.draw.choice(OPERATORS[4:] + ["+", "-"])] + self.expression(depth + 1)
        if choice == 6:
            return ["("] + self.expression(depth + 1) + [")"]
        if choice == 7:
            return [self.draw.choice("!-")] + self.expression(depth + 1)
        if choice == 8:
            return ["["] + self.items() + ["]"]
        if choice == 9:
            return [self.draw.choice(self.names), "("] + self.items() + [")"]
        if choice == 10:
            other = ["else", "{"] + self.expression(depth + 1) + ["}"] if self.draw.randrange(2) else []
            return ["if", "("] + self.expression(depth + 1) + [")", "{"] + self.expression(depth + 1) + ["}"] + other
        return ["fn", "(", "x", ")", "{"] + self.expression(depth + 1) + ["}"]

    def script(self):
        row = []
        for name in self.draw.sample(["top", "limit", "curve", "dwell", "half", "sip"], self.draw.randrange(1, 6)):
            row += ["let", name, "="] + self.expression(0) + [";"]
            self.names.append(name)
        return row


def changed(draw, row):
    """A row with one change: most change one token."""
    row, at = list(row), draw.randrange(len(row))
    literals = [k for k, text in enumerate(row) if re.match(r'[0-9"]|true$|false$', text)]
    choice = draw.randrange(8)
    if choice < 3 and literals:
        at = draw.choice(literals)
        if row[at][0] == '"':
            row[at] = row[at].replace("a", "c")
        else:
            row[at] = draw.choice(["true", "false"]) if row[at][0] in "tf" else str(draw.randrange(10**draw.randrange(1, 20)))
    elif choice == 3 and literals:
        at = draw.choice(literals)
        row[at] = draw.choice(["-" + row[at], "(" + row[at] + ")", '"' + row[at].strip('"') + 'z"', Writer(draw).literal()])
    elif choice == 4:
        del row[at]
    elif choice == 5:
        row.insert(at, draw.choice(row + OPERATORS))
    elif choice == 6 and ";" in row:
        at = row.index(";") + 1
        row = row[at:] if draw.randrange(2) else row[:at] + row
    else:
        row[at] = draw.choice(row + OPERATORS + WORDS)
    return row


def literal_places(image):
    """The offsets of an image's literal bytes."""
    places = set()

    def code(at, end):
        while at < end:
            if image[at] in [6, 7]:
                places.add(at)
            at += LENGTHS[image[at]]

    pool = 3 + int.from_bytes(image[1:3], "big")
    code(3, pool)
    at = pool + 3
    while at < len(image):
        end = at + 3 + int.from_bytes(image[at + 1 : at + 3], "big")
        if image[at] == 0x62:
            code(at + 6, end)
        else:
            places.update(range(at + 3, end))
        at = end
    return places


def check_images(one, other):
    """Whether images agree outside the literals' places, which are the same."""
    places = literal_places(one)
    return len(one) == len(other) and places == literal_places(other) and all(k in places for k in range(len(one)) if one[k] != other[k])


def ask(program, folder, *words):
    return subprocess.run([program, *words], cwd=folder, capture_output=True, text=True, check=False)


def check_pair(program, folder, texts, counts):
    """What is wrong with the command's answer on two texts, or nothing."""
    for name, text in zip("ab", texts):
        (folder / name).write_text(text)
    shapes = [shape(text) for text in texts]
    said = ask(program, folder, "alike", "a", "b", "--frames", "16")
    groups = [line for line in said.stdout.splitlines() if not line.startswith(" ")]
    if None in shapes:
        counts["no script"] += 1
        refused = [name for name, one in zip("ab", shapes) if one is None]
        told = [name for name in refused if re.search(rf"^{name}:\d+:\d+: error\[", said.stderr, re.M)]
        return said.returncode != 1 or len(groups) > 1 or told != refused
    if shapes[0] == shapes[1]:
        counts["alike"] += 1
        if len(groups) != 1 or not groups[0].startswith("2 scripts, alike: ") or ": departs" in said.stderr:
            return True
        if "refused" in groups[0]:
            counts["alike and refused"] += 1
            return said.returncode != 1
        ask(program, folder, "compile", "a", "b", "--alike", "-o", "images")
        images = [(folder / "images" / f"{name}.image").read_bytes() for name in "ab"]
        frames = f"image {len(images[0])} bytes, frames {len(images[0]) // 16} of 16 bytes and {len(images[0]) % 16} left"
        return said.returncode != 0 or not groups[0].endswith(frames) or not check_images(*images)
    counts["not alike"] += 1
    place = first_difference(texts[1], texts[0])
    line, column = texts[1].count("\n", 0, place) + 1, place - texts[1].rfind("\n", 0, place)
    return said.returncode != 1 or len(groups) != 2 or not re.search(rf"^b:{line}:{column}: departs: ", said.stderr, re.M)


def main():
    program = pathlib.Path(sys.argv[1]).resolve()
    pairs = int(sys.argv[2]) if len(sys.argv) > 2 else 400
    draw = random.Random(int(sys.argv[3]) if len(sys.argv) > 3 else 1)
    counts = collections.Counter()
    with tempfile.TemporaryDirectory() as name:
        folder = pathlib.Path(name)
        for _ in range(pairs):
            row = Writer(draw).script()
            between = draw.choice([" ", " ", "\n"])
            texts = [between.join(row), between.join(changed(draw, row))]
            if check_pair(program, folder, texts, counts):
                print("check_alike: FAILED:", *texts, sep="\n  ", file=sys.stderr)
                print(ask(program, folder, "alike", "a", "b").stderr, file=sys.stderr)
                return 1
    print(f"check_alike: {pairs} pairs agree: " + ", ".join(f"{counts[key]} {key}" for key in sorted(counts)))
    return 0


if __name__ == "__main__":
    sys.exit(main())
