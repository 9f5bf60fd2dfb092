#!/usr/bin/env python3
"""Asks `monkey_read_text` of random texts, and compares with a reading by docs/GRAMMAR.md alone (tools/grammar.py): the tree's bytes,
or number and place; what is behind the tree, and the whole output where a text is refused, stays as it was.

usage: check_grammar.py SHARED-OBJECT [TEXTS [SEED]]
"""
import collections
import ctypes
import pathlib
import random
import sys
import time

from grammar import TEXT_LIMIT, TREE_LIMIT, Grammar, Page, answer

ROOT = pathlib.Path(__file__).resolve().parent.parent
ROOM, OTHER = 70000, 0xA5
NAMES = ["a", "b", "speed", "_", "lets", "iff", "Fn", "n" * 31, "n" * 32]
INTEGERS = ["0", "1", "007", "42", "9223372036854775806", "9223372036854775807", "0" * 30 + "9223372036854775807"]
LARGE = ["9223372036854775808", "18446744073709551616", "0" * 30 + "9223372036854775808", "9" * 400]
STRINGS = ['""', '"ok"', '"a (b\n]"', '"\xe9{\\"', '"' + "s" * 40 + '"', '"\x00"']
BLANKS = [" ", " ", " ", "\n", "\t", "\r\n", "  "]
ODD = ["@", '"', "\0", "'", ".", "5x", "n" * 33, "let" * 11, "&", "\xff", "\f", "\x0b", "==="]
# What one layer of nesting begins and ends with, and how many levels it adds to the tree.
LAYERS = [("(", ")", 0), ("[", "]", 1), ("!", "", 1), ("-", "", 1), ("f(", ")", 1), ("f(1,", ")", 1), ("a[", "]", 1), ("{1:", "}", 1),
          ("{", ":2}", 1), ("if(", "){1}else{2}", 1), ("1+(", ")", 1), ("1*", "", 1), ("fn(x){", "}", 3), ("if(a){", "}", 3),
          ("fn(){return ", "}", 3), ("fn(){let g=", "}", 3)]
# Texts that are asked each time, with room for all: trees of 32,767 to 32,769 bytes, one that is too long and too deep, longest names,
# statements behind another, large integers where none can stand.
EDGES = ["1 " * 2339 + "n" * 12, "1 " * 2339 + "n" * 13, "1 " * 2339 + "n" * 14, "1+" * 1830 + "1", "n" * 32, "n" * 33, *NAMES, *ODD,
         "", ";", "a;", "a;;", "fn(){a;}", "fn(){;}", *INTEGERS,
         *("a " + other for other in
           ("!b", "-b", "(b)", "[b]", "{1:b}", "fn(){}", "if(b){}", "let b=c", "return b", "b", "1", '""', "=b", ")")),
         *(begin + large for large in LARGE for begin in ("let ", "fn(", "f(1 ", "1=", "1 ", "f(", "("))]


class Writer:
    """Random texts."""

    def __init__(self, draw, grammar):
        self.draw, self.grammar = draw, grammar
        self.rules = collections.defaultdict(list)
        for left, row in grammar.rules:
            self.rules[left].append(row)
        self.tokens = [*grammar.page.words, *grammar.page.marks, "name", "integer", "string"]
        self.shortest = self.find_shortest()

    def find_shortest(self):
        """The row of each symbol that derives the fewest tokens."""
        least = {}
        for _ in self.rules:
            for left, rows in self.rules.items():
                derived = [row for row in rows if all(symbol in least or symbol not in self.rules for symbol in row)]
                known = [(sum(least.get(symbol, (1,))[0] for symbol in row), row) for row in derived]
                if known:
                    least[left] = min(known)
        return {left: row for left, (_, row) in least.items()}

    def spell(self, kind):
        """A token of a kind, and now and then one near it that is none."""
        if kind == "integer":
            return self.draw.choice(LARGE if self.draw.randrange(40) == 0 else INTEGERS)
        if kind == "string":
            return self.draw.choice(STRINGS)
        if kind == "name":
            return self.draw.choice(ODD if self.draw.randrange(600) == 0 else NAMES)
        return kind

    def derive(self, most):
        """A row of tokens that the grammar derives; past so many productions the shortest are taken."""
        row, todo = [], ["Script"]
        while todo:
            symbol = todo.pop()
            if symbol not in self.rules:
                row.append(self.spell(symbol))
                continue
            rows, shortest = self.rules[symbol], self.shortest[symbol]
            most -= len(rows) > 1
            wide = symbol.startswith(("Statement", "Primary", "Block")) or self.draw.randrange(4) == 0
            todo += reversed(self.draw.choice(rows) if most > 0 and wide else shortest)
        return row

    def nested(self):
        """A text whose tree has about 64 levels: Script and a statement are two."""
        text, levels, most = self.draw.choice(["1", "a", "[]", "f()", "", "x;y"]), 3, self.draw.randrange(61, 68)
        layers = self.draw.choice([LAYERS, LAYERS, [self.draw.choice(LAYERS)]])
        for _ in range(self.draw.choice([66, 90, 200])):
            begin, end, more = self.draw.choice(layers)
            if levels + more > most:
                break
            text, levels = begin + text + end, levels + more
        return self.draw.choice(["", "let f=", "return "]) + text + self.draw.choice(["", "", ";"])

    def joined(self, row):
        """Tokens with blanks between them, nearly always where they need some."""
        text = ""
        for token in row:
            near = text[-1:] + token[:1]
            apart = near.isalnum() or "_" in near or near in ("==", "!=")
            tight = self.draw.randrange(100) == 0 if apart else self.draw.randrange(2)
            text += ("" if tight else self.draw.choice(BLANKS)) + token
        return text

    def changed(self, row):
        """A row with one token left out, put in, put in another's place, or moved."""
        row, at = list(row), self.draw.randrange(len(row) + 1)
        choice = self.draw.randrange(4)
        if choice == 0:
            del row[at : at + self.draw.randrange(1, 3)]
        elif choice == 1:
            row.insert(at, self.spell(self.draw.choice(self.tokens)))
        elif choice == 2:
            row[at : at + 1] = [self.draw.choice(ODD + LARGE) if self.draw.randrange(3) == 0 else self.spell(self.draw.choice(self.tokens))]
        else:
            row[at : at + 2] = reversed(row[at : at + 2])
        return row

    def damaged(self, text):
        """A text with one byte changed, cut at a byte, or with a byte put in."""
        at = self.draw.randrange(len(text) + 1)
        byte = self.draw.choice(["\"", "@", " ", "=", "(", ")", "-", ";", "{", "}", "9", "x", chr(self.draw.randrange(256))])
        return self.draw.choice([text[:at], text[at:], text[:at] + self.draw.choice(["", byte]) + text[at + self.draw.randrange(2) :]])

    def about_the_limit(self, text):
        """A text that ends, or one of whose tokens does, about offset 8,192, mostly blanks."""
        blanks = self.draw.choice([" ", "\n", " \t"]) * TEXT_LIMIT
        length = TEXT_LIMIT + self.draw.randrange(-3, 4)
        choice = self.draw.randrange(4)
        if choice == 0:
            return text[:length] + blanks[: max(0, length - len(text))]
        if choice == 1:
            return blanks[: max(0, length - len(text))] + text
        if choice == 2:
            last = self.draw.choice(["9" * 25, "name", '"string"', '"open', "==", "n" * 32, "n" * 33, "+", "1", "0" * 25, "let", "@"])
            return (text + blanks)[: max(0, length - self.draw.randrange(len(last) + 1))] + last
        return text + blanks + self.draw.choice(["", " ", "1", "@", '"'])

    def long(self):
        """A text of some thousand tokens; that of the third kind has a tree of about 32,768 bytes."""
        choice = self.draw.randrange(8)
        if choice < 3:
            return "1 " * 2339 + "n" * self.draw.randrange(11, 16)
        if choice < 5:
            return self.joined(self.derive(4000))
        piece = self.draw.choice(["1+", "!", "(", "a[", "f(", "{", "fn(){", "if(a){", "[1,", "- ", "a;", '"",', "a b ", "{1:", "9"])
        text = piece * ((TEXT_LIMIT + self.draw.randrange(-4, 5)) // len(piece))
        return text + self.draw.choice(["", "1", ")", "@"])

    def text(self):
        """A text of any kind."""
        choice = self.draw.randrange(200)
        if choice == 0:
            return self.long()
        row = self.derive(self.draw.choice([5, 20, 60, 150, 300]))
        if choice < 10:
            return self.about_the_limit(self.joined(row) if choice < 7 else self.nested())
        if choice < 40:
            text = self.nested()
            return text if choice < 34 else self.damaged(text)
        if choice < 50:
            return self.joined(self.spell(self.draw.choice(self.tokens)) for _ in range(self.draw.randrange(1, 12)))
        if choice < 110:
            return self.joined(row)
        if choice < 160:
            return self.joined(self.changed(row))
        return self.damaged(self.joined(row))


def ask(library, text, room):
    """What the library says of a text: its tree, or number and place; none where it wrote what it must not."""
    output = ctypes.create_string_buffer(bytes([OTHER]) * ROOM, ROOM)
    said = library.monkey_read_text(ctypes.create_string_buffer(text, len(text) + 1), len(text), output, room)
    number, length = said >> 32, said & 0xFFFFFFFF
    kept = 0 if number else length
    if output.raw[kept:] != bytes([OTHER]) * (ROOM - kept):
        return None
    return (number, length) if number else output.raw[:length]


def room_for(draw, expected):
    """How long an output is lent: mostly for every tree, sometimes about as long as the tree."""
    if draw.randrange(4) or isinstance(expected, tuple):
        return draw.choice([ROOM, ROOM, ROOM, ROOM, ROOM, TREE_LIMIT, TREE_LIMIT, draw.randrange(40)])
    return max(0, len(expected) + draw.randrange(-2, 3))


def main():
    sys.setrecursionlimit(200000)
    library = ctypes.CDLL(str(pathlib.Path(sys.argv[1]).resolve()))
    library.monkey_read_text.restype = ctypes.c_uint64
    library.monkey_read_text.argtypes = [ctypes.c_char_p, ctypes.c_size_t, ctypes.c_char_p, ctypes.c_size_t]
    texts = int(sys.argv[2]) if len(sys.argv) > 2 else 600
    draw = random.Random(int(sys.argv[3]) if len(sys.argv) > 3 else 1)
    grammar = Grammar(Page((ROOT / "docs/GRAMMAR.md").read_text()))
    writer, counts, began = Writer(draw, grammar), collections.Counter(), time.monotonic()
    for number in range(texts):
        edge = number < len(EDGES)
        text = (EDGES[number] if edge else writer.text()).encode("latin-1")
        expected = answer(text, TREE_LIMIT, grammar)
        room = ROOM if edge else room_for(draw, expected)
        if not isinstance(expected, tuple) and len(expected) > room:
            expected = answer(text, room, grammar)
        said = ask(library, text, room)
        if said != expected:
            shown = [one.hex() if isinstance(one, bytes) else one for one in (said, expected)]
            print(f"check_grammar: FAILED: {text}\n  room {room}\n  said     {shown[0]}\n  expected {shown[1]}", file=sys.stderr)
            return 1
        counts[f"refused {said[0]}" if isinstance(said, tuple) else "read"] += 1
    told = ", ".join(f"{counts[key]} {key}" for key in sorted(counts))
    print(f"check_grammar: {texts} texts agree: {told}; {time.monotonic() - began:.0f} s")
    return 0


if __name__ == "__main__":
    sys.exit(main())
