"""Scripts as docs/GRAMMAR.md has them, and nothing else: its productions, words, marks, tags and operators are read from the page. An
Earley recogniser says how a text is answered; a text with two derivations is an error. Shares nothing with the library.
"""
import collections
import re

TEXT_LIMIT, NAME_LIMIT, INTEGER_LIMIT, TREE_LIMIT, LEVELS = 8192, 32, 2**63 - 1, 32768, 64
BAD_SCRIPT, LARGE_INTEGER, TOO_DEEP, OUTPUT_SHORT = 20, 21, 4, 15
Token = collections.namedtuple("Token", "kind text at")
# What a production derives: its left side, and a chain (the chain before, what its last symbol derives).
Node = collections.namedtuple("Node", "left chain")
# A field: its tag, its bytes, and how many levels it has.
Field = collections.namedtuple("Field", "tag whole height")


class Ambiguous(Exception):
    """A text has two derivations."""


class Refused(Exception):
    """A text is refused: number and place."""


class Page:
    """What is read from docs/GRAMMAR.md."""

    def __init__(self, text):
        tokens, productions, denotes = (text.split(f"## {title}\n")[1].split("\n## ")[0] for title in
                                        ("Tokens", "Productions", "What a script denotes"))
        self.words = re.search(r"`([a-z ]+)` are words of the language", tokens).group(1).split()
        pairs = re.search(r"\| always: (.*) \|", re.search(r"\| `=` or `!` \|.*", tokens).group()).group(1)
        self.marks = re.findall("`([^`]+)`", pairs) + re.search(r"\| one of `(.*)` \| that byte", tokens).group(1).split()
        block = re.sub(r"\n +\|", " |", "\n".join(line for line in productions.split("\n") if line.startswith("    ")))
        self.productions = [line.strip().split("=", 1) for line in block.split("\n")]
        continuing = re.search(r"does not begin with ([^:]+): these continue", " ".join(productions.split())).group(1)
        self.continuing = re.findall("`([^`]+)`", continuing)
        self.tags = dict(re.findall(r"^\| (.+?) \| ([0-9A-F]{2}) \|", denotes, re.M))
        operators = re.search(r"An operator \(32\) is one byte: ([^|]*)", denotes).group(1)
        self.operators = {mark: int(code, 16) for code, mark in re.findall(r"([0-9A-F]{2}) `(\S+?)`", operators)}


class Grammar:
    """The page's productions as rules without brackets, braces and empty right sides. `X*` is a repetition within X; `X'` derives what X
    does and does not begin with a mark that continues the expression before."""

    def __init__(self, page):
        self.page, self.expanded = page, {}
        for left, right in page.productions:
            self.left, self.symbols = left.strip(), re.findall(r'"[^"]+"|[A-Za-z]+|[()\[\]{}|]', right)
            self.expanded[self.left] = self.alternatives(None)
        self.start = page.productions[0][0].strip()
        self.expand_statements()
        self.add_restricted()
        self.nullable = self.find_nullable()
        self.rules = sorted({(left, row) for left, rows in self.expanded.items() for full in rows for row in self.without(full) if row})
        self.check_symbols()
        self.find_beginnings()

    def alternatives(self, end):
        """The rows that the symbols up to a closing bracket stand for."""
        rows, found = [()], []
        while self.symbols:
            symbol = self.symbols.pop(0)
            if symbol == end:
                return found + rows
            if symbol == "|":
                found, rows = found + rows, [()]
                continue
            if symbol == "(":
                parts = self.alternatives(")")
            elif symbol == "[":
                parts = [()] + self.alternatives("]")
            elif symbol == "{":
                name, body = self.left + "*", self.alternatives("}")
                assert name not in self.expanded, "two repetitions in one production"
                self.expanded[name] = body + [(name, *row) for row in body]
                parts = [(), (name,)]
            else:
                parts = [(symbol.strip('"'),)]
            rows = [row + part for row in rows for part in parts]
        assert end is None, "a bracket is open"
        return found + rows

    def expand_statements(self):
        """A statement behind another without `;` is one of Statement'."""
        rows = self.expanded["Statements*"]
        self.expanded["Statements*"] = [row[:-1] + ("Statement'",) if row[-2:-1] != (";",) else row for row in rows]

    def add_restricted(self):
        """The rules of each X' that is used."""
        wanted = ["Statement'"]
        for left in wanted:
            self.expanded[left] = []
            for first, *rest in self.expanded[left[:-1]]:
                if first[0].isupper():
                    first += "'"
                    if first not in wanted:
                        wanted.append(first)
                if first not in self.page.continuing:
                    self.expanded[left].append((first, *rest))

    def find_nullable(self):
        """The symbols that derive nothing."""
        found = set()
        while True:
            more = {left for left, rows in self.expanded.items() if any(all(symbol in found for symbol in row) for row in rows)}
            if more == found:
                return found
            found = more

    def without(self, row):
        """The rows that are left where some of what may be nothing is."""
        rows = [()]
        for symbol in row:
            rows = [one + part for one in rows for part in ([(), (symbol,)] if symbol in self.nullable else [(symbol,)])]
        return rows

    def check_symbols(self):
        """Each symbol has rules or is a token, and each token is met."""
        tokens = {symbol for _, row in self.rules for symbol in row if not symbol[0].isupper()}
        assert tokens == {"name", "integer", "string", *self.page.words, *self.page.marks}, tokens
        assert all(symbol in self.expanded for _, row in self.rules for symbol in row if symbol[0].isupper())

    def find_beginnings(self):
        """Which rules begin with a symbol; which symbols may be derived where a symbol is awaited."""
        self.beginning = collections.defaultdict(list)
        firsts = collections.defaultdict(set)
        for number, (left, row) in enumerate(self.rules):
            self.beginning[row[0]].append((left, number))
            firsts[left].add(row[0])
        self.closure = {}
        for left in firsts:
            found, todo = set(), [left]
            while todo:
                symbol = todo.pop()
                if symbol in firsts and symbol not in found:
                    found.add(symbol)
                    todo += firsts[symbol]
            self.closure[left] = frozenset(found)


class Place:
    """The items between two tokens: those that await a symbol, and the symbols that may be derived here."""

    def __init__(self):
        self.waiting, self.predicted = collections.defaultdict(list), set()


class Recogniser:
    """Earley's items over a row of tokens."""

    def __init__(self, grammar):
        self.grammar, first = grammar, Place()
        first.predicted |= grammar.closure[grammar.start]
        self.places = [first]
        self.whole = Node(grammar.start, None) if grammar.start in grammar.nullable else None

    def awaits(self, kind):
        """Whether a token of a kind goes on with those before."""
        place = self.places[-1]
        return kind in place.waiting or any(left in place.predicted for left, _ in self.grammar.beginning[kind])

    def advance(self, symbol, at, derived):
        """The items that have the symbol behind them, where it was derived from a place on."""
        place = self.places[at]
        for number, dot, origin, chain in place.waiting.get(symbol, ()):
            yield number, dot + 1, origin, (chain, derived)
        for left, number in self.grammar.beginning[symbol]:
            if left in place.predicted:
                yield number, 1, at, (None, derived)

    def take(self, token):
        """Goes on by a token; whether an item is left."""
        grammar, place, seen = self.grammar, Place(), set()
        todo = list(self.advance(token.kind, len(self.places) - 1, token))
        self.whole = None
        for item in todo:
            number, dot, origin, chain = item
            if (number, dot, origin) in seen:
                raise Ambiguous(grammar.rules[number])
            seen.add((number, dot, origin))
            left, row = grammar.rules[number]
            if dot < len(row):
                place.waiting[row[dot]].append(item)
                place.predicted |= grammar.closure.get(row[dot], frozenset())
                continue
            node = Node(left, chain)
            if left == grammar.start and origin == 0:
                self.whole = node
            todo.extend(self.advance(left, origin, node))
        self.places.append(place)
        return bool(todo)


def run(text, at, page):
    """The run that begins at a place: its kind, or none where it is no token, and its end."""
    word = re.compile(rb"[A-Za-z_]+").match(text, at)
    if word:
        kind = word.group().decode()
        return (kind if kind in page.words else "name") if len(kind) <= NAME_LIMIT else None, word.end()
    digits = re.compile(rb"[0-9]+").match(text, at)
    if digits:
        return "integer", digits.end()
    if text[at : at + 1] == b'"':
        end = text.find(b'"', at + 1) + 1
        return ("string", end) if end else (None, len(text))
    end = at + 2 if text[at : at + 1] in (b"=", b"!") and text[at + 1 : at + 2] == b"=" else at + 1
    kind = text[at:end].decode("latin-1")
    return kind if kind in page.marks else None, end


def value(digits):
    """An integer's value, or one above the limit where it is: more than 20 digits are not read."""
    return int(digits.lstrip(b"0")[:20] or b"0")


def read(text, grammar):
    """What a text derives, or Refused with 20 or 21."""
    recogniser, at = Recogniser(grammar), 0
    while True:
        while at < len(text) and text[at] in b" \t\n\r":
            at += 1
        if at >= TEXT_LIMIT and len(text) > TEXT_LIMIT:
            raise Refused(BAD_SCRIPT, TEXT_LIMIT)
        if at == len(text):
            break
        kind, end = run(text, at, grammar.page)
        if kind is None or end > TEXT_LIMIT or not recogniser.awaits(kind):
            raise Refused(BAD_SCRIPT, at)
        if kind == "integer" and value(text[at:end]) > INTEGER_LIMIT:
            raise Refused(LARGE_INTEGER, at)
        assert recogniser.take(Token(kind, text[at:end], at))
        at = end
    if recogniser.whole is None:
        raise Refused(BAD_SCRIPT, len(text))
    return recogniser.whole


def parts(node):
    """What the symbols of a production derive, in their order, repetitions among them."""
    found, chains = [], [node.chain]
    while chains:
        chain = chains.pop()
        if chain is None:
            continue
        before, last = chain
        chains.append(before)
        if isinstance(last, Node) and last.left.endswith("*"):
            chains.append(last.chain)
        else:
            found.append(last)
    return found[::-1]


# The rows of the page's table, by left side and first token of a production.
ROWS = {
    ("Script", None): "Script",
    ("Statement", "let"): "`let` name `=` Expression",
    ("Statement", "return"): "`return` Expression",
    ("Statement", None): "Expression, as a statement",
    **{("Equality", mark): "left operator right" for mark in ("==", "!=")},
    **{("Comparison", mark): "left operator right" for mark in ("<", ">")},
    **{("Sum", mark): "left operator right" for mark in ("+", "-")},
    **{("Product", mark): "left operator right" for mark in ("*", "/")},
    **{("Prefix", mark): "`!` or `-` and its operand" for mark in ("!", "-")},
    ("Postfix", "("): "Postfix `(` List `)`",
    ("Postfix", "["): "Postfix `[` Expression `]`",
    ("Primary", "name"): "name, as an expression",
    ("Primary", "integer"): "integer",
    ("Primary", "string"): "string",
    ("Primary", "true"): "`true`, `false`",
    ("Primary", "false"): "`true`, `false`",
    ("Primary", "["): "`[` List `]`",
    ("Primary", "{"): "`{` Pairs `}`",
    ("Primary", "if"): "`if` with one block, or two",
    ("Primary", "fn"): "`fn` `(` Names `)` Block",
    ("Block", "{"): "Block",
}
# Productions that denote what those within them do, and nothing of their own.
SILENT = {("Statements", None), ("Statements", ";"), ("Expression", None), ("Equality", None), ("Comparison", None), ("Sum", None),
          ("Product", None), ("Prefix", None), ("Postfix", None), ("Primary", "("), ("List", None), ("List", ","), ("Pairs", ":"),
          ("Names", "name")}


def field(tag, content):
    """A field whose content is bytes, or a row of fields. What is too long for two bytes is too long for every tree."""
    inner = content if isinstance(content, bytes) else b"".join(one.whole for one in content)
    height = 1 if isinstance(content, bytes) else 1 + max((one.height for one in content), default=0)
    return Field(tag, bytes([tag]) + min(len(inner), 65535).to_bytes(2, "big") + inner, height)


class Tree:
    """What a derivation denotes, by the rows of the page's table."""

    def __init__(self, page):
        assert set(page.tags) == set(ROWS.values()), set(page.tags) ^ set(ROWS.values())
        self.page = page
        self.rules = {"`let` name `=` Expression": self.let, "left operator right": self.operation,
                      "`!` or `-` and its operand": self.operation, "`fn` `(` Names `)` Block": self.function,
                      "name, as an expression": lambda found: found[0].text, "string": lambda found: found[0].text[1:-1],
                      "integer": lambda found: value(found[0].text).to_bytes(8, "big"),
                      "`true`, `false`": lambda found: bytes([found[0].kind == "true"])}

    def fields(self, node):
        """The fields that a derivation denotes."""
        found = parts(node)
        row = (node.left.rstrip("'"), next((one.kind for one in found if isinstance(one, Token)), None))
        if row not in ROWS:
            assert row in SILENT, row
            return self.inner(found)
        name = ROWS[row]
        return [field(int(self.page.tags[name], 16), self.rules.get(name, self.inner)(found))]

    def inner(self, found):
        """What the productions within one denote; its tokens denote nothing."""
        return [one for part in found if isinstance(part, Node) for one in self.fields(part)]

    def operation(self, found):
        """Operands and operator, in their order."""
        row = []
        for part in found:
            row += self.fields(part) if isinstance(part, Node) else [field(0x32, bytes([self.page.operators[part.kind]]))]
        return row

    def let(self, found):
        """The name and the expression; a function alone has the name too."""
        name, [value] = field(0x30, found[1].text), self.inner(found)
        if value.tag == 0x24:  # its own name, empty so far, is the let's
            own = field(0x30, b"").whole
            content = name.whole + value.whole[3 + len(own) :]
            value = Field(0x24, value.whole[:1] + min(len(content), 65535).to_bytes(2, "big") + content, value.height)
        return [name, value]

    def function(self, found):
        """An empty name, the parameters, the block."""
        names = [one for part in found if isinstance(part, Node) and part.left == "Names" for one in parts(part)]
        parameters = field(0x31, [field(0x30, one.text) for one in names if one.kind == "name"])
        return [field(0x30, b""), parameters, *self.fields(found[-1])]


def answer(text, room, grammar):
    """How a text is answered where the output has room for so many bytes: its tree, or number and place of the refusal."""
    try:
        [tree] = Tree(grammar.page).fields(read(text, grammar))
    except Refused as refused:
        return refused.args
    if tree.height > LEVELS:
        return TOO_DEEP, 0
    if len(tree.whole) > min(room, TREE_LIMIT):
        return OUTPUT_SHORT, 0
    return tree.whole
