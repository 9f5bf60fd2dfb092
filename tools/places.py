#!/usr/bin/env python3
"""Counts the places of docs/DESIGN-PASS.md's eight points in crates/*/src (point 8: crates/*/proofs).

    tools/places.py [--list POINT] [--at COMMIT]

A place is found by its text, so a count is a list to read and no verdict: --list prints file, line and text.
"""
import pathlib
import re
import subprocess
import sys
import tempfile

ROOT = pathlib.Path(__file__).resolve().parent.parent

NUMBER_FILES = r"(number|tag|kind|opcodes|table|step|reason)\.rt$"
BY_HAND = (
    r"fn (same\w*|smaller|larger|greater|wide\w*|word|short|low|high|digit|hex_digit|print_\w*word\w*|kind_number|clear\w*"
    r"|copy|move_up|repeat|put_eight|put_word|eight_bytes|four_bytes|operand|join|join_four|from_word|from_bool|magnitude_of|signs_alike|less)\b"
)


def sources(root):
    return sorted((root / "crates").glob("*/src/*.rt"))


def lines(root):
    for path in sources(root):
        for number, line in enumerate(path.read_text().split("\n"), 1):
            if not line.lstrip().startswith(("//", "ghost use")):
                yield path.relative_to(root), number, line


def functions(root):
    """Each function: file, line, name, parameters, clauses and body."""
    for path in sources(root):
        text = path.read_text()
        for m in re.finditer(r"^( *)(?:pub )?(?:extern \"C\" )?fn (\w+)", text, re.M):
            end = text.find(f"\n{m.group(1)}}}\n", m.start())
            whole = text[m.start() : end]
            head, _, body = whole.partition(f"\n{m.group(1)}{{\n")
            yield path.relative_to(root), text.count("\n", 0, m.start()) + 1, m.group(2), head, body


def one(root):
    """Own enums; structs that hold a flag or an outcome beside a value; constants that number kinds or refusals."""
    for path, number, line in lines(root):
        if re.match(r"\s*(pub )?enum ", line):
            yield path, number, line
        elif re.match(r"\s*pub (room|walked|answer|found|begun|half|counting): ", line):
            yield path, number, line
        elif re.match(r"\s*(pub )?const [A-Z_]+: (u8|u32|usize) = (0x[0-9A-Fa-f]+|\d+);", line) and (
            re.search(NUMBER_FILES, str(path)) or re.search(r"BAD_|NO_|LARGE_|UNSET|OPERAND", line)
        ):
            yield path, number, line


def two(root):
    """Functions whose bodies are the same but for names, types and constants."""
    seen = {}
    for path, number, name, head, body in functions(root):
        if body.count(";") + body.count("\n") < 3:
            continue
        order = {}
        shape = re.sub(
            r"[A-Za-z_]\w*|\d\w*",
            lambda m: m.group(0)
            if m.group(0) in ("if", "else", "while", "for", "match", "return", "let", "mut", "loop", "in", "as")
            else "x%d" % order.setdefault(m.group(0), len(order)),
            re.sub(r"//.*", "", body),
        )
        seen.setdefault(re.sub(r"\s+", " ", shape), []).append((path, number, name))
    for group in seen.values():
        if len(group) > 1:
            for path, number, name in group:
                yield path, number, name + "  (one of %d)" % len(group)


def three(root):
    """Loops that are no `for`."""
    for path, number, line in lines(root):
        if re.match(r"\s*(while|loop)\b", line):
            yield path, number, line


def four(root):
    """Functions that compare, choose, convert, copy, clear or print by hand; bytes of a number made by division."""
    for path, number, line in lines(root):
        if re.search(BY_HAND, line) or re.search(r"/ 256 % 256\) as u8|/ \d{5,} % 256\) as u8", line):
            yield path, number, line


def five(root):
    """`requires` that stand in three functions or more; functions of six parameters or more."""
    facts = {}
    for path, number, name, head, body in functions(root):
        for fact in re.findall(r"requires \w* ?\{ (.*) \}$", head, re.M):
            facts.setdefault(fact, []).append((path, number, name))
        first = re.split(r"\n *(?:requires|ensures)", head)[0]
        if len(re.findall(r"\b\w+: ", first)) >= 6:
            yield path, number, name + "  (parameters)"
    for fact, places in sorted(facts.items()):
        if len(places) > 2:
            for path, number, name in places:
                yield path, number, f"{name}  requires {fact}"


def six(root):
    """Parameters that bound a part of a slice: two offsets, or a length beside it."""
    for path, number, name, head, body in functions(root):
        first = re.split(r"\n *(?:requires|ensures)", head)[0]
        words = set(re.findall(r"\b(\w+): usize", first))
        if "[" in first and (words & {"length", "height", "count"} or (words & {"from", "start", "at"} and words & {"end", "to"})):
            yield path, number, name


def seven(root):
    """Matches on a tag, a kind, a mode or an instruction whose arms are calls; chains of ifs on one."""
    for path, number, name, head, body in functions(root):
        arms = len(re.findall(r"=> [\w:.]+\(", body))
        tests = len(re.findall(r"if (?:op|k|kind|t|tag|token\.kind|i\.op) == ", body))
        if arms >= 4 or tests >= 3:
            yield path, number, name


def eight(root):
    """Answers in proofs/."""
    for path in sorted((root / "crates").glob("*/proofs/**/Answers.antt")):
        for number, line in enumerate(path.read_text().split("\n"), 1):
            if re.match(r"pub [\w'+-]+ : goal", line):
                yield path.relative_to(root), number, line


POINTS = [one, two, three, four, five, six, seven, eight]


def main(words):
    root = ROOT
    if "--at" in words:
        folder = tempfile.mkdtemp()
        commit = words[words.index("--at") + 1]
        archive = subprocess.run(["git", "-C", str(ROOT), "archive", commit, "crates"], check=True, capture_output=True).stdout
        subprocess.run(["tar", "-x", "-C", folder], input=archive, check=True)
        root = pathlib.Path(folder)
    if "--list" in words:
        for path, number, text in POINTS[int(words[words.index("--list") + 1]) - 1](root):
            print(f"{path}:{number}: {text.strip()}")
        return
    for number, point in enumerate(POINTS, 1):
        print(f"{number}: {sum(1 for _ in point(root)):5}  {point.__doc__}")


main(sys.argv[1:])
