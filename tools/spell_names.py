#!/usr/bin/env python3
"""Brings the repository's own definitions and lemmas to the spelling that Rattle's guide asks for: words in snake case, types in camel case.

usage: spell_names.py [--check] [FOLDER]      at the top of the repository, once, after port.py

What is renamed: what crates/*/specs/**.antt and crates/*/proofs/*.antt declare (definitions, lemmas, constructors, fields of records), wherever it is cited:
in .antt files, in the clauses and ghost items of .rt files, in the 'old:' and 'new:' lines of must-fail edits, and between backticks in README.md and docs/. Functions of src/, their parameters,
strings, inputs and outputs keep their names, as do the names that Rattle makes for a function's proof (proofs/F/).

The rule. An inner capital of a name that begins in lower case becomes '_' and a small letter (byteAt, byte_at). A dash stays where it joins two names, that is
where what stands on both sides is itself a name that this repository or the library's list below declares; else it is a '_' (left-holds, left_holds).
Where a lemma so respelled would fall together with another name, its dashes stay. A type-valued definition in lower case gets a capital (TYPES).
Prints the table of names, sorted; with --check it writes nothing.
"""
import os
import re
import sys

WORD = r"[^\s(){}.;,@\"«»\[\]\\]+"
MODIFIERS = r"((?:(?:abbrev|unfoldable|pub) )*)"
SIGNATURE = re.compile(r"^\s*" + MODIFIERS + r"((?:" + WORD + r" )+): ")
DECLARED = re.compile(r"^\s*" + MODIFIERS + r"(data|record|ruleset) (" + WORD + r")")
TOKEN = re.compile(r"--[^\n]*|\"(?:[^\"\\]|\\.)*\"|«[^»]*»|" + WORD)
# Definitions whose values are types, and begin in lower case.
TYPES = {"stmtIs": "StmtIs", "exprIs": "ExprIs", "always": "Always"}
# Functions of the library whose names a lemma's name may join.
PLAIN = set("is at of in as to and or no not all after has by it one then end here both same first last more next other back once from up".split())
LIBRARY = set("length append take drop map set get_or reverse sum zip concat filter fold add mul sub div mod min max".split())


def read(path):
    with open(path, encoding="utf-8", newline="") as it:
        return it.read()


def files(root, ending):
    for folder, folders, names in os.walk(os.path.join(root, "crates")):
        folders[:] = sorted(f for f in folders if f not in ("out", "data"))
        for name in sorted(names):
            if name.endswith(ending):
                yield os.path.join(folder, name)


def is_module(root, path):
    """Says whether a file declares names for others: one of specs/, or one that stands in proofs/ itself."""
    parts = os.path.relpath(path, root).split(os.sep)
    return parts[2] == "specs" or (parts[2] == "proofs" and len(parts) == 4)


def defined(text):
    """Yields the definitions of a file of specs/, without fields and constructors."""
    inside = False
    for line in text.split("\n"):
        if DECLARED.match(line):
            inside = True
        elif line[:1].strip():
            inside = False
        found = SIGNATURE.match(line)
        if found and not inside and found[1]:
            yield from found[2].split()


def declared(text):
    for line in text.split("\n"):
        if line.lstrip().startswith("--"):
            continue
        found = DECLARED.match(line)
        if found:
            yield found[3], True
            continue
        found = SIGNATURE.match(line)
        if found:
            words = found[2].split()
            if words[0] not in ("let", "in", "use", "module"):
                for word in words:
                    yield word, False


def snake(word):
    return re.sub(r"(?<=[a-z0-9])([A-Z])", lambda it: "_" + it[1].lower(), word)


def table(root):
    names, taken, known = set(), set(), set()
    for path in files(root, ".antt"):
        text = read(path)
        taken.update(it for it in TOKEN.findall(text) if not it.startswith(("--", '"')))
        if is_module(root, path):
            names.update(word for word, _ in declared(text))
            if f"{os.sep}specs{os.sep}" in path:
                known.update(defined(text))
    for path in files(root, ".rt"):
        taken.update(re.findall(r"[A-Za-z_][A-Za-z0-9_']*", read(path)))
    camel = {it for it in names if re.search(r"[a-z0-9][A-Z]", it) and it[0].islower() and "-" not in it}
    first = {it: TYPES.get(it, snake(it)) for it in sorted(camel | (names & set(TYPES)))}
    known = {first.get(it, it) for it in known if "-" not in it} | LIBRARY
    known -= PLAIN
    out, used = dict(first), set(first.values())
    # A lemma whose dashes port.py took for a word of the library, and that falls together with a definition, has them back.
    for it in sorted(set(first.values()) & names):
        if it not in first:
            out[it] = it.replace("_", "-")
            print(f"look: {it} is {out[it]} again", file=sys.stderr)
    for it in sorted(n for n in names if "-" in n):
        parts = it.split("-")
        if "" in parts or it[0].isupper():
            continue
        spelled = [p if p[:1].isupper() else snake(p) for p in parts]
        new = spelled[0]
        for a, b in zip(spelled, spelled[1:]):
            joins = a in known and b in known or a[:1].isupper() or b[:1].isupper()
            new += ("-" if joins and not any(p.isdigit() for p in parts) else "_") + b
        if new != it and (new in used or new in names or new in taken):
            new = "-".join(spelled)
        if new != it:
            out[it] = new
        used.add(new)
    clash = sorted((a, b) for a, b in out.items() if b in taken and b not in out)
    return {a: b for a, b in out.items() if a != b}, clash, names


def respelled(text, names, of_function=False):
    def one(it):
        token = it[0]
        before, after = text[it.start() - 1 : it.start()], text[it.end() : it.end() + 1]
        # A function's folder in a path, and a step of a function's proof, keep their names.
        if "_" in token and (before == "." and after == "." or after == "." and text[it.end() + 1 : it.end() + 2] == "{"):
            return token
        if of_function and before == "." and not re.search("[a-z][A-Z]", token):
            return token
        if token.startswith("--"):
            return re.sub(r"`([^`]*)`", lambda q: "`" + respelled(q[1], names) + "`" if "--" not in q[1] else q[0], token)
        if token.startswith(('"', "«")):
            return token
        return names.get(token, token)

    return TOKEN.sub(one, text)


CLAUSE = re.compile(r"(?m)^(\s*(?:pub )?ghost [^;{]*[;{])|\b(requires|ensures|invariant|decreases)(\*?)( \w+)? \{")


def in_source(text, names):
    """Respells clauses, ghost fields and ghost uses alone."""
    out, at = [], 0
    for it in CLAUSE.finditer(text):
        if it.start() < at:
            continue
        line = text[text.rfind("\n", 0, it.start()) + 1 : it.start()]
        if "//" in line:
            continue
        end = it.end()
        if text[end - 1] == "{" and "use" not in it[0]:
            depth = 1
            while depth and end < len(text):
                depth += {"{": 1, "}": -1}.get(text[end], 0)
                end += 1
        elif "use" in it[0]:
            end = text.index(";", it.start()) + 1
        out += [text[at : it.start()], respelled(text[it.start() : end], names)]
        at = end
    return "".join(out) + text[at:]


def in_edit(text, names, of_source):
    def one(line):
        if not line.startswith(("old: ", "new: ")):
            return line
        if of_source and not re.search(r"\b(requires|ensures|ghost)\b", line):
            return line
        return line[:5] + respelled(line[5:], names)

    return "\n".join(one(it) for it in text.split("\n"))


def in_page(text, names):
    """Respells what a page has between backticks: whole names of the table alone."""
    one = lambda it: names.get(it[0], it[0]) if re.search("[A-Z-]", it[0]) else it[0]
    return re.sub(r"`([^`\n]*)`", lambda q: "`" + re.sub(r"(?<![\w/.+-])" + WORD + r"(?![\w/-])", one, q[1]) + "`", text)


def main(words):
    check = "--check" in words
    rest = [it for it in words if it != "--check"]
    root = rest[0] if rest else "."
    names, clash, declares = table(root)
    # Edits and pages still have the old spelling of what port.py respelled.
    older = dict(names)
    for it in declares:
        capital = re.sub(r"_([a-z0-9])", lambda q: q[1].upper(), it)
        for old in (capital, it.replace("_", "-")):
            if old != it and old not in declares and it[0].islower():
                older.setdefault(old, names.get(it, it))
    for a, b in sorted(names.items()):
        print(f"{a} {b}")
    for a, b in clash:
        print(f"look: {a} -> {b} is a word somewhere already", file=sys.stderr)
    if check:
        return 0
    for ending, turn in ((".antt", respelled), (".rt", in_source)):
        for path in files(root, ending):
            old = read(path)
            new = respelled(old, names, True) if ending == ".antt" and not is_module(root, path) else turn(old, names)
            if new != old:
                with open(path, "w", encoding="utf-8", newline="") as it:
                    it.write(new)
    pages = [os.path.join(root, "README.md")] + [os.path.join(root, "docs", it) for it in sorted(os.listdir(os.path.join(root, "docs"))) if it.endswith(".md")]
    for path in pages:
        old = read(path)
        new = in_page(old, older)
        if new != old:
            with open(path, "w", encoding="utf-8", newline="") as it:
                it.write(new)
    for path in files(root, ".edit"):
        old = read(path)
        new = in_edit(old, older, re.search(r"(?m)^file: src/", old))
        if new != old:
            with open(path, "w", encoding="utf-8", newline="") as it:
                it.write(new)
    return 0


if __name__ == "__main__":
    sys.exit(main(sys.argv[1:]))
