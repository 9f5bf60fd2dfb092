#!/usr/bin/env python3
"""Writes the lists at the end of docs/DESIGN-PASS.md: what changed since its commit, old and new side by side.

    tools/design_pass.py CONTRACTS.JSON

CONTRACTS.JSON is what the kit's port/contracts.py OLD NEW --json prints, for the folders of the commit and of now.
What the page says of a name that is gone is kept; a name without a word has "?".
"""
import json
import pathlib
import re
import subprocess
import sys
import tempfile

ROOT = pathlib.Path(__file__).resolve().parent.parent
PAGE = ROOT / "docs" / "DESIGN-PASS.md"
MARK = "<!-- written by tools/design_pass.py from here on -->\n"


def cell(text):
    return "`" + re.sub(r"\s+", " ", str(text)).replace("|", "\\|").replace("`", "'").strip() + "`" if str(text).strip() else ""


def clauses(kind, rows):
    return "; ".join(f"{kind} {(name + ' ') if name else ''}{{ {text} }}" for name, text in rows)


def public(old, name):
    """Whether the function was public at the commit."""
    crate, path, function = name.split(" ")[0], name.split(" ")[1], name.split(" ")[-1]
    file = old / "crates" / crate / path
    return file.exists() and re.search(r"pub (extern \"C\" )?fn %s\b" % re.escape(function), file.read_text()) is not None


def lemmas(root):
    """The top-level lemmas and records of proofs/ by crate: for each name where it lies and what it states."""
    out = {}
    for path in sorted((root / "crates").glob("*/proofs/**/*.antt")):
        if path.name in ("Answers.antt", "Invariants.antt", "Lib.antt", "Proof.antt"):
            continue
        crate = path.relative_to(root / "crates").parts[0]
        levels = [0]
        for line in path.read_text().split("\n"):
            text = line.lstrip(" ")
            indent = len(line) - len(text)
            if not text or text.startswith("--"):
                continue
            levels = [k for k in levels if k <= indent]
            if indent in levels and text.startswith("module "):
                levels.append(indent + 2)
                continue
            m = indent in levels and re.match(r"(?:pub )?(?:record |data )?([^\s:(){}]+)((?: [^:=]*)?) :(?: (.*))?$", text)
            if m and m.group(1) not in ("mod", "use", "module", "unfolding", "where"):
                out.setdefault(crate, {}).setdefault(m.group(1), (str(path.relative_to(root / "crates" / crate)), re.sub(r"\s+", " ", m.group(3) or "")))
    return out


def elsewhere(now, crate, name, statement):
    """Another crate's lemma of the name and the statement, if there is one."""
    for other in now:
        if other != crate and now[other].get(name, ("", ""))[1] == statement:
            return f"`{other}/{now[other][name][0]}` states it"
    return "?"


def types(root):
    """Each public struct, enum and type of the sources, by crate and name, with its fields or variants."""
    out = {}
    for path in sorted((root / "crates").glob("*/src/**/*.rt")):
        crate = path.relative_to(root / "crates").parts[0]
        for m in re.finditer(r"^pub (struct|enum|type) (\w+)(<[^>]*>)?( =[^;]*;|;| \{\n(?:.*\n)*?\})", path.read_text(), re.M):
            body = re.sub(r"//.*", "", m.group(4)).strip().strip(";").replace("pub ", "")
            out[(crate, m.group(2))] = m.group(1) + " " + re.sub(r"\s+", " ", body)
    return out


def kept_words(text):
    """What the page says now of what is gone: by the first cell of a row."""
    words = {}
    for m in re.finditer(r"^\| (`[^|]*`|[^|`]+) \| ([^|]*) \|$", text, re.M):
        words[m.group(1).strip()] = m.group(2).strip()
    return words


def main():
    page = PAGE.read_text()
    commit = page.split("\n", 1)[0].strip()
    old = pathlib.Path(tempfile.mkdtemp())
    archive = subprocess.run(["git", "-C", str(ROOT), "archive", commit, "crates"], check=True, capture_output=True).stdout
    subprocess.run(["tar", "-x", "-C", str(old)], input=archive, check=True)
    data = json.loads(pathlib.Path(sys.argv[1]).read_text())
    head, _, tail = page.partition(MARK)
    words = kept_words(tail)
    out = [head.rstrip("\n") + "\n\n" + MARK]

    out.append("\n## Public functions whose signature changed\n\n| Function | Old | New |\n|---|---|---|\n")
    for name, a, b in data["signatures changed"]:
        if public(old, name):
            out.append(f"| {cell(name)} | {cell(a)} | {cell(b)} |\n")
    out.append("\n## Public types that changed, are gone or are new\n\n| Type | Old | New |\n|---|---|---|\n")
    before, now = types(old), types(ROOT)
    for key in sorted(before.keys() | now.keys()):
        if before.get(key) != now.get(key):
            out.append(f"| {cell(' '.join(key))} | {cell(before.get(key, ''))} | {cell(now.get(key, ''))} |\n")
    out.append("\n## Functions whose clauses changed\n\n| Function | Old | New |\n|---|---|---|\n")
    for name, r1, e1, r2, e2 in data["contracts changed"]:
        a = "; ".join(x for x in (clauses("requires", r1), clauses("ensures", e1)) if x)
        b = "; ".join(x for x in (clauses("requires", r2), clauses("ensures", e2)) if x)
        out.append(f"| {cell(name)} | {cell(a)} | {cell(b)} |\n")
    out.append("\n## Functions that are gone, and what states their promise now\n\n| Function | Now |\n|---|---|\n")
    for row in data["functions not found again"]:
        key = cell(row.split(" (")[0])
        out.append(f"| {key} | {words.get(key, '?')} |\n")
    consts = data["ghost items and constants"]
    out.append("\n## Constants and ghost items that changed\n\n| Item | Old | New |\n|---|---|---|\n")
    for crate, kind, name, a, b in consts["changed"]:
        out.append(f"| {cell(f'{crate} {kind} {name}')} | {cell('; '.join(a))} | {cell('; '.join(b))} |\n")
    out.append("\n## Constants and ghost items that are gone\n\n| Item | Now |\n|---|---|\n")
    for row in consts["gone"]:
        key = cell(" ".join(row))
        out.append(f"| {key} | {words.get(key, '?')} |\n")
    out.append("\n## Definitions and theorems of specs/ that changed\n\n| Name | Old | New |\n|---|---|---|\n")
    for crate, name, a, b in data["definitions"]["changed"]:
        out.append(f"| {cell(f'{crate} {name}')} | {cell(' // '.join(a))} | {cell(' // '.join(b))} |\n")
    out.append("\n## Definitions of specs/ that are gone, and what states the same now\n\n| Name | Now |\n|---|---|\n")
    for row in data["definitions"]["gone"]:
        key = cell(" ".join(row))
        out.append(f"| {key} | {words.get(key, '?')} |\n")
    out.append("\n## Lemmas of proofs/ that are gone, and what states the same now\n\n| Lemma | Now |\n|---|---|\n")
    before, now = lemmas(old), lemmas(ROOT)
    for crate in sorted(before):
        for name, (path, statement) in before[crate].items():
            if name not in now.get(crate, {}):
                key = cell(f"{crate}/{path} {name}")
                out.append(f"| {key} | {words.get(key) or elsewhere(now, crate, name, statement)} |\n")
    out.append("\n## Must-fail edits whose text changed\n\n| Edit | Old | New |\n|---|---|---|\n")
    for crate, name, a, b in data["edits and outputs"]["changed"]:
        if name.endswith(".edit"):
            out.append(f"| {cell(f'{crate} {name}')} | {cell(a)} | {cell(b)} |\n")
    PAGE.write_text("".join(out))
    text = "".join(out)
    print("lines", text.count("\n"), "without a word:", len(re.findall(r"\| \? \|$", text, re.M)))


main()
