#!/usr/bin/env python3
"""Checks what can be checked of README.md, CONTRIBUTING.md and docs/: tools/check_docs.py prints each false sentence with its line, and ends
with 1 if there is one.

- Links and pictures lead to files of the repository, and so do paths that are named (docs/C.md, tools/program, crates/capi).
- A name between backticks stands in a source: a definition, theorem, function, edit, crate, option or file.
- A row of docs/THEOREMS.md names a theorem that its file declares.
- Entries of docs/DECISIONS.md have numbers, none of them twice, and what cites one finds it; each edit that must fail is named there.
- docs/CRATES.md has a row for each crate, in the order of crates.txt.
- Figures that can be counted: crates, edits that must fail, numbers of refusals, bytes of README.md.
- No line is longer than 120 characters, but for rows of tables, code and what a program wrote.

Pages that tell of the past (PAST) may name what is gone.
"""
import itertools
import pathlib
import re
import sys

ROOT = pathlib.Path(__file__).resolve().parent.parent
PAST = {"CHANGES.md", "PORT.md", "DESIGN-PASS.md", "LOOK-BACK.md"}
WRITTEN = "<!-- written by tools/"
WIDTH = 120
README_BYTES = 6144
TOPS = ("docs", "tools", "crates", "examples", "profile", "install", "include", "oracle", "cases", "tests", ".ci")
# What pages name and no source has: the kit's and the C library's.
OUTSIDE = {"lem", "ac", "memmove"}
SOURCES = (".rt", ".monkey", ".antt", ".edit", ".c", ".h", ".rs", ".py", ".txt", ".toml", ".1", ".3", ".bash", ".zsh", ".fish", "")


def sources():
    """Every file that is read for names: sources, proofs, edits, programs, tools."""
    for top in TOPS:
        for path in (ROOT / top).rglob("*"):
            parts = path.relative_to(ROOT).parts
            if path.is_file() and top != "docs" and "out" not in parts and "target" not in parts and path.suffix in SOURCES:
                yield path


def words():
    """Every word of the sources, and the names of their files and folders."""
    out = set()
    for path in sources():
        text = path.read_text(errors="replace")
        if len(text) < 2_000_000:
            out.update(re.findall(r"[^\s(){}\[\].,;:`\"'|&<>=+*/\\!?@#%~^$]+(?:'[\w]*)?", text))
            out.update(re.findall(r"[A-Za-z_][\w]*", text))
        for part in path.relative_to(ROOT).parts:
            out.update((part, part.split(".")[0]))
    return out


def pages():
    return [ROOT / "README.md", ROOT / "CONTRIBUTING.md"] + sorted((ROOT / "docs").glob("*.md"))


def prose(path):
    """The page's lines with their numbers, up to what a program wrote; whether each is code or a row of a table."""
    fenced = False
    for number, line in enumerate(path.read_text().split("\n"), 1):
        if line.startswith(WRITTEN):
            return
        if line.startswith("```"):
            fenced = not fenced
        yield number, line, fenced or line.startswith(("    ", "```", "\t")), line.startswith("|")


def paths_named(line):
    """Links, and words that look like a path of the repository."""
    yield from (("link", target) for target in re.findall(r"\]\(([^)#\s]+)\)", line) if "://" not in target)
    for word in re.findall(r"(?<![\w./-])((?:%s)/[\w./*+-]*)" % "|".join(re.escape(t) for t in TOPS), line):
        yield "path", word.rstrip(".")


def there(path, kind, target):
    if kind == "link":
        return (path.parent / target).exists()
    # CRATE, NAME and the like stand for any.
    if re.search(r"(^|/)[A-Z]{3,}(\.|/|$)", target) or (ROOT / target).exists() or any(ROOT.glob(target)):
        return True
    # A module is named without its ending, and an out folder is there once something is proved.
    return any((ROOT / (target + end)).exists() for end in (".antt", ".rt", ".c")) or "/out" in target


def names(line):
    """Names between backticks: words of letters, digits, _, - and ', alone or joined by ::."""
    spans = [word for word in re.findall(r"`([^`]+)`", line) if re.fullmatch(r"[A-Za-z_][\w'-]*(?:::[A-Za-z_][\w'-]*)*", word)]
    return [word for span in spans for word in span.split("::") if word not in OUTSIDE]


def homeless(line):
    """Names joined by :: whose first is a crate, or a module of one, and whose last no source of it has."""
    for span in re.findall(r"`(\w+(?:::\w+)+)`", line):
        first, last = span.split("::")[0], span.split("::")[-1]
        homes = list(ROOT.glob(f"crates/{first}/src/*.rt")) + list(ROOT.glob(f"crates/*/src/{first}.rt"))
        if homes and not any(re.search(r"\b%s\b" % last, path.stem + " " + path.read_text()) for path in homes):
            yield span


def figures():
    crates = sum(1 for line in (ROOT / "crates.txt").read_text().split("\n") if re.match(r"\w+( staticlib)?:", line))
    edits = sum(1 for _ in ROOT.glob("crates/*/must-fail/*.edit"))
    return {"crates": crates, "edits": edits}


def declares(crate, name):
    """Whether a file of the crate declares the name: a definition, a theorem, a record, or a function."""
    pattern = r"(?m)^\s*(?:(?:pub|abbrev|unfoldable|record|data|unsafe|extern|\"C\") )*(?:fn )?%s(?: [^:\n]*)?[:(<]" % re.escape(name)
    return any(re.search(pattern, path.read_text()) for path in (ROOT / "crates" / crate).rglob("*")
               if path.suffix in (".antt", ".rt") and "out" not in path.relative_to(ROOT).parts)


def check_theorems(said):
    """A group of names before `(crate)` or `(crate/specs/File)`, and the names of a row whose second cell is a file."""
    page = ROOT / "docs" / "THEOREMS.md"
    crates = {path.name for path in (ROOT / "crates").iterdir()}
    for number, line, _, row in prose(page):
        cells = line.split("|") if row else []
        groups = [(names_, place) for cell in cells for names_, place in re.findall(r"((?:`[^`]+`(?:, | and )?)+) \(([^()]*)\)", cell)]
        if len(cells) == 5 and "/" in cells[2]:
            groups.append((cells[1], cells[2].strip()))
        for group, place in groups:
            places = [part.strip().split("/")[0] for part in place.split(", ") if part.strip().split("/")[0] in crates]
            for name in re.findall(r"`([^`]+)`", group) if places else []:
                if not any(declares(crate, name) for crate in places):
                    said.append(f"docs/THEOREMS.md:{number}: {' and '.join(places)} declares no {name}")


def check_crates(said):
    """The rows of docs/CRATES.md are the crates, in the order of crates.txt."""
    listed = re.findall(r"(?m)^(\w+)(?: staticlib)?:", (ROOT / "crates.txt").read_text())
    rows = re.findall(r"(?m)^\| `(\w+)` \|", (ROOT / "docs" / "CRATES.md").read_text())
    differ = next((pair for pair in itertools.zip_longest(rows, listed) if pair[0] != pair[1]), None)
    said += [f"docs/CRATES.md: a row for {differ[0]}, where crates.txt has {differ[1]}"] if differ else []


def check_decisions(said):
    """Entries have numbers, by which other pages cite them, and the tables of wrong programs name every edit."""
    text, numbers = (ROOT / "docs" / "DECISIONS.md").read_text(), []
    for at, line in enumerate(text.split("\n"), 1):
        entry = re.match(r"- (?:(D\d+) )?\*\*", line)
        if entry and (not entry.group(1) or entry.group(1) in numbers):
            said.append(f"docs/DECISIONS.md:{at}: an entry {'twice ' + entry.group(1) if entry.group(1) else 'without a number'}")
        numbers += [entry.group(1)] if entry else []
    for path in pages():
        for at, line in enumerate(path.read_text().split("\n"), 1):
            cited = [] if path.name in PAST else re.findall(r"\bD\d+\b", line)
            said += [f"{path.relative_to(ROOT)}:{at}: there is no entry {n}" for n in cited if n not in numbers]
    named = set(re.findall(r"\w+", text))
    edits = sorted(path.stem for path in ROOT.glob("crates/*/must-fail/*.edit"))
    said += [f"docs/DECISIONS.md: {edit} is named nowhere" for edit in edits if edit not in named]


def main():
    known, said, counted = words(), [], figures()
    for path in pages():
        name = str(path.relative_to(ROOT))
        for number, line, code, row in prose(path):
            at = f"{name}:{number}"
            if len(line) > WIDTH and not code and not row and not line.startswith("!["):
                said.append(f"{at}: {len(line)} characters")
            if path.name in PAST:
                continue
            said += [] if code else [f"{at}: there is no {target}" for kind, target in paths_named(line) if not there(path, kind, target)]
            if not code:
                said += [f"{at}: `{word}` stands in no source" for word in names(line) if word not in known]
                said += [f"{at}: `{span}` stands in no source of its crate" for span in homeless(line)]
                for what, count in counted.items():
                    said += [f"{at}: {n} {what}, there are {count}" for n in re.findall(r"\b(?:all|the) (\d+) %s\b" % what, line) if int(n) != count]
    if (ROOT / "README.md").stat().st_size > README_BYTES:
        said.append(f"README.md: more than {README_BYTES} bytes")
    check_theorems(said)
    check_decisions(said)
    check_crates(said)
    print("\n".join(said + [f"docs: {len(said)} false"]))
    sys.exit(bool(said))


main()
