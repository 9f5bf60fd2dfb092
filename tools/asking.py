#!/usr/bin/env python3
"""Which functions between the crates ask something of their caller: tools/asking.py writes their names into docs/DECISIONS.md; with --check
it compares.

A function is listed if it is public, another crate can reach it, and it has a `requires`. Another crate reaches what stands in a public
module, what `pub use` hands on, and the methods of each type that it can have a value of: one that it can name, or one of a result or a
public field that it reaches. Brackets stand around those whose names stand in no source of a crate that uses theirs. What they ask, and
what their promise leaves free, is kept by hand: the last two columns stay as they are, and a crate that is new gets empty ones, which
--check refuses.
"""
import pathlib
import re
import sys

ROOT = pathlib.Path(__file__).resolve().parent.parent
PAGE = ROOT / "docs" / "DECISIONS.md"
HEAD = "| Crate | Functions that another crate can call and that ask | What they ask | What their promise leaves free |"
RULE = "|---|---|---|---|"


def reached(crate):
    """The files of a crate that others reach whole, and the names that others reach besides: those handed on, and types."""
    library = crate / "src" / "lib.rt"
    if not library.exists():
        return [], set()
    text = library.read_text()
    public = [library] + [crate / "src" / f"{name}.rt" for name in re.findall(r"(?m)^pub mod (\w+);", text)]
    handed = set()
    for group, single in re.findall(r"(?m)^pub use \w+::(?:\{([^}]*)\}|(\w+));", text):
        handed.update(re.findall(r"\w+", group + " " + single))
    types = {}
    for path in sorted((crate / "src").glob("*.rt")):
        for kind, name, body in re.findall(r"(?ms)^pub (struct|enum) (\w+)(.*?)^}", path.read_text()):
            types[name] = body if kind == "enum" else " ".join(re.findall(r"(?m)^ +pub \w+:(.*)", body))
            if path in public:
                handed.add(name)
    while True:
        more = {word for name in handed & types.keys() for word in re.findall(r"\w+", types[name])}
        for path in (crate / "src").glob("*.rt"):
            for owner, name, result, _ in functions(path):
                if path in public or (owner or name) in handed:
                    more.update(re.findall(r"\w+", result))
        more = more & types.keys() - handed
        if not more:
            return public, handed
        handed |= more


def functions(path):
    """The public functions of a file, but those of its private types: for each its type if it has one, its name, its result, and whether it
    asks."""
    owner, found = None, []
    text = path.read_text()
    lines, closed = text.split("\n"), set(re.findall(r"(?m)^(?:struct|enum) (\w+)", text))
    for number, line in enumerate(lines):
        block = re.match(r"impl(?:<[^>]*>)? (?:[\w:<>' ]+ for )?(\w+)", line)
        if block:
            owner = block.group(1)
        elif line == "}":
            owner = None
        head = re.match(r"\s*pub fn (\w+)", line)
        if head and owner not in closed:
            # The signature, which may take several lines, and the clauses stand before the line that opens the body.
            before = line
            for clause in lines[number + 1:]:
                if before.rstrip().endswith("{") or clause.strip() == "{":
                    break
                before += "\n" + clause
            signature = re.split(r"\n\s*(?:requires|ensures)\b", before)[0]
            found.append((owner, head.group(1), signature.partition("->")[2], bool(re.search(r"\n\s*requires\b", before))))
    return found


def asking(crate):
    """The names of a crate's functions that ask, as a caller writes them, in the order of the sources."""
    public, handed = reached(crate)
    out = []
    for path in sorted((crate / "src").glob("*.rt"), key=lambda p: (p.name != "lib.rt", p.name)):
        for owner, name, _, asks in functions(path):
            if asks and (path in public or (owner or name) in handed):
                module = path.stem if path in public and path.name != "lib.rt" else None
                out.append("::".join(part for part in (owner or module, name) if part))
    return out


def crates():
    """The crates in the order of crates.txt, below before above, each with those that it uses."""
    lines = (line for line in (ROOT / "crates.txt").read_text().split("\n") if re.match(r"\w", line))
    return {head.split()[0]: uses.split() for head, uses in (line.split(":") for line in lines)}


def named_elsewhere(name, crate):
    """Whether a source of a crate that uses this one has the name, comments aside."""
    word = re.compile(r"(?m)^(?:(?!//).)*\b%s\b" % re.escape(name.split("::")[-1]))
    above = [user for user, uses in crates().items() if crate in uses]
    return any(word.search(path.read_text()) for user in above for path in (ROOT / "crates" / user / "src").glob("*.rt"))


def table(old):
    """The rows: for each crate with functions that ask, their names, and the two columns kept by hand."""
    kept = {}
    for row in old:
        cells = [cell.strip() for cell in row.strip("|").split("|")]
        kept[cells[0].strip("`")] = cells[2:]
    rows = []
    for crate in crates():
        names = [f"`{name}`" if named_elsewhere(name, crate) else f"(`{name}`)" for name in asking(ROOT / "crates" / crate)]
        if names:
            rows.append("| " + " | ".join([f"`{crate}`", ", ".join(names)] + kept.get(crate, ["", ""])) + " |")
    return rows


def main():
    lines = PAGE.read_text().split("\n")
    first = lines.index(HEAD) + 2
    last = next(k for k in range(first, len(lines)) if not lines[k].startswith("|"))
    rows = table(lines[first:last])
    if sys.argv[1:] != ["--check"]:
        PAGE.write_text("\n".join(lines[:first] + rows + lines[last:]))
    elif rows != lines[first:last]:
        differ = sorted(set(rows) ^ set(lines[first:last]))
        sys.exit("docs/DECISIONS.md: the functions that ask are others; tools/asking.py writes them anew:\n" + "\n".join(differ))
    empty = [row.split("|")[1].strip() for row in rows if any(not cell.strip() for cell in row.strip("|").split("|"))]
    if sys.argv[1:] == ["--check"] and empty:
        sys.exit("docs/DECISIONS.md: nothing is said of what they ask: " + ", ".join(empty))


main()
