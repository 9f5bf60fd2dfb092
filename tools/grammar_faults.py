#!/usr/bin/env python3
"""Plants faults, one at a time, in copies of docs/GRAMMAR.md and tools/grammar.py: tools/check_grammar.py must find each, and none where
nothing is planted. Prints what was missed, and ends with 1 if there is something.

usage: grammar_faults.py SHARED-OBJECT [TEXTS [SEED]]
"""
import collections
import pathlib
import re
import subprocess
import sys
import tempfile

ROOT = pathlib.Path(__file__).resolve().parent.parent
FILES = ["docs/GRAMMAR.md", "tools/grammar.py", "tools/check_grammar.py"]
STATEMENTS = '[ Statement { [ ";" ] Statement } [ ";" ] ]'
LIMITS = "8192, 32, 2**63 - 1, 32768, 64"
REFUSING = "if kind is None or end > TEXT_LIMIT or not recogniser.awaits(kind):"
# What stands on the page, and what is put in its place.
PAGE = [
    ('( "<" | ">" )   Sum        | Sum', '( "+" | "<" )   Sum        | Sum'),
    ('Sum        ( "+" | "-" )   Product ', 'Product    ( "+" | "-" )   Sum '),
    ("Block [ else Block ]", "Block [ else Statement ]"),
    ("Block [ else Block ]", "Block else Block"),
    ('"[" Expression "]" | Primary', '"[" List "]" | Primary'),
    ('[ Expression { "," Expression } ]', '[ Expression { "," Expression } [ "," ] ]'),
    ('[ name { "," name } ]', '[ name { [ "," ] name } ]'),
    ('[ name { "," name } ]', 'name { "," name }'),
    (STATEMENTS, '[ Statement { [ ";" ] Statement } ]'),
    (STATEMENTS, '[ Statement { ";" Statement } [ ";" ] ]'),
    ('( "!" | "-" ) Prefix', '( "!" | "-" ) Postfix'),
    ("begin with `(`, `[` or `-`", "begin with `(`, `[`"),
    ("begin with `(`, `[` or `-`", "begin with `(`, `[`, `!` or `-`"),
    ("| 25 |", "| 2A |"),
    ("06 `==`, 07 `!=`", "07 `==`, 06 `!=`"),
    ("return Expression |", "return [ Expression ] |"),
    ('let name "=" Expression', 'let name "=" Statement'),
    ("true false if else fn`", "true false if else fn while`"),
    ('"{" Pairs "}"', '"{" List "}"'),
    ('fn "(" Names ")" Block', 'fn [ name ] "(" Names ")" Block'),
]
# The same for the program.
PROGRAM = [(LIMITS, limits) for limits in (
    "8193, 32, 2**63 - 1, 32768, 64", "8191, 32, 2**63 - 1, 32768, 64", "8192, 33, 2**63 - 1, 32768, 64", "8192, 31, 2**63 - 1, 32768, 64",
    "8192, 32, 2**63, 32768, 64", "8192, 32, 2**63 - 2, 32768, 64", "8192, 32, 2**63 - 1, 32769, 64", "8192, 32, 2**63 - 1, 32767, 64",
    "8192, 32, 2**63 - 1, 32768, 65", "8192, 32, 2**63 - 1, 32768, 63")] + [
    ('b" \\t\\n\\r"', 'b" \\t\\n"'),
    ('rb"[A-Za-z_]+"', 'rb"[A-Za-z_0-9]+"'),
    ("if at >= TEXT_LIMIT and len(text) > TEXT_LIMIT:", "if False:"),
    (REFUSING, "if kind is None or not recogniser.awaits(kind):"),
    (REFUSING, REFUSING.replace("not recogniser", 'not (kind == "integer" and value(text[at:end]) > INTEGER_LIMIT) and not recogniser')),
    ("raise Refused(BAD_SCRIPT, len(text))", "raise Refused(BAD_SCRIPT, len(text) - 1)"),
    ("raise Refused(LARGE_INTEGER, at)", "raise Refused(BAD_SCRIPT, at)"),
    ("if value.tag == 0x24:", "if False:"),
    ("if value.tag == 0x24:", "if value.tag == 0x24 and len(value.whole) < 20:"),
    ("if tree.height > LEVELS:", "if tree.height > LEVELS and len(tree.whole) <= room:"),
]


def finding(folder, words):
    """What the program of a folder finds: nothing, a difference, or an error: a production without row, a text with two derivations."""
    said = subprocess.run([sys.executable, folder / FILES[2], *words], capture_output=True, text=True, check=False)
    if said.returncode == 0:
        return "nothing"
    if "check_grammar: FAILED" in said.stderr:
        return "a difference"
    return "an error" if re.search(r"^(AssertionError|grammar\.Ambiguous): ", said.stderr, re.M) else "a fault of its own"


def main():
    words = [str(pathlib.Path(sys.argv[1]).resolve()), *sys.argv[2:]]
    texts = {name: (ROOT / name).read_text() for name in FILES}
    faults = [(FILES[0], *fault) for fault in PAGE] + [(FILES[1], *fault) for fault in PROGRAM]
    counts = collections.Counter()
    with tempfile.TemporaryDirectory() as name:
        folder = pathlib.Path(name)
        for top in ("docs", "tools"):
            (folder / top).mkdir()
        for file, right, wrong in [(FILES[0], "", "")] + faults:
            if right not in texts[file]:
                sys.exit(f"grammar_faults: {file} has not: {right}")
            for each in FILES:
                (folder / each).write_text(texts[each].replace(right, wrong, 1) if each == file else texts[each])
            found = finding(folder, words)
            counts[found if wrong else "as it is"] += 1
            if found not in (["a difference", "an error"] if wrong else ["nothing"]):
                counts["missed"] += 1
                print(f"grammar_faults: {file}: {wrong or 'as it is'}: found {found}", file=sys.stderr)
    print(f"grammar_faults: {len(faults)} faults: {counts['a difference']} told by a difference, {counts['an error']} by an error")
    return 1 if counts["missed"] else 0


if __name__ == "__main__":
    sys.exit(main())
