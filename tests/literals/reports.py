#!/usr/bin/env python3
"""Counts memcheck's reports by kind, so what depends on a literal (a branch or an address) in which function, and compares them with those
expected.

usage: reports.py [--kinds] MODE REPORTS.xml EXPECTED    --kinds: not their numbers
       reports.py --lines MODE REPORTS.xml               prints the reports as lines of EXPECTED
A line of EXPECTED: mode, number, branch or address, function. Prints what differs; the status is then 1.
"""
import collections
import sys
import xml.etree.ElementTree

WHAT = {"UninitCondition": "branch", "UninitValue": "address"}


def found(path):
    """The number of reports of each kind."""
    root = xml.etree.ElementTree.parse(path).getroot()
    times = {pair.findtext("unique"): int(pair.findtext("count")) for pair in root.iter("pair") if pair.find("unique") is not None}
    kinds = collections.Counter()
    for error in root.iter("error"):
        function = error.find("stack").find("frame").findtext("fn", "?")
        kind = WHAT.get(error.findtext("kind"), error.findtext("kind")), function
        kinds[kind] += times.get(error.findtext("unique"), 1)
    return kinds


def expected(path, mode):
    """The kinds of a mode in a file of lines."""
    with open(path, encoding="ascii") as file:
        rows = [line.split(maxsplit=3) for line in file if not line.startswith("#")]
    return collections.Counter({(what, function.strip()): int(number) for of, number, what, function in rows if of == mode})


def main():
    words = [word for word in sys.argv[1:] if not word.startswith("--")]
    kinds = found(words[1])
    if "--lines" in sys.argv:
        for (what, function), number in sorted(kinds.items()):
            print(words[0], number, what, function)
        return 0
    wanted = expected(words[2], words[0])
    status = 0
    for kind in sorted(kinds | wanted):
        if kinds[kind] != wanted[kind] and ("--kinds" not in sys.argv or wanted[kind] == 0):
            print(f"{words[0]}: {' '.join(kind)}: {kinds[kind]} reports, not {wanted[kind]}", file=sys.stderr)
            status = 1
    return status


if __name__ == "__main__":
    sys.exit(main())
