#!/usr/bin/env python3
"""Writes the recorded cases of the tree check for the program check_trees.

    tree_cases.py CASES_DIR DATA_DIR

A file of DATA_DIR has the trees of a topic, each as a record: the number that the check refuses with (0: the tree is good) in one
byte, its place and the tree's length in two each, then the tree. Every outcome but number 3 or 4 means that the tree is good."""
import os
import re
import sys

# a topic: which of its cases, by what their names begin with
TOPICS = {
    "damaged": ("damaged/",),
    "random-damage": ("random-damage/",),
    "boundary": ("boundary/level-", "boundary/name-", "boundary/tree-"),
}


def plain(value):
    """The bytes that a value stands for."""
    runs = re.sub(r"\{([0-9a-f]+)\}(\d+)\.", lambda m: m.group(1) * int(m.group(2)), value)
    return b"" if runs == "-" else bytes.fromhex(runs)


def records(path, prefixes):
    """The records of the cases whose names begin so."""
    wanted, tree = False, None
    for line in open(path):
        word, _, value = line.strip().partition(" ")
        if word == "case":
            wanted = value.startswith(prefixes)
        elif word == "tree":
            tree = plain(value)
        elif wanted and word in ("ok", "refused"):
            number, place = (int(v) for v in value.split()) if word == "refused" else (0, 0)
            if number not in (3, 4):
                number, place = 0, 0
            yield bytes([number]) + place.to_bytes(2, "big") + len(tree).to_bytes(2, "big") + tree


cases, data = sys.argv[1:]
os.makedirs(data, exist_ok=True)
for topic, prefixes in TOPICS.items():
    with open(os.path.join(data, topic), "wb") as out:
        for record in records(os.path.join(cases, topic + ".txt"), prefixes):
            out.write(record)
