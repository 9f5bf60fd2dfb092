#!/usr/bin/env python3
"""Write the recorded cases of the program replay_bytecode from case files.

usage: bytecode_cases.py CASES CRATE

CASES is the folder of image17.txt, instruction16.txt, listing.txt, check-and-list.txt, session-broken.txt, frames.txt and chin.txt. Each question goes to data/cases as it stands
there, but that numbers stand before the image as bytes: the length of a listing's output in three, a frame's size (`frames`, which is `count` there)
and its number (`frame`, `part`) in four each, the length of a translation's output (`chin`, `turn`; `unchin`, `unturn`) in three; images to translate of over 2,000
bytes are left out. Its answer goes to stdout: of a session only whether its layout is sound, and a listing as text
behind its answer.
"""
import re
import sys



def expanded(text):
    """The text with the bytes written out: {2900}12. stands for the bytes between the braces twelve times."""
    return re.sub(r"\{([0-9a-f]*)\}(\d+)\.", lambda m: m[1] * int(m[2]), text)


def size_of(text):
    """The number of bytes of a text."""
    return len(expanded(text).replace("-", "")) // 2


folder, crate = sys.argv[1], sys.argv[2] + "/"
questions, answers = [], []
for topic, word in ("instruction16", "decode"), ("image17", "image"), ("listing", "list"), ("check-and-list", "list"), ("session-broken", "start"), \
        ("frames", "frames"), ("frames", "frame"), ("chin", "chin"), ("chin", "unchin"):
    asked, lent = False, None
    for line in open(f"{folder}/{topic}.txt"):
        first = line.split(" ")[0].strip()
        if first == word:
            if word == "list":
                _, room, image = line.split(" ")
                line = f"list {int(room):06x}{image}"
            elif word == "frames":
                _, size, image = line.split(" ")
                line = f"count {int(size):08x}{image}"
            elif word == "frame":
                _, size, number, image = line.split(" ")
                line = f"part {int(size):08x}{int(number):08x}{image}"
            elif word in ("chin", "unchin"):
                image = line.split(" ")[1].strip()
                room = min(lent if lent is not None else size_of(image), 65536)
                line = f"{'turn' if word == 'chin' else 'unturn'} {room:06x}{image}\n"
                if size_of(image) > 2000:
                    continue
            questions.append(line)
            asked = True
        elif first == "lend":
            lent = int(line.split(" ")[1])
        elif first == "end":
            lent = None
        elif asked and first in ("ok", "refused"):
            broken = line.startswith("refused 2 ")
            if word == "list" and first == "ok":
                line = "ok\n" + bytes.fromhex(line.split(" ")[1]).decode()
            if word in ("chin", "unchin"):
                line = expanded(line)
            answers.append(line if word != "start" or broken else "ok\n")
            asked = False
open(crate + "data/cases", "w").writelines(questions)
open(crate + "stdout", "w").writelines(answers)
assert len(questions) == len(answers)
