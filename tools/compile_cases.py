"""Makes the replay program's records from case files: compile_cases.py CASES_DIR DATA_DIR TOPIC.. (a topic's file is TOPIC.txt)."""
import re
import sys
from pathlib import Path


def expand(text):
    """The bytes of a value: hexadecimal, `-` for none, {..}N. for a run."""
    if text == "-":
        return b""
    return bytes.fromhex(re.sub(r"\{([0-9a-f]+)\}(\d+)\.", lambda m: m.group(1) * int(m.group(2)), text))


def word(n):
    return n.to_bytes(2, "big")


def long(n):
    return n.to_bytes(3, "big")


FRESH = bytes.fromhex("400000510000")
SIX = bytes.fromhex("42002a3000036c656e3000047075747330000566697273743000046c6173743000047265737430000470757368")
OTHER = b"\xa5" * 16


def call(sizes, lend, tree, outcome):
    """A call, in buffers of the full lengths or of these."""
    kind = b"\x03" if sizes is None else b"\x06" + b"".join(long(n) for n in sizes)
    return kind + long(lend) + word(len(tree)) + tree + outcome


def make(size, names, values):
    """A session made over other bytes, fresh or with words, and what must stand there afterwards: where words were taken, the case says it."""
    ok = values[0] == "ok"
    number, value = (0, 65536) if ok else (int(values[1]), int(values[2]))
    kind = b"\x05" + long(size) if names is None else b"\x07" + long(size) + word(len(names)) + names
    made = b"\x02" + word(len(OTHER)) + OTHER + kind + bytes([number]) + long(value)
    after = OTHER if not ok else FRESH if names is None else None
    return made if after is None else made + b"\x04" + word(len(after)) + after


def records(lines):
    """The records of a topic: 1 fresh, 2 start, 3 call, 4 session, 5 make, 6 call in parts of the buffers, 7 make with words."""
    out, lend, tree, sizes, names, accepted = b"", 65536, b"", None, None, False
    for line in lines:
        key, *values = line.split()
        if key == "case":
            out, lend, sizes, names, accepted = out + b"\x01", 65536, None, None, False
        elif key == "start":
            start = expand(values[0])
            out += b"\x02" + word(len(start)) + start
        elif key == "sizes":
            sizes = [int(v) for v in values]
        elif key == "words":
            names = expand(values[0])
        elif key == "make":
            out += make(sizes[0] if sizes else 65536, names, values)
        elif key == "lend":
            lend = int(values[0])
        elif key == "tree":
            tree = expand(values[0])
        elif key == "ok":
            image = expand(values[0])
            accepted = True
            out += call(sizes, lend, tree, b"\x00" + word(len(image)) + image)
        elif key == "refused":
            out += call(sizes, lend, tree, bytes([int(values[0])]) + word(int(values[1])))
        elif key in ("session", "state"):
            session = expand(values[0])
            if key == "state" and accepted:
                session = SIX + session
            out += b"\x04" + word(len(session)) + session
    return out


def begins(case):
    """The lines of a second series that say how it begins, in place of the first one's."""
    own = [line.removeprefix("twin") for line in case if line.startswith(("twinstart ", "twinwords "))]
    if not own:
        return case
    made = [line for begin in own for line in ([begin, "make ok"] if begin.startswith("words ") else [begin])]
    return case[:1] + made + [line for line in case[1:] if line.split()[0] not in ("start", "words", "make", "twinstart", "twinwords")]


def second(lines):
    """The second series of each case that has one: its trees, images and sessions; a refusal is that of both."""
    starts = [k for k, line in enumerate(lines) if line.startswith("case ")] + [len(lines)]
    pairs = [lines[a:b] for a, b in zip(starts, starts[1:]) if any(line.startswith("twin ") for line in lines[a:b])]
    return [line.removeprefix("twin") if line.startswith(("twinok", "twinsession", "twinstate")) else line.replace("twin ", "tree ")
            for case in pairs for line in begins(case) if line.split()[0] not in ("tree", "ok", "session", "state")]


def main(cases, data, topics):
    for topic in topics:
        lines = [l for l in Path(cases, topic + ".txt").read_text().splitlines() if l and not l.startswith("#")]
        Path(data, topic).write_bytes(records(lines) + records(second(lines)))


main(sys.argv[1], sys.argv[2], sys.argv[3:])
