#!/usr/bin/env python3
"""Draws the crates in their layers, from crates.txt: tools/draw_layers.py writes docs/layers.svg; with --check it compares.

A comment of crates.txt that begins with "# Layer: " heads the crates below it. Layers stand from below to above, as crates.txt lists them;
a crate's arrow-free box says what it rests on by its place, and in its title, which a reader sees under the pointer.
"""
import pathlib
import sys

ROOT = pathlib.Path(__file__).resolve().parent.parent
DRAWING = ROOT / "docs" / "layers.svg"
WIDTH, ROW, BOX, GAP, LEFT = 960, 34, 26, 8, 190


def layers(text):
    """The layers: for each its heading, and its crates with what they use."""
    out = []
    for line in text.split("\n"):
        if line.startswith("# Layer: "):
            out.append((line[len("# Layer: "):], []))
        elif line and not line.startswith("#"):
            head, uses = line.split(":")
            out[-1][1].append((head.split()[0], uses.split()))
    return out


def ordered(text):
    """The crates that use one which stands below them, of which there should be none."""
    seen, bad = set(), []
    for _, crates in layers(text):
        for name, uses in crates:
            bad += [f"{name} stands before {use}" for use in uses if use not in seen]
            seen.add(name)
    return bad


def rows(crates):
    """The boxes of a layer, broken into rows of the drawing's width: for each its left edge, its width, name and uses."""
    out, left = [[]], LEFT
    for name, uses in crates:
        width = 14 + 8 * len(name)
        if left + width > WIDTH - GAP:
            out.append([])
            left = LEFT
        out[-1].append((left, width, name, uses))
        left += width + GAP
    return out


def draw(text):
    """The drawing, the first layer at the bottom."""
    body, y = [], GAP
    for number, (heading, crates) in enumerate(reversed(layers(text))):
        lines = rows(crates)
        height = ROW * len(lines) + GAP
        if number % 2 == 0:
            body.append(f'<rect x="0" y="{y}" width="{WIDTH}" height="{height}" fill="#f3f3f3"/>')
        body.append(f'<text x="{GAP}" y="{y + 25}" font-weight="bold">{heading}</text>')
        for k, line in enumerate(lines):
            top = y + GAP + ROW * k
            for left, width, name, uses in line:
                body.append(f'<g><title>{name}: {" ".join(uses) or "nothing below"}</title>'
                            f'<rect x="{left}" y="{top}" width="{width}" height="{BOX}" rx="3" fill="white" stroke="#666"/>'
                            f'<text x="{left + width / 2:g}" y="{top + 18}" text-anchor="middle">{name}</text></g>')
        y += height
    head = (f'<svg xmlns="http://www.w3.org/2000/svg" width="{WIDTH}" height="{y}" viewBox="0 0 {WIDTH} {y}" '
            f'font-family="monospace" font-size="13">')
    return "\n".join([head, f'<rect width="{WIDTH}" height="{y}" fill="white"/>'] + body + ["</svg>", ""])


def main():
    text = (ROOT / "crates.txt").read_text()
    bad = ordered(text)
    if bad:
        sys.exit("crates.txt: " + "; ".join(bad))
    if sys.argv[1:] != ["--check"]:
        DRAWING.write_text(draw(text))
    elif DRAWING.read_text() != draw(text):
        sys.exit("docs/layers.svg is not what crates.txt gives: tools/draw_layers.py writes it anew")


main()
