#!/usr/bin/env python3
"""Draws lengths as SVG: lines `name image squeezed` from standard input, the picture to standard output."""
import sys

WIDTH, LEFT, RIGHT, TOP, BOTTOM = 920, 110, 190, 58, 112
SCALE = 3.0  # pixels to a byte, the same for both curves
BLUE, RED, GREY = "#1f5fa8", "#c0392b", "#777777"


def rows_of(lines):
    """The lines as (name, image, squeezed); the name without its `preset-01-`."""
    rows = [line.split() for line in lines if line.strip()]
    return [(name.split("-", 2)[2].replace("-", " "), int(image), int(squeezed)) for name, image, squeezed in rows]


def text(x, y, words, size=12, colour="#222222", more=""):
    """A line of words."""
    return f'<text x="{x:.1f}" y="{y:.1f}" font-size="{size}" fill="{colour}" {more}>{words}</text>'


def curve(places, lengths, colour, above):
    """Points joined by a line, each with its length."""
    points = " ".join(f"{x:.1f},{y:.1f}" for x, y in places)
    out = [f'<polyline points="{points}" fill="none" stroke="{colour}" stroke-width="2"/>']
    for (x, y), length in zip(places, lengths):
        out.append(f'<circle cx="{x:.1f}" cy="{y:.1f}" r="3.5" fill="{colour}"/>')
        out.append(text(x, y - 9 if above else y + 18, length, 11, colour, 'text-anchor="middle"'))
    return out


def picture(rows):
    """The picture: the images' lengths as one curve, the squeezed ones' as another below it, with a gap in the scale between them."""
    images, squeezed = [r[1] for r in rows], [r[2] for r in rows]
    step = (WIDTH - LEFT - RIGHT) / (len(rows) - 1)
    flat = [TOP + 20 + (max(images) - n) * SCALE for n in images]
    top = max(flat) + 74
    low = [top + (max(squeezed) - n) * SCALE for n in squeezed]
    floor = max(low) + 34
    height = floor + BOTTOM
    xs = [LEFT + i * step for i in range(len(rows))]
    out = [
        f'<svg xmlns="http://www.w3.org/2000/svg" width="{WIDTH}" height="{height:.0f}" viewBox="0 0 {WIDTH} {height:.0f}" font-family="sans-serif">',
        f'<rect width="{WIDTH}" height="{height:.0f}" fill="#ffffff"/>',
        text(24, 26, "Bytes to upload, for each preset of one control", 16, more='font-weight="bold"'),
    ]
    for x, (name, _, _) in zip(xs, rows):
        out.append(f'<line x1="{x:.1f}" y1="{TOP}" x2="{x:.1f}" y2="{floor:.1f}" stroke="#eeeeee"/>')
        out.append(text(x, floor + 14, name, 11, GREY, f'text-anchor="end" transform="rotate(-40 {x:.1f} {floor + 14:.1f})"'))
    middle = (max(flat) + top) / 2 + 4
    out.append(f'<line x1="{LEFT - 20}" y1="{middle:.1f}" x2="{xs[-1] + 20:.1f}" y2="{middle:.1f}" stroke="#bbbbbb" stroke-dasharray="2 5"/>')
    out.append(text(xs[-1] + 26, middle + 4, "gap in the scale", 11, GREY))
    out += curve(list(zip(xs, flat)), images, BLUE, True)
    out += curve(list(zip(xs, low)), squeezed, RED, False)
    side = xs[-1] + 26
    kinds = len(set(images)), len(set(squeezed))
    out.append(text(side, flat[-1] - 2, "the image as it is:", 12, BLUE))
    out.append(text(side, flat[-1] + 14, f"{kinds[0]} length{'s' * (kinds[0] > 1)} for {len(rows)} presets", 12, BLUE))
    out.append(text(side, top + 8, "squeezed (gzip -9):", 12, RED))
    out.append(text(side, top + 24, f"{kinds[1]} length{'s' * (kinds[1] > 1)} for {len(rows)} presets", 12, RED))
    out.append("</svg>")
    return "\n".join(out) + "\n"


if __name__ == "__main__":
    sys.stdout.write(picture(rows_of(sys.stdin)))
