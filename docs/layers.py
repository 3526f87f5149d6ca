#!/usr/bin/env python3
"""Writes docs/layers.svg, the layers of crates.txt that `tgate` stands on, the lowest at the bottom. With `check` it writes nothing,
and its status is 1 where the picture isn't that of crates.txt. A browser shows for each crate on which others it stands."""
import pathlib
import sys

TOP = pathlib.Path(__file__).resolve().parent.parent
WIDTH, LEFT, BOX, GAP, LETTER = 1000, 16, 22, 6, 7.3


def read():
    """The layers as (title, crates), and what each crate stands on."""
    layers, needs = [], {}
    for line in (TOP / "crates.txt").read_text().split("\n"):
        if line.startswith("# ") and not line.startswith("# NAME"):
            layers.append((line[2:], []))
        elif line and not line.startswith("#"):
            name, rest = line.split(":")
            layers[-1][1].append(name)
            needs[name] = [crate for crate in rest.split()]
    return layers, needs


def below(needs, name):
    """The crate, and all of the repository that it stands on."""
    seen, left = set(), [name]
    while left:
        crate = left.pop()
        if crate in needs and crate not in seen:
            seen.add(crate)
            left += needs[crate]
    return seen


def picture():
    layers, needs = read()
    used = below(needs, "tgate")
    out, top = [], 10
    for title, crates in reversed(layers):
        crates = [crate for crate in crates if crate in used]
        if not crates:
            continue
        x, y, boxes = LEFT, top + 26, []
        for crate in crates:
            wide = len(crate) * LETTER + 14
            if x + wide > WIDTH - LEFT:
                x, y = LEFT, y + BOX + GAP
            above = " ".join(dep for dep in needs[crate] if dep in needs) or "nothing of the repository"
            boxes.append(f'<g><title>{crate} stands on {above}</title><rect class="crate" x="{x:.0f}" y="{y}" width="{wide:.0f}" '
                         f'height="{BOX}" rx="3"/><text x="{x + 7:.0f}" y="{y + 15}">{crate}</text></g>')
            x += wide + GAP
        high = y + BOX + 8 - top
        out += [f'<rect class="layer" x="6" y="{top}" width="{WIDTH - 12}" height="{high}" rx="5"/>',
                f'<text class="title" x="{LEFT}" y="{top + 17}">{title}</text>', *boxes]
        top += high + 8
    head = (f'<svg xmlns="http://www.w3.org/2000/svg" width="{WIDTH}" height="{top + 2}" viewBox="0 0 {WIDTH} {top + 2}">\n'
            '<style>text { font: 12px monospace; fill: #222 } .title { font: 13px sans-serif; fill: #444 } '
            '.layer { fill: #f2f4f7; stroke: #c8ced8 } .crate { fill: #fff; stroke: #7a8aa0 }</style>\n'
            f'<rect width="{WIDTH}" height="{top + 2}" fill="#fff"/>\n')
    return head + "\n".join(out) + "\n</svg>\n"


file = TOP / "docs" / "layers.svg"
if sys.argv[1:] == ["check"]:
    sys.exit(0 if file.exists() and file.read_text() == picture() else "docs/layers.svg: not the picture of crates.txt")
file.write_text(picture())
