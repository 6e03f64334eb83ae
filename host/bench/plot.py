#!/usr/bin/env python3
"""Draws what the races found: plot.py RESULTS SVG. A bar is the time beyond the floor, in hundredths of it."""
import sys

sys.dont_write_bytecode = True
import results

WIDTH, LEFT, RIGHT, TOP = 760, 158, 64, 96
BAR, ROW, GAP, BOTTOM = 10, 28, 10, 46
LOWEST, HIGHEST = -1, 12

STYLE = """
    text { font: 13px system-ui, sans-serif; fill: #1f2328 }
    .page { fill: #ffffff } .small { font-size: 11px; fill: #59636e } .title { font-size: 16px; font-weight: 600 }
    .grid { stroke: #d1d9e0 } .floor { stroke: #1f2328 } .aim { stroke: #cf222e; stroke-width: 2 }
    .library { fill: #0969da } .plain { fill: #a9b1ba }
    @media (prefers-color-scheme: dark) {
      text { fill: #f0f6fc } .page { fill: #0d1117 } .small { fill: #9198a1 }
      .grid { stroke: #3d444d } .floor { stroke: #f0f6fc } .aim { stroke: #ff7b72 }
      .library { fill: #4493f8 } .plain { fill: #6e7681 }
    }
  """


def across(percent):
    """Where a percentage beyond the floor stands, from left to right."""
    inside = min(max(percent, LOWEST), HIGHEST)
    return LEFT + (WIDTH - LEFT - RIGHT) * (inside - LOWEST) / (HIGHEST - LOWEST)


def text(x, y, words, kind="", anchor="start"):
    return f'<text x="{x:.1f}" y="{y:.1f}" class="{kind}" text-anchor="{anchor}">{words}</text>'


def upright(x, y, height, kind):
    return f'<line x1="{x:.1f}" x2="{x:.1f}" y1="{y:.1f}" y2="{y + height:.1f}" class="{kind}"/>'


def box(x, y, width, height, kind):
    return f'<rect x="{x:.1f}" y="{y:.1f}" width="{width:.1f}" height="{height:.1f}" class="{kind}"/>'


def bar(y, ratio, kind):
    """A bar from the floor to a multiple of it, which stands at the right edge."""
    start, end = sorted((across(0), across(100 * (ratio - 1))))
    return box(start, y, max(end - start, 1), BAR, kind) + text(WIDTH - 16, y + BAR - 1, f"{ratio:.3f}", "small", "end")


def row(work, y):
    """The two bars of a work, and its aim across them."""
    return "\n".join([
        text(LEFT - 4, y + 15, work.name, "", "end"),
        bar(y, work.of_floor, "library"),
        bar(y + BAR + 1, work.plain_of_floor, "plain"),
        upright(across(100 * (work.aim - 1)), y - 4, ROW, "aim"),
    ])


def tops(works):
    """The top of each work's row, with a gap before each new kind of work."""
    found, y = [], TOP
    for n, work in enumerate(works):
        if n > 0 and work.name.split(" (")[0] != works[n - 1].name.split(" (")[0]:
            y += GAP
        found.append(y)
        y += ROW
    return found, y


def axis(bottom):
    marks = range(0, HIGHEST + 1, 2)
    lines = [upright(across(p), TOP - 8, bottom - TOP + 8, "floor" if p == 0 else "grid") for p in marks]
    labels = [text(across(p), bottom + 16, f"+{p} %" if p else "floor", "small", "middle") for p in marks]
    return "\n".join(lines + labels)


def legend():
    return "\n".join([
        text(16, 28, "Time beyond the Ed25519 calls alone", "title"),
        text(16, 48, "Shorter is better. At the right, the time as a multiple of the floor.", "small"),
        box(16, 60, 24, BAR, "library"), text(46, 69, "proved library"),
        box(156, 60, 24, BAR, "plain"), text(186, 69, "plain C over libsodium"),
        upright(356, 56, 18, "aim"), text(364, 69, "aim for the library, at most"),
    ])


def drawing(works):
    starts, bottom = tops(works)
    height = bottom + BOTTOM
    size = f'viewBox="0 0 {WIDTH} {height}" width="{WIDTH}" height="{height}"'
    return "\n".join([
        f'<svg xmlns="http://www.w3.org/2000/svg" {size} role="img">',
        "  <title>Time of each call beyond the Ed25519 calls alone</title>",
        f"  <style>{STYLE}</style>",
        box(0, 0, WIDTH, height, "page"), legend(), axis(bottom), *map(row, works, starts),
        text(16, height - 10, "(6,6): parent and child of heights 6 and 6; (6,6,6): three trees; fair (24): a cache of 24 entries", "small"),
        "</svg>\n",
    ])


def main():
    source, target = sys.argv[1:]
    try:
        with open(source) as lines:
            # a work that is held against more than it asks has no bar beyond its floor
            works = [work for work in results.read(lines)[1] if work.aim >= 1]
    except FileNotFoundError:
        sys.exit(f"plot: there is no {source} yet: make bench makes it")
    with open(target, "w") as svg:
        svg.write(drawing(works))


main()
