#!/usr/bin/env python3
"""chart.py TABLE SVG: draws the first table that bench.py printed: time as a part of the peer's, and
peak memory, of uimg beside the peer. It needs no other tool."""
import html
import math
import re
import sys

UIMG, PEER, INK, FAINT = "#1d6fa5", "#b9bfc6", "#1f2328", "#59636e"
# Lengths in pixels: a row, a bar, the names of tasks, a panel, the space for its figures.
ROW, BAR, NAMES, PANEL, FIGURES, TOP = 44, 14, 210, 200, 130, 54
# The memory that a bar begins at, in MiB; the scale is logarithmic.
LEAST = 0.5


def rows(path):
    """Returns the task, the seconds and the MiB of both, and the peer, of each row of the first
    table."""
    found = []
    with open(path, encoding="utf-8") as file:
        for line in file:
            cells = [it.strip() for it in line.strip().strip("|").split("|")]
            if len(cells) == 7 and re.fullmatch(r"[\d.]+", cells[1]):
                found.append(cells)
            elif found:
                break
    return found


def spelled(mib):
    return f"{mib:.0f} MiB" if mib >= 100 else f"{mib:.1f} MiB"


def text(x, y, words, colour=INK, more=""):
    return f'<text x="{x:.0f}" y="{y:.0f}" fill="{colour}"{more}>{html.escape(words)}</text>'


def bar(x, y, length, colour):
    return f'<rect x="{x}" y="{y:.0f}" width="{max(1.5, length):.1f}" height="{BAR}" fill="{colour}"/>'


def length_of(mib, greatest):
    """The length of a bar of memory."""
    return PANEL * math.log(max(mib, LEAST) / LEAST) / math.log(greatest / LEAST)


def drawn(number, cells, greatest):
    """Yields the shapes of a row."""
    task, own, own_memory, peer, other, other_memory, _ = cells
    y = TOP + number * ROW
    peer = peer.replace("`", "")
    yield text(NAMES - 12, y + 12, task, more=' text-anchor="end"')
    yield text(NAMES - 12, y + 28, f"beside {peer}", FAINT, ' text-anchor="end" font-size="10"')
    longest = max(float(own), float(other))
    for shift, seconds, mib, colour in ((0, own, own_memory, UIMG), (BAR + 2, other, other_memory, PEER)):
        at = PANEL * float(seconds) / longest
        yield bar(NAMES, y + shift, at, colour)
        yield text(NAMES + max(1.5, at) + 5, y + shift + 11, f"{float(seconds):.3g} s", more=' font-size="11"')
        if mib:
            x, at = NAMES + PANEL + FIGURES, length_of(float(mib), greatest)
            yield bar(x, y + shift, at, colour)
            yield text(x + at + 5, y + shift + 11, spelled(float(mib)), more=' font-size="11"')


def main():
    found = rows(sys.argv[1])
    if not found:
        sys.exit(f"chart: {sys.argv[1]} has no table of bench.py")
    greatest = max(float(it) for cells in found for it in (cells[2], cells[5]) if it)
    width, height = NAMES + 2 * PANEL + 2 * FIGURES - 40, TOP + len(found) * ROW + 6
    second = NAMES + PANEL + FIGURES
    lines = [
        f'<svg xmlns="http://www.w3.org/2000/svg" viewBox="0 0 {width} {height}" font-family="sans-serif" font-size="12">',
        f'<rect width="{width}" height="{height}" fill="#ffffff"/>',
        text(NAMES, 18, "Time", more=' font-weight="bold"'),
        text(NAMES, 36, "each task to its own scale", FAINT, ' font-size="10"'),
        text(second, 18, "Peak memory", more=' font-weight="bold"'),
        text(second, 36, "logarithmic", FAINT, ' font-size="10"'),
        bar(12, 10, BAR, UIMG) + text(32, 21, "uimg"),
        bar(78, 10, BAR, PEER) + text(98, 21, "peer"),
    ]
    for number, cells in enumerate(found):
        lines += drawn(number, cells, greatest)
    with open(sys.argv[2], "w", encoding="utf-8") as file:
        file.write("\n".join([*lines, "</svg>\n"]))


if __name__ == "__main__":
    main()
