#!/usr/bin/env python3
"""Draws a board with a solution as an SVG file, which a browser shows.

usage: picture.py BOARD SOLUTION OUT.svg

A wire is the redder the fuller it is (the sum of the reciprocals of its ratios), the wider the more nets use it, and
grey where none does. The nets of the worst group, whose sum is the value, are marked: a blue line along each wire that
they use, and a blue ring around their FPGAs. A browser shows the numbers of a wire or an FPGA under the pointer. Up to
300 FPGAs are placed so that wires are short, more on a circle in the order of their numbers. Sums are in floating point
here; `tdm eval` is the judge. OUT.svg is written only once all is drawn, and may be neither of the two texts.
"""
import math
import os
import sys

from board_text import read_board, read_solution

SIZE, MARGIN = 1000, 60
MOST_PLACED = 300


def places_of(board):
    """A place for each FPGA: first on a circle, then moved by springs along wires while FPGAs push each other away."""
    n = max(board.fpgas, 1)
    places = [complex(math.cos(2 * math.pi * i / n), math.sin(2 * math.pi * i / n)) for i in range(board.fpgas)]
    if not 3 < board.fpgas <= MOST_PLACED:
        return places
    pairs = sorted({(min(wire), max(wire)) for wire in board.wires})
    ideal = math.sqrt(4 / n)
    steps = min(200, 4_000_000 // (n * n))
    for step in range(steps):
        moves = [0j] * n
        for i in range(n):
            for j in range(i):
                apart = places[i] - places[j]
                push = apart * (ideal * ideal / (abs(apart) ** 2 + 1e-6))
                moves[i] += push
                moves[j] -= push
        for a, b in pairs:
            pull = (places[a] - places[b]) * (abs(places[a] - places[b]) / ideal)
            moves[a] -= pull
            moves[b] += pull
        most = 0.2 * (1 - step / steps) + 0.002
        for i in range(n):
            size = abs(moves[i])
            places[i] += moves[i] * (min(size, most) / size) if size else 0
    return places


def on_paper(places):
    """The same places on a square of so many units."""
    if not places:
        return []
    left, top = min(it.real for it in places), min(it.imag for it in places)
    span = max(max(it.real for it in places) - left, max(it.imag for it in places) - top) or 1
    scale = (SIZE - 2 * MARGIN) / span
    return [(MARGIN + (it.real - left) * scale, MARGIN + (it.imag - top) * scale) for it in places]


def colour(full):
    """From green, which is empty, over yellow to red, which is full."""
    full = min(max(full, 0), 1)
    red, green = (int(510 * full), 170) if full < 0.5 else (230, int(340 * (1 - full)))
    return f"#{min(red, 230):02x}{green:02x}20"


def path_of(one, other, shift):
    """A line, or a bow of so much shift where wires lie side by side."""
    (ax, ay), (bx, by) = one, other
    if not shift:
        return f"M{ax:.1f} {ay:.1f}L{bx:.1f} {by:.1f}"
    length = math.hypot(bx - ax, by - ay) or 1
    x, y = (ax + bx) / 2 - (by - ay) / length * shift, (ay + by) / 2 + (bx - ax) / length * shift
    return f"M{ax:.1f} {ay:.1f}Q{x:.1f} {y:.1f} {bx:.1f} {by:.1f}"


def drawing(board, solution):
    users, full = [0] * len(board.wires), [0.0] * len(board.wires)
    for uses in solution:
        for wire, ratio in uses:
            users[wire] += 1
            full[wire] += 1 / ratio
    sums = [sum(sum(ratio for _, ratio in solution[net]) for net in group) for group in board.groups]
    value = max(sums, default=0)
    worst = sums.index(value) if sums else None
    nets = board.groups[worst] if sums else []
    marked_wires = {wire for net in nets for wire, _ in solution[net]}
    marked_fpgas = {fpga for net in nets for fpga in board.nets[net]}

    at, most = on_paper(places_of(board)), max(users, default=0) or 1
    widest = min(8, max(2, 64 / math.sqrt(len(board.wires) or 1)))
    beside, lines, marks = {}, [], []
    for wire, (a, b) in enumerate(board.wires):
        ends = (min(a, b), max(a, b))
        many = beside[ends] = beside.get(ends, 0) + 1
        path = path_of(at[ends[0]], at[ends[1]], (many // 2) * 14 * (-1) ** many)
        width = widest * (0.15 + 0.85 * math.sqrt(users[wire] / most))
        shade = colour(full[wire]) if users[wire] else "#cccccc"
        told = f"wire {wire}: FPGAs {a} and {b}, {users[wire]} nets, {full[wire]:.4f} full"
        lines.append(f'<path d="{path}" stroke="{shade}" stroke-width="{width:.1f}"><title>{told}</title></path>')
        if wire in marked_wires:
            width = max(2.5, widest / 2)
            marks.append(f'<path d="{path}" stroke="#1040d0" stroke-width="{width:.1f}" stroke-dasharray="8 4"/>')
    radius = max(3, min(16, 160 / math.sqrt(board.fpgas or 1)))
    dots = []
    for fpga, (x, y) in enumerate(at):
        ring = ' stroke="#1040d0" stroke-width="3"' if fpga in marked_fpgas else ' stroke="#404040"'
        circle = f'<circle cx="{x:.1f}" cy="{y:.1f}" r="{radius:.1f}" fill="white"{ring}>'
        dots.append(f"{circle}<title>FPGA {fpga}</title></circle>")
        if radius >= 7:
            dots.append(f'<text x="{x:.1f}" y="{y + radius / 3:.1f}" font-size="{radius * 0.9:.1f}">{fpga}</text>')
    sizes = f"{board.fpgas} FPGAs, {len(board.wires)} wires, {len(board.nets)} nets, {len(board.groups)} groups"
    head = f"{sizes}: value {value}"
    if sums:
        head += f", which group {worst} has with {len(nets)} net{'s' * (len(nets) != 1)}"
    return "\n".join(
        [
            f'<svg xmlns="http://www.w3.org/2000/svg" viewBox="0 0 {SIZE} {SIZE + 30}"',
            ' font-family="sans-serif" text-anchor="middle">',
            '<rect width="100%" height="100%" fill="white"/>',
            f'<text x="{SIZE / 2}" y="{SIZE + 15}" font-size="18">{head}</text>',
            '<g fill="none" stroke-opacity="0.7">',
            *lines,
            "</g>",
            '<g fill="none">',
            *marks,
            "</g>",
            *dots,
            "</svg>",
            "",
        ]
    )


def main():
    if len(sys.argv) != 4:
        print(__doc__, file=sys.stderr)
        return 2
    *texts, out_name = sys.argv[1:]
    if os.path.exists(out_name) and any(os.path.exists(it) and os.path.samefile(it, out_name) for it in texts):
        sys.exit(f"{out_name}: this is the board or the solution, which stays as it is")
    board = read_board(texts[0])
    drawn = drawing(board, read_solution(texts[1], board))
    try:
        with open(out_name, "w", encoding="ascii") as out:
            out.write(drawn)
    except OSError as error:
        sys.exit(f"{out_name}: {error.strerror}")
    return 0


if __name__ == "__main__":
    sys.exit(main())
