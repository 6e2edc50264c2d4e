#!/usr/bin/env python3
"""Computes the bound of a certificate by growth (version 4) as docs/CERTIFICATES.md defines it, and says `bound L`.

usage: growth.py BOARD CERT

It goes over all wires again and again until no distance becomes less, so it is slow, and shares nothing with `tdm
check`, which should say the same.
"""
import sys
from math import isqrt

from board_text import read_board, rows_of


def distances(fpgas, rests, start):
    """The least sum of rests over the ways from an FPGA to each, None where there is no way."""
    dist = [None] * fpgas
    dist[start], changed = 0, True
    while changed:
        changed = False
        for (_, a, b), rest in rests.items():
            if dist[a] is not None and (dist[b] is None or dist[a] + rest < dist[b]):
                dist[b], changed = dist[a] + rest, True
    return dist


def growth(board, lengths, net):
    """How far the FPGAs of a net grow."""
    rests = {}
    for wire, (a, b) in enumerate(board.wires):
        rests[wire, a, b] = rests[wire, b, a] = lengths[wire]
    live, total = sorted(net), 0
    for x in live[1:]:
        live.remove(x)
        dist = distances(board.fpgas, rests, x)
        near = [dist[f] for f in live if dist[f] is not None]
        if not near:
            return 0
        reach = min(near)
        height = [0 if d is None else max(0, reach - d) for d in dist]
        for wire, a, b in rests:
            rests[wire, a, b] -= max(0, height[a] - height[b])
        total += reach
    return total


def bound(board, kind, unit, weights, lengths):
    """The bound of the certificate with these numbers."""
    weight = [0] * len(board.nets)
    for group, nets in enumerate(board.groups):
        for net in nets:
            weight[net] += weights[group]
    grown = [w and growth(board, lengths, net) for w, net in zip(weight, board.nets)]
    if kind == 1:
        demand = 2 * sum(isqrt(w) * c for w, c in zip(weight, grown)) - sum(l * l for l in lengths)
        divisor = sum(weights)
    else:
        demand, divisor = 2 * sum(w * c for w, c in zip(weight, grown)), unit * sum(weights)
    return 2 * -(-max(0, demand) // (2 * divisor)) if divisor else 0


def main():
    if len(sys.argv) != 3:
        print(__doc__, file=sys.stderr)
        return 2
    board, rows = read_board(sys.argv[1]), rows_of(sys.argv[2])
    if not rows or len(rows[0]) != 4 or rows[0][0] != 4 or rows[0][1] not in (1, 2):
        sys.exit(f"{sys.argv[2]}: no certificate of version 4")
    kind, unit, groups, wires = rows[0][1], rows[0][2], len(board.groups), len(board.wires)
    if len(rows) != 1 + groups + (wires if kind == 1 else 0) or any(len(row) != 1 for row in rows[1:]):
        sys.exit(f"{sys.argv[2]}: not a line of one number for each group and, for kind 1, for each wire")
    numbers = [row[0] for row in rows[1:]]
    lengths = numbers[groups:] if kind == 1 else [unit] * wires
    print(f"bound {bound(board, kind, unit, numbers[:groups], lengths)}")
    return 0


if __name__ == "__main__":
    sys.exit(main())
