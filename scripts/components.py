#!/usr/bin/env python3
"""Says which FPGAs of a board are joined by wires, and which nets lie in more than one such part.

usage: components.py BOARD

The first line says how many parts there are. Then comes a line for each part with at least two FPGAs, one line for all
FPGAs without a wire, and a line for each net that no wires can join, with its FPGAs part by part.
"""
import sys

from board_text import read_board


def parts_of(board):
    """For each FPGA the number of its part; parts by their least FPGA."""
    beside = [[] for _ in range(board.fpgas)]
    for a, b in board.wires:
        beside[a].append(b)
        beside[b].append(a)
    part, parts = [None] * board.fpgas, 0
    for first in range(board.fpgas):
        if part[first] is None:
            part[first], waiting = parts, [first]
            while waiting:
                for other in beside[waiting.pop()]:
                    if part[other] is None:
                        part[other] = parts
                        waiting.append(other)
            parts += 1
    return part, parts


def ranges(numbers):
    """Rising numbers in words, such as 0-3, 7, 9-12."""
    runs = []
    for number in numbers:
        if runs and runs[-1][1] == number - 1:
            runs[-1][1] = number
        else:
            runs.append([number, number])
    return ", ".join(str(a) if a == b else f"{a}-{b}" for a, b in runs)


def main():
    if len(sys.argv) != 2:
        print(__doc__, file=sys.stderr)
        return 2
    board = read_board(sys.argv[1])
    part, parts = parts_of(board)
    members = [[] for _ in range(parts)]
    for fpga in range(board.fpgas):
        members[part[fpga]].append(fpga)
    wires = [0] * parts
    for a, _ in board.wires:
        wires[part[a]] += 1
    print(f"parts {parts}")
    for number, fpgas in enumerate(members):
        if len(fpgas) > 1:
            print(f"part {number}: {len(fpgas)} FPGAs, {wires[number]} wires: {ranges(fpgas)}")
    alone = [fpgas[0] for fpgas in members if len(fpgas) == 1]
    if alone:
        print(f"without a wire: {ranges(alone)}")
    for number, net in enumerate(board.nets):
        if len({part[fpga] for fpga in net}) > 1:
            of_part = {}
            for fpga in sorted(net):
                of_part.setdefault(part[fpga], []).append(fpga)
            places = [f"in part {it}" if len(members[it]) > 1 else "without a wire" for it in range(parts)]
            told = [f"{ranges(fpgas)} {places[it]}" for it, fpgas in sorted(of_part.items())]
            print(f"net {number}: {', '.join(told)}")
    return 0


if __name__ == "__main__":
    sys.exit(main())
