"""Reads boards and solutions for the scripts beside it, by the layouts of docs/TEXTS.md.

It refuses less than `tdm` does.
"""
import sys
from typing import NamedTuple


class Board(NamedTuple):
    fpgas: int
    wires: list
    nets: list
    groups: list


def rows_of(name):
    """The lines of a file that have a token, as numbers."""
    rows = []
    try:
        with open(name, encoding="ascii") as text:
            for number, line in enumerate(text, 1):
                row = line.split()
                if row:
                    rows.append([int(word) for word in row])
    except OSError as error:
        sys.exit(f"{name}: {error.strerror}")
    except (UnicodeDecodeError, ValueError):
        sys.exit(f"{name}: line {number} or one near it has a word that is no number")
    return rows


def read_board(name):
    rows = rows_of(name)
    if not rows or len(rows[0]) != 4:
        sys.exit(f"{name}: the header has not four numbers: is it a board?")
    fpgas, wires, nets, groups = rows[0]
    if len(rows) != 1 + wires + nets + groups:
        sys.exit(f"{name}: {len(rows) - 1} lines behind the header, which counts {wires + nets + groups}")
    board = Board(
        fpgas,
        [tuple(row) for row in rows[1 : 1 + wires]],
        [list(dict.fromkeys(row)) for row in rows[1 + wires : 1 + wires + nets]],
        [list(dict.fromkeys(row)) for row in rows[1 + wires + nets :]],
    )
    if any(len(wire) != 2 or not 0 <= min(wire) <= max(wire) < fpgas for wire in board.wires):
        sys.exit(f"{name}: a wire does not join two FPGAs of the board")
    if any(not 0 <= min(net) <= max(net) < fpgas for net in board.nets):
        sys.exit(f"{name}: a net lists an FPGA that the board lacks")
    if any(not 0 <= min(group) <= max(group) < nets for group in board.groups):
        sys.exit(f"{name}: a group lists a net that the board lacks")
    return board


def read_solution(name, board):
    """For each net its uses, each the number of a wire and the ratio."""
    rows, at, nets = rows_of(name), 0, []
    for _ in board.nets:
        if at >= len(rows) or len(rows[at]) != 1:
            sys.exit(f"{name}: no count of uses for net {len(nets)}: is it a solution of this board?")
        uses = [tuple(row) for row in rows[at + 1 : at + 1 + rows[at][0]]]
        if len(uses) != rows[at][0] or any(len(use) != 2 or not 0 <= use[0] < len(board.wires) for use in uses):
            sys.exit(f"{name}: net {len(nets)} has a use that is no wire and ratio, or lacks one")
        if any(ratio <= 0 for _, ratio in uses):
            sys.exit(f"{name}: net {len(nets)} has the ratio 0")
        nets.append(uses)
        at += 1 + len(uses)
    if at != len(rows):
        sys.exit(f"{name}: lines are left behind the last net")
    return nets
