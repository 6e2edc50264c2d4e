#!/usr/bin/env python3
"""Times the searches over lengths, and the trees that they build, beside the same work in plain C++, and prints one table.

usage: searches.py PROGRAM [FOLDER]

PROGRAM is the built `search_bench`, FOLDER where the board and the compiled `searches.cpp` are kept (a new one in
the temporary folder if it is left out). Each line is the least of several runs in processor seconds, less what it
takes to read the board. It wants g++. This is no part of the tests.
"""
import os
import subprocess
import sys
import tempfile
from pathlib import Path

HERE = Path(__file__).parent

FPGAS, WIRES, NETS = 400, 1_850, 100_000
SEED = 20
RUNS = 7


def board(folder: Path) -> Path:
    """The board of a seed, with its first nets of three to five FPGAs, and no groups."""
    at = folder / "searches.txt"
    if not at.exists():
        words = [SEED, FPGAS, WIRES, 3 * NETS, 1]
        made = [sys.executable, HERE / "make_board.py"] + [str(word) for word in words]
        lines = subprocess.run(made, stdout=subprocess.PIPE, text=True, check=True).stdout.splitlines()
        wires, nets = lines[1 : 1 + WIRES], lines[1 + WIRES : 1 + WIRES + 3 * NETS]
        large = [net for net in nets if len(set(net.split())) >= 3][:NETS]
        at.write_text("\n".join([f"{FPGAS} {WIRES} {len(large)} 0"] + wires + large) + "\n")
    return at


def compiled(folder: Path) -> Path:
    program = folder / "searches"
    subprocess.run(["g++", "-O2", "-std=c++17", "-o", program, HERE / "searches.cpp"], check=True)
    return program


def measured(program: Path, what: str, text: Path) -> tuple:
    """processor seconds of one run, and what was said"""
    child = subprocess.Popen([program, what, text], stdout=subprocess.PIPE, text=True)
    said = child.stdout.read().strip()
    _, status, usage = os.wait4(child.pid, 0)
    if status != 0:
        sys.exit(f"searches.py: {program} {what} failed")
    return usage.ru_utime, said


def main() -> int:
    if len(sys.argv) not in (2, 3):
        print(__doc__, file=sys.stderr)
        return 2
    folder = Path(sys.argv[2] if len(sys.argv) == 3 else tempfile.mkdtemp(prefix="tdm-bench-"))
    folder.mkdir(parents=True, exist_ok=True)
    text = board(folder)
    programs = [Path(sys.argv[1]).resolve(), compiled(folder)]
    seconds, said = {}, {}
    for _ in range(RUNS):
        for what in ("read", "forests", "trees"):
            for place, program in enumerate(programs):
                took, said[what, place] = measured(program, what, text)
                seconds[what, place] = min(took, seconds.get((what, place), took))
    print(f"{'what':>8} {'search_bench':>13} {'C++':>6} {'ratio':>6}  said")
    for what in ("forests", "trees"):
        ours, theirs = (seconds[what, place] - seconds["read", place] for place in (0, 1))
        both = ", ".join(said[what, place] for place in (0, 1))
        print(f"{what:>8} {ours:>13.2f} {theirs:>6.2f} {ours / theirs:>6.2f}  {both}")
    return 0


if __name__ == "__main__":
    sys.exit(main())
