#!/usr/bin/env python3
"""Times rounds of rerouting beside the same work in plain C++, and prints one table.

usage: rerouting.py PROGRAM FOLDER [BOARD..]

PROGRAM is the built `search_bench`, FOLDER where the boards and the compiled `rerouting.cpp` are kept. BOARD is one of the
names below, and without one all are timed. `first` is one round of four passes from trees of few wires, `later` one of the
seven rounds after it, on an average: least processor seconds of several runs. It wants g++. This is no part of the tests.
"""
import os
import subprocess
import sys
from pathlib import Path

HERE = Path(__file__).parent

# name, FPGAs, wires and nets
BOARDS = (
    ("small", 64, 256, 10_000),
    ("middle", 200, 1_200, 100_000),
    ("large", 500, 3_000, 300_000),
    ("wide", 2_000, 16_000, 300_000),
)
SEED = 20
RUNS = 3
ROUNDS = 8


def board(folder: Path, name: str, fpgas: int, wires: int, nets: int) -> Path:
    at = folder / f"rerouting-{name}.txt"
    if not at.exists():
        words = [str(word) for word in (SEED, fpgas, wires, nets, 1)]
        with open(at, "wb") as text:
            subprocess.run([sys.executable, HERE / "make_board.py"] + words, stdout=text, check=True)
    return at


def measured(program: Path, what: str, text: Path) -> tuple:
    """processor seconds, peak memory in MiB, and what was said"""
    child = subprocess.Popen([program, what, text], stdout=subprocess.PIPE, text=True)
    said = child.stdout.read().strip()
    _, status, usage = os.wait4(child.pid, 0)
    if status != 0:
        sys.exit(f"rerouting.py: {program} {what} failed")
    return usage.ru_utime + usage.ru_stime, usage.ru_maxrss // 1024, said


def line_of(programs: list, text: Path) -> str:
    seconds, peak, said = {}, {}, {}
    for _ in range(RUNS):
        for what in ("starts", "passes", "rounds"):
            for place, program in enumerate(programs):
                took, peak[place], said[what, place] = measured(program, what, text)
                seconds[what, place] = min(took, seconds.get((what, place), took))
    first, later = [], []
    for place in (0, 1):
        first.append(seconds["passes", place] - seconds["starts", place])
        later.append((seconds["rounds", place] - seconds["passes", place]) / (ROUNDS - 1))
    columns = [f"{ours:>8.2f} {theirs:>7.2f} {ours / max(theirs, 0.001):>6.2f}" for ours, theirs in (first, later)]
    costs = ", ".join(said["rounds", place] for place in (0, 1))
    return f"{' '.join(columns)} {peak[0]:>8} {peak[1]:>4}  {costs}"


def main() -> int:
    if len(sys.argv) < 3:
        print(__doc__, file=sys.stderr)
        return 2
    folder = Path(sys.argv[2])
    folder.mkdir(parents=True, exist_ok=True)
    other = folder / "rerouting"
    subprocess.run(["g++", "-O2", "-std=c++17", "-o", other, HERE / "rerouting.cpp"], check=True)
    programs = [Path(sys.argv[1]).resolve(), other]
    print(f"{'board':>7} {'first':>8} {'C++':>7} {'ratio':>6} {'later':>8} {'C++':>7} {'ratio':>6} {'peak MiB':>8} {'C++':>4}  costs")
    for name, fpgas, wires, nets in BOARDS:
        if sys.argv[3:] and name not in sys.argv[3:]:
            continue
        text = board(folder, name, fpgas, wires, nets)
        print(f"{name:>7} {line_of(programs, text)}", flush=True)
    return 0


if __name__ == "__main__":
    sys.exit(main())
