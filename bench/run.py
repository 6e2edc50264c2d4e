#!/usr/bin/env python3
"""Routes boards of growing size by the built program, and prints one table: value, bound, value/bound, processor
seconds and peak memory.

PROGRAM is the built `tdm`, FOLDER where the boards are kept (a new one in the temporary folder if it is left out).
Each board is routed by each number of rounds, 20 where none is given; boards of more than NETS nets are left out.
Every solution is judged by `tdm eval` and every certificate by `tdm check`: the values and bounds of the table are
what these two say.

--other runs a second program beside ours on the same boards, by a command with {board}, {solution} and perhaps
{cert} and {rounds} in it, as
    --other './router {board} {solution} {cert} {rounds}'
Its solutions, and its certificates where the command names one, are judged in the same way; without a certificate
of its own value/bound is over the greatest bound so far. Without {rounds} it runs once a board.

--edges times, in place of the above, what lies at the limits: boards with as many uses as a solution may have, as
many potentials as a certificate may have, and wires that are filled exactly by many different ratios.

Peak memory is the largest resident set; under some 14 MiB it is that of this script. This is no part of the tests.
"""
import argparse
import os
import shlex
import subprocess
import sys
import tempfile
from pathlib import Path

# FPGAs, wires, nets, groups
SIZES = [
    (64, 256, 10_000, 10_000),
    (200, 1_200, 100_000, 100_000),
    (500, 3_000, 900_000, 900_000),
]
SEED = 20

# nets from end to end of a path of 4,096 FPGAs: one more than may be routed, and the most
PATH_NETS = [8_195, 8_194]

# FPGAs of a ring each of which is the source of a net, so that a certificate has a potential for each
RING_FPGAS = 4_096

# different ratios on one wire whose reciprocals sum to exactly 1
EXACT_RATIOS = [1_000, 4_000, 16_000, 64_000]


def path(folder: Path, nets: int) -> Path:
    at = folder / f"path-{nets}.txt"
    if not at.exists():
        wires = "".join(f"{i} {i + 1}\n" for i in range(4_095))
        at.write_text(f"4096 4095 {nets} 0\n{wires}" + "0 4095\n" * nets)
    return at


def ring(folder: Path, fpgas: int) -> Path:
    """A ring with a net from each FPGA to the next, each net a group of its own."""
    at = folder / f"ring-{fpgas}.txt"
    if not at.exists():
        steps = "".join(f"{i} {(i + 1) % fpgas}\n" for i in range(fpgas))
        at.write_text(f"{fpgas} {fpgas} {fpgas} {fpgas}\n{steps}{steps}" + "".join(f"{i}\n" for i in range(fpgas)))
    return at


def exact(folder: Path, count: int) -> tuple:
    """A board with one wire, and a solution that fills it exactly with this even number of different ratios.

    The reciprocals of 1·2, 2·3, 3·4 .. sum to 1 less the reciprocal of the last factor, which is the last ratio.
    """
    text, solution = folder / f"exact-{count}.txt", folder / f"exact-{count}-solution.txt"
    ratios = [k * (k + 1) for k in range(1, count)] + [count]
    text.write_text(f"2 1 {count} 1\n0 1\n" + "0 1\n" * count + "0\n")
    solution.write_text("".join(f"1\n0 {ratio}\n" for ratio in ratios))
    return text, solution


def board(folder: Path, size: tuple) -> Path:
    at = folder / ("board-" + "-".join(map(str, size)) + ".txt")
    if not at.exists():
        words = [sys.executable, str(Path(__file__).with_name("make_board.py")), str(SEED)]
        with open(at, "w") as text:
            subprocess.run(words + [str(n) for n in size], stdout=text, check=True)
    return at


def measured(words: list) -> tuple:
    """Processor seconds, peak MiB, exit status and what was said; after a failure also the last line of its errors."""
    with tempfile.TemporaryFile("w+") as errors:
        child = subprocess.Popen([str(word) for word in words], stdout=subprocess.PIPE, stderr=errors, text=True)
        said = child.stdout.read().strip()
        _, status, usage = os.wait4(child.pid, 0)
        status = os.waitstatus_to_exitcode(status)
        errors.seek(0)
        last = errors.read().strip().splitlines()[-1:] if status else []
    return usage.ru_utime + usage.ru_stime, usage.ru_maxrss / 1024, status, "\n".join([said, *last]).strip()


def judged(program: str, verb: str, text: Path, judged_text: Path):
    """The number that `eval` or `check` says, or None with what else it said."""
    _, _, status, said = measured([program, verb, text, judged_text])
    return (int(said.split()[1]), "") if status == 0 else (None, f"{verb}: {said or f'status {status}'}")


def compare(program: str, folder: Path, rounds: list, most: int, other: str) -> None:
    numbers = f"{'value':>12} {'bound':>12} {'value/bound':>11}"
    print(f"{'nets':>8} {'rounds':>6} {'program':>8} {numbers} {'seconds':>8} {'peak MiB':>8}", flush=True)
    greatest = 0

    def row(size: tuple, count, name: str, words: list, text: Path, solution: Path, cert) -> None:
        nonlocal greatest
        for it in (solution, cert):
            if it and it.exists():
                it.unlink()
        seconds, peak, status, said = measured(words)
        value = bound = None
        wrong = f"status {status}: {said}" if status != 0 else ""
        if not wrong:
            value, wrong = judged(program, "eval", text, solution)
        if cert and value is not None:
            bound, wrong = judged(program, "check", text, cert)
            greatest = max(greatest, bound or 0)
        over = bound if cert else greatest
        ratio = f"{value / over:.4f}" if value and over else "-"
        numbers = f"{value if value is not None else '-':>12} {bound if bound is not None else '-':>12} {ratio:>11}"
        line = f"{size[2]:>8} {count:>6} {name:>8} {numbers} {seconds:>8.2f} {peak:>8.0f}  {wrong}"
        print(line.rstrip(), flush=True)

    for size in SIZES:
        if size[2] > most:
            continue
        text, greatest = board(folder, size), 0
        for count in rounds:
            solution, cert = folder / "solution.txt", folder / "cert.txt"
            row(size, count, "tdm", [program, "route", text, solution, cert, count], text, solution, cert)
        for count in (rounds if other and "{rounds}" in other else ["-"] if other else []):
            solution, cert = folder / "other-solution.txt", folder / "other-cert.txt"
            words = [
                word.format(board=text, solution=solution, cert=cert, rounds=count) for word in shlex.split(other)
            ]
            row(size, count, "other", words, text, solution, cert if "{cert}" in other else None)


def edges(program: str, folder: Path) -> None:
    print(f"{'fpgas':>6} {'wires':>6} {'nets':>8} {'groups':>8} {'MB read':>8} {'seconds':>8} {'peak MiB':>9}  said")

    def run(verb: str, size: tuple, inputs: list, words: list) -> int:
        seconds, peak, status, said = measured([program, verb] + words)
        read = sum(text.stat().st_size for text in inputs) / 1e6
        row = f"{size[0]:>6} {size[1]:>6} {size[2]:>8} {size[3]:>8} {read:>8.1f} {seconds:>8.2f} {peak:>9.0f}"
        print(f"{row}  {verb}, status {status}: {', '.join(said.splitlines())}", flush=True)
        return status

    boards = [((4_096, 4_095, nets, 0), path(folder, nets)) for nets in PATH_NETS]
    boards += [((RING_FPGAS,) * 4, ring(folder, RING_FPGAS))]
    for size, text in boards:
        solution, cert = folder / "solution.txt", folder / "cert.txt"
        if run("route", size, [text], [text, solution, cert, 0]) == 0:
            run("eval", size, [text, solution], [text, solution])
            run("check", size, [text, cert], [text, cert])
    for count in EXACT_RATIOS:
        text, solution = exact(folder, count)
        run("eval", (2, 1, count, 1), [text, solution], [text, solution])


def main() -> int:
    words = argparse.ArgumentParser(
        usage="run.py PROGRAM [FOLDER] [--rounds N,N..] [--most NETS] [--other TEMPLATE] [--edges]",
        description=__doc__,
        formatter_class=argparse.RawDescriptionHelpFormatter,
    )
    words.add_argument("program")
    words.add_argument("folder", nargs="?")
    words.add_argument("--rounds", type=lambda numbers: [int(it) for it in numbers.split(",")], default=[20])
    words.add_argument("--most", type=int, default=1 << 20)
    words.add_argument("--other")
    words.add_argument("--edges", action="store_true")
    given = words.parse_args()
    program = str(Path(given.program).resolve())
    folder = Path(given.folder or tempfile.mkdtemp(prefix="tdm-bench-"))
    folder.mkdir(parents=True, exist_ok=True)
    if given.edges:
        edges(program, folder)
    else:
        compare(program, folder, given.rounds, given.most, given.other)
    return 0


if __name__ == "__main__":
    sys.exit(main())
