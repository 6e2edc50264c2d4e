"""Whether `gen` and then `route`, `eval` and `check` agree with `demo` of the same numbers, and two runs of `demo` with one
another, byte for byte.

python3 bench/agree.py PROGRAM [FOLDER]

The texts are left in FOLDER. Last the largest board is made, and the seconds that this took are printed.
"""

import pathlib
import subprocess
import sys
import tempfile
import time


def run(program, *words):
    """What the program says with these words, which it has to end well with."""
    done = subprocess.run([program, *map(str, words)], capture_output=True, text=True)
    if done.returncode != 0:
        sys.exit(f"{words}: status {done.returncode}, {done.stdout!r}")
    return done.stdout


def same(what, one, other):
    if one != other:
        sys.exit(f"{what} differ: {one!r} and {other!r}")
    print(f"{what}: the same")


def agree(program, folder, numbers):
    """Makes, routes and judges the board of these numbers, and compares all of it with what `demo` does."""
    board, solution, cert = (folder / f"made.{kind}" for kind in ("board", "solution", "cert"))
    shown_solution, shown_cert = (folder / f"shown.{kind}" for kind in ("solution", "cert"))
    made = run(program, "gen", *numbers, board)
    routed = run(program, "route", board, solution, cert)
    shown = run(program, "demo", *numbers, shown_solution, shown_cert)
    same("reports", made + routed, shown)
    same("solutions", solution.read_bytes(), shown_solution.read_bytes())
    same("certificates", cert.read_bytes(), shown_cert.read_bytes())
    value, bound = routed.splitlines(keepends=True)
    same("values", run(program, "eval", board, solution), value)
    same("bounds", run(program, "check", board, cert), bound)
    again_solution, again_cert = (folder / f"again.{kind}" for kind in ("solution", "cert"))
    same("second reports", run(program, "demo", *numbers, again_solution, again_cert), shown)
    same("second solutions", again_solution.read_bytes(), shown_solution.read_bytes())
    same("second certificates", again_cert.read_bytes(), shown_cert.read_bytes())
    print(shown, end="")


def main():
    program = sys.argv[1]
    folder = pathlib.Path(sys.argv[2] if len(sys.argv) > 2 else tempfile.mkdtemp())
    folder.mkdir(parents=True, exist_ok=True)
    agree(program, folder, (64, 2000, 500))
    agree(program, folder, (300, 20000, 20000))
    begun = time.monotonic()
    print(run(program, "gen", 4096, 1048576, 1048576, folder / "largest.board"), end="")
    print(f"{time.monotonic() - begun:.2f} seconds")


if __name__ == "__main__":
    main()
