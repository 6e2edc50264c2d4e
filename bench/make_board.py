#!/usr/bin/env python3
"""Writes a connected board made from a seed.

usage: make_board.py SEED FPGAS WIRES NETS GROUPS > board

The first FPGAS - 1 wires are a random tree, so every net can be routed; the others join random pairs.
A net has 2 to 5 FPGAs, most of them near its source, and a group has 1 to 4 nets. The same words give
the same text.
"""
import random
import sys


def main() -> int:
    if len(sys.argv) != 6:
        print(__doc__, file=sys.stderr)
        return 2
    seed, fpgas, wires, nets, groups = map(int, sys.argv[1:])
    if fpgas < 2 or wires < fpgas - 1 or nets < 1:
        print("make_board.py: wants two FPGAs, wires for a tree and one net", file=sys.stderr)
        return 2
    rng = random.Random(seed)
    out = [f"{fpgas} {wires} {nets} {groups}"]
    near = [[] for _ in range(fpgas)]

    def add_wire(a: int, b: int) -> None:
        out.append(f"{a} {b}")
        near[a].append(b)
        near[b].append(a)

    for fpga in range(1, fpgas):
        add_wire(fpga, rng.randrange(fpga))
    for _ in range(wires - fpgas + 1):
        a, b = rng.sample(range(fpgas), 2)
        add_wire(a, b)

    for _ in range(nets):
        source = at = rng.randrange(fpgas)
        net = [source]
        for _ in range(rng.choice((1, 1, 1, 2, 2, 3, 4))):
            if rng.random() < 0.8:
                at = rng.choice(near[at])
            else:
                at = rng.randrange(fpgas)
            net.append(at)
        out.append(" ".join(map(str, net)))
    for _ in range(groups):
        out.append(" ".join(str(rng.randrange(nets)) for _ in range(rng.randint(1, 4))))
    sys.stdout.write("\n".join(out) + "\n")
    return 0


if __name__ == "__main__":
    sys.exit(main())
