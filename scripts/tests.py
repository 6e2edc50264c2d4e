#!/usr/bin/env python3
"""Tests of the scripts beside it, run by hand: python3 scripts/tests.py [PROGRAM]

PROGRAM is the built `tdm`, and the one on the PATH where it is left out. A test is a class for each script.
"""
import os
import random
import re
import shutil
import subprocess
import sys
import tempfile
import unittest
import xml.etree.ElementTree as xml
from pathlib import Path

SCRIPTS = Path(__file__).resolve().parent
EXAMPLES = SCRIPTS.parent / "examples"
PROGRAM = os.path.abspath(sys.argv.pop(1)) if sys.argv[1:] else shutil.which("tdm") or "tdm"


def ran(script, *words):
    """The status of a script, and what it said."""
    words = [str(SCRIPTS / script), *map(str, words)]
    done = subprocess.run(words, capture_output=True, text=True, env={**os.environ, "TDM": PROGRAM})
    return done.returncode, done.stdout


def example(name):
    return EXAMPLES / name


class Verify(unittest.TestCase):
    def verify(self, board, solution, cert):
        return ran("verify.sh", example(board), example(solution), example(cert))

    def test_the_value_the_bound_and_their_ratio_are_said(self):
        made_by_hand = self.verify("shared_wire.board", "by_hand.solution", "by_hand.cert")
        self.assertEqual(made_by_hand, (0, "value 10 bound 10 value/bound 1.0000\n"))

    def test_a_bound_of_0_has_no_ratio(self):
        texts = self.verify("one_fpga.board", "one_fpga.solution", "one_fpga.cert")
        self.assertEqual(texts, (0, "value 0 bound 0 value/bound -\n"))

    def test_what_a_judge_refuses_is_told(self):
        status, said = self.verify("star.board", "one_wire.solution", "star.cert")
        self.assertEqual((status, said), (1, "tdm eval: status 8: illegal net 0 not joined\n"))
        status, said = self.verify("star.board", "star.solution", "by_hand.cert")
        self.assertEqual((status, said.startswith("tdm check: status 9: certificate refused")), (1, True))

    def test_other_numbers_of_words_are_refused(self):
        self.assertEqual(ran("verify.sh", example("star.board"))[0], 2)


class Components(unittest.TestCase):
    def test_parts_and_the_nets_across_them_are_told(self):
        wanted = [
            "parts 2",
            "part 0: 2 FPGAs, 1 wires: 0-1",
            "part 1: 2 FPGAs, 1 wires: 2-3",
            "net 0: 0 in part 0, 2 in part 1",
            "net 2: 1 in part 0, 3 in part 1",
        ]
        self.assertEqual(ran("components.py", example("two_islands.board")), (0, "\n".join(wanted) + "\n"))

    def test_fpgas_without_a_wire_share_a_line(self):
        with tempfile.TemporaryDirectory() as folder:
            board = Path(folder) / "board"
            board.write_text("5 1 1 0\n1 2\n3 0 4\n")
            wanted = [
                "parts 4",
                "part 1: 2 FPGAs, 1 wires: 1-2",
                "without a wire: 0, 3-4",
                "net 0: 0 without a wire, 3 without a wire, 4 without a wire",
            ]
            self.assertEqual(ran("components.py", board), (0, "\n".join(wanted) + "\n"))

    def test_a_broken_board_is_refused(self):
        self.assertEqual(ran("components.py", example("broken.board"))[0], 1)


class Growth(unittest.TestCase):
    def test_the_bound_of_the_star_is_said(self):
        words = [example("star.board"), example("star_by_growth.cert")]
        self.assertEqual(ran("growth.py", *words), (0, "bound 6\n"))

    def test_a_certificate_by_choices_is_refused(self):
        self.assertEqual(ran("growth.py", example("shared_wire.board"), example("by_hand.cert"))[0], 1)

    def test_check_says_the_same_of_random_certificates(self):
        draw = random.Random(1)
        with tempfile.TemporaryDirectory() as folder:
            board, cert = Path(folder) / "board", Path(folder) / "cert"
            for _ in range(100):
                self.put_random(draw, board, cert)
                done = subprocess.run([PROGRAM, "check", board, cert], capture_output=True, text=True)
                self.assertEqual(ran("growth.py", board, cert), (done.returncode, done.stdout), board.read_text())

    def put_random(self, draw, board, cert):
        """Writes a board of a few FPGAs, of which some may lie apart, and a certificate by growth for it."""
        fpgas, wires, nets, groups = draw.randint(2, 9), draw.randint(0, 14), draw.randint(1, 7), draw.randint(1, 4)
        rows = [[fpgas, wires, nets, groups]] + [draw.sample(range(fpgas), 2) for _ in range(wires)]
        rows += [draw.sample(range(fpgas), draw.randint(1, min(6, fpgas))) for _ in range(nets)]
        rows += [draw.sample(range(nets), draw.randint(1, nets)) for _ in range(groups)]
        board.write_text("".join(" ".join(map(str, row)) + "\n" for row in rows))
        kind, most = draw.choice([1, 2]), draw.choice([2, 6, 40])
        numbers = [draw.choice([0, 1, 5, 1_000_000]) for _ in range(groups)]
        numbers += [draw.randint(0, most) for _ in range(wires if kind == 1 else 0)]
        header = f"4 {kind} {most if kind == 2 else 0} 0\n"
        cert.write_text(header + "".join(f"{number}\n" for number in numbers))


class Picture(unittest.TestCase):
    def drawn(self, name):
        with tempfile.TemporaryDirectory() as folder:
            out = Path(folder) / "out.svg"
            self.assertEqual(ran("picture.py", example(f"{name}.board"), example(f"{name}.solution"), out), (0, ""))
            return [it for it in xml.parse(out).iter()]

    def test_each_wire_and_each_fpga_is_drawn(self):
        titles = [it.text for it in self.drawn("star") if it.tag.endswith("title")]
        self.assertEqual(titles[:3], [f"wire {i}: FPGAs 0 and {i + 1}, 1 nets, 0.5000 full" for i in range(3)])
        self.assertEqual(titles[3:], [f"FPGA {i}" for i in range(4)])

    def test_the_worst_group_is_marked(self):
        paths = [it for it in self.drawn("shared_wire") if it.tag.endswith("path")]
        self.assertEqual(["stroke-dasharray" in it.attrib for it in paths], [False, True])
        texts = [it.text for it in self.drawn("shared_wire") if it.tag.endswith("text")]
        self.assertIn("2 FPGAs, 1 wires, 3 nets, 1 groups: value 10, which group 0 has with 3 nets", texts)

    def test_a_board_without_groups_is_drawn(self):
        self.assertTrue(self.drawn("one_fpga"))

    def test_nothing_is_written_where_nothing_is_drawn(self):
        with tempfile.TemporaryDirectory() as folder:
            board, solution = Path(folder) / "board", Path(folder) / "solution"
            shutil.copy(example("star.board"), board)
            shutil.copy(example("star.solution"), solution)
            for words in [(board, solution, board), (board, solution, solution), (solution, board, Path(folder) / "out")]:
                self.assertEqual(ran("picture.py", *words)[0], 1, words)
            self.assertEqual(ran("picture.py", board, solution, Path(folder) / "none" / "out.svg")[0], 1)
            self.assertEqual(board.read_bytes(), example("star.board").read_bytes())
            self.assertEqual(solution.read_bytes(), example("star.solution").read_bytes())
            self.assertEqual(len(list(Path(folder).iterdir())), 2)


class Reached(unittest.TestCase):
    def test_the_page_is_what_the_sources_say(self):
        self.assertEqual(ran("reached.py", "--check"), (0, ""))


class Version(unittest.TestCase):
    def test_the_first_page_the_manual_and_the_changes_name_one_version(self):
        top = SCRIPTS.parent
        named = [re.search(r"^# tdm (\S+)", (top / "README.md").read_text(encoding="utf-8"))]
        named.append(re.search(r'^\.TH TDM 1 "\S+" "tdm (\S+)"', (top / "tdm.1").read_text(), re.M))
        named.append(re.search(r"^## (\S+)", (top / "CHANGELOG.md").read_text(), re.M))
        self.assertEqual(len({it[1] for it in named}), 1)


if __name__ == "__main__":
    unittest.main()
