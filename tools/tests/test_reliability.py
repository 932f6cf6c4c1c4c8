"""reliability.py, over the reference planner, and over the built program where it is there."""
from __future__ import annotations

import importlib.util
import unittest
from unittest import mock

from helpers import BUILT, EXAMPLES, REFERENCE, ToolCase

import reliability

HAS_MATPLOTLIB = importlib.util.find_spec("matplotlib") is not None
TOWN = [EXAMPLES / "town.gr", EXAMPLES / "town.csv"]
CITY = [EXAMPLES / "city_grid.gr", EXAMPLES / "city_grid.csv"]


class Reliability(ToolCase):
    def show(self, *words: object, program: object = REFERENCE) -> tuple[int, str, str]:
        return self.run_tool(reliability.main, *words, "--sota", program)

    def town(self, *words: object) -> tuple[int, str, str]:
        return self.show(*TOWN, "Depot", "Hospital", *words, "--ids", EXAMPLES / "town.ids.csv")

    def test_table_and_answer(self) -> None:
        status, out, err = self.town(60, 85, "--tick", 5)
        self.assertEqual((status, err), (0, ""))
        table = """time allowed             now  by road
       300 s          23.2 %  Station Road out
       350 s          67.3 %  Station Road out
       400 s          89.4 %  Station Road out
       425 s          93.8 %  Mill Lane out

To be 90 % sure, allow 405 s.
"""
        self.assertEqual(out, table)

    def test_edits_stand_beside(self) -> None:
        edits = self.file("closed.script", "ask 1 3 60\n# Station Road\nclose 20\n")
        kept = self.folder / "asks"
        words = ["--edits", edits, "--after", "road closed", "--csv", "--script", kept]
        status, out, err = self.town(70, 80, *words, "--sure", 50)
        self.assertEqual(status, 0)
        rows = [line.split(",") for line in out.splitlines()]
        self.assertEqual(
            rows[0], ["ticks", "chance", "road", "chance_after_edits", "road_after_edits"]
        )
        self.assertEqual(rows[1][:3], ["70", "0.673375000000000000", "Station Road out"])
        self.assertLess(rows[1][3], rows[1][1])
        self.assertIn("To be 50 % sure now, allow 70 ticks or less.\n", err)
        self.assertIn("To be 50 % sure road closed, ", err)
        asks = ["ask 1 3 70", "ask 1 3 80"]
        self.assertEqual(kept.read_text().splitlines(), asks + ["close 20"] + asks)

    def test_not_enough(self) -> None:
        _, out, _ = self.town(60, 61, "--sure", "99.5")
        self.assertTrue(out.endswith("To be 99.5 % sure, 61 ticks are not enough.\n"))

    def test_refusals_say_where(self) -> None:
        edits = self.file("e", "# \nedit 2 9:3000000\nedit 77 1:1\n")
        status, out, err = self.town(60, 61, "--edits", edits)
        self.assertEqual((status, out), (1, ""))
        sums = "masses that do not fit the Q of the network (Sum)"
        self.assertEqual(err, f"{edits}:2: {sums}\n{edits}:3: no such arc (NoArc)\n")
        _, _, err = self.show(*TOWN, 1, 99, 5, 6)
        self.assertEqual(err, "the ask from 1 to 99: no such node to arrive at (NoDest)\n")
        bad = self.file("h.csv", "arc,tick,mass/4\n1,1\n")
        _, _, err = self.show(TOWN[0], bad, 1, 3, 5, 6)
        self.assertEqual(err, f"{bad}: the program refuses it: Sum (arc 1)\n")
        _, _, err = self.town(60, 61, "--edits", self.file("e", "ask 1 2 3\n"))
        self.assertEqual(err, f"{edits}:1: no line of this file begins with 'edit' or 'close'\n")

    def test_wrong_use(self) -> None:
        for words in ([9, 8], [0, 65536], [8, 9, "--sure", 101], [8, 9, "--picture", "a.gif"]):
            with self.subTest(words):
                self.assertEqual(self.town(*words)[0], 2)
        status, _, err = self.show(*TOWN, "Depot", 3, 5, 6)
        self.assertEqual((status, err.count("no table of ids was given")), (2, 1))
        status, _, err = self.show(*TOWN, 1, 3, 5, 6, program=self.folder / "none")
        self.assertEqual(status, 1)
        self.assertIn("build it or give --sota", err)

    def test_picture_needs_matplotlib(self) -> None:
        with mock.patch.dict("sys.modules", {"matplotlib": None}):
            status, _, err = self.town(60, 70, "--picture", self.folder / "a.png")
        self.assertEqual(status, 1)
        self.assertIn("a picture needs matplotlib", err)

    @unittest.skipUnless(HAS_MATPLOTLIB, "no matplotlib")
    def test_pictures(self) -> None:
        edits = self.file("e", "close 20\n")
        for name, begin in (("a.png", b"\x89PNG"), ("a.svg", b"<?xml")):
            picture = self.folder / name
            status, _, err = self.town(60, 90, "--edits", edits, "--picture", picture)
            self.assertEqual((status, err), (0, ""))
            self.assertTrue(picture.read_bytes().startswith(begin))

    @unittest.skipUnless(BUILT.exists(), "the program is not built")
    def test_the_program_answers_as_the_reference(self) -> None:
        words = [*CITY, 40, 27, 200, 250, "--step", 50, "--csv"]
        words += ["--edits", EXAMPLES / "city_grid.script"]
        expected = self.show(*words)
        self.assertEqual(expected[0], 0)
        self.assertEqual(self.show(*words, program=BUILT), expected)


if __name__ == "__main__":
    unittest.main()
