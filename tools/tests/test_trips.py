"""roads_from_trips.py, and what the tools share."""
from __future__ import annotations

import unittest
from collections import Counter
from fractions import Fraction

from helpers import EXAMPLES, ToolCase

import roads_from_trips
from observed_roads import id_order, masses, median, ticks
from sota_files import BadData, Network, percent, read_ids, read_network

SMALL = """road,from,to,seconds
r2,B,C,4.4
r10,C,A,10
r2,B,C,4.6
r2,B,C,0
"""


def city() -> Network:
    return read_network(str(EXAMPLES / "city_grid.gr"), str(EXAMPLES / "city_grid.csv"))


def counts(pairs: list[tuple[int, int]], scale: int) -> Counter[int]:
    """The least counts of which largest remainders make these masses."""
    for total in range(1, 10_000):
        found = Counter({tick: round(mass * total / scale) for tick, mass in pairs})
        if sum(found.values()) == total and masses(found, scale) == pairs:
            return found
    raise AssertionError("no counts make these masses")


class Trips(ToolCase):
    def make(self, text: str | bytes, *options: object) -> tuple[int, str, str]:
        trips = self.file("trips.csv", text)
        return self.run_tool(roads_from_trips.main, trips, self.folder / "net", *options)

    def written(self, ending: str) -> str:
        return (self.folder / f"net{ending}").read_text()

    def test_small_file(self) -> None:
        status, out, err = self.make(SMALL, "--scale", 10, "--few", 2)
        self.assertEqual(status, 0, err)
        about = "c made of the observed trips in trips.csv; 1 tick = 1 s\n"
        self.assertEqual(self.written(".gr"), about + "p sp 3 2\na 2 3 4\na 3 1 10\n")
        times = "arc,tick,mass/10\n1,1,4\n1,4,3\n1,5,3\n2,10,10\n"
        self.assertEqual(self.written(".csv"), times)
        ids = "kind,number,id,observations\nnode,1,A,\nnode,2,B,\nnode,3,C,\n"
        self.assertEqual(self.written(".ids.csv"), ids + "arc,1,r2,3\narc,2,r10,1\n")
        self.assertEqual(err, "few observations: road r10 from C to A has 1\n")
        self.assertIn("3 places and 2 roads; a tick is 1 s", out)

    def test_other_columns_marks_and_ticks(self) -> None:
        text = (
            '\ufeffday,seconds,from,to,road\r\nMo,14,"Old, Town",Mill,1\r\n'
            '\r\nTu,15,"Old, Town",Mill,1\r\n'
        )
        status, _, err = self.make(text, "--tick", "2.5")
        self.assertEqual(status, 0, err)
        self.assertIn("1,6,1000000\n", self.written(".csv"))
        ids = read_ids(str(self.folder / "net.ids.csv"))
        self.assertEqual(ids.nodes, {1: "Mill", 2: "Old, Town"})

    def test_each_wrong_line_is_named(self) -> None:
        wrong = SMALL + "r2,B,A,5\n\nr3,A,,5\nr3,A,B,fast\nr3,A,B\nr3,A,B,-1\nr3,A,B,1e9\n"
        status, out, err = self.make(wrong)
        self.assertEqual((status, out), (1, ""))
        trips = self.folder / "trips.csv"
        expected = [
            f"{trips}:6: road r2 goes from B to A here, but from B to C on line 2",
            f"{trips}:8: the column 'to' is empty",
            f"{trips}:9: 'fast' is no number of seconds (such as 48 or 48.5)",
            f"{trips}:10: 3 fields, but the header has 4",
            f"{trips}:11: '-1' is no number of seconds (such as 48 or 48.5)",
            f"{trips}:12: '1e9' is no number of seconds (such as 48 or 48.5)",
            "nothing was written",
        ]
        self.assertEqual(err.splitlines(), expected)
        self.assertFalse((self.folder / "net.gr").exists())

    def test_files_that_are_no_trips(self) -> None:
        cases = [
            (b"", ":1: the header does not name once: road, from, to, seconds"),
            (b"road,from,to\n", ":1: the header does not name once: seconds"),
            (b"road,from,to,seconds\n", "no road has been found"),
            (b"road,from,to,seconds\n1,A,B,\xff\n", ":2: not UTF-8 text"),
            (b'road,from,to,seconds\n1,A,B,"5', ":2: not CSV: unexpected end of data"),
        ]
        for text, words in cases:
            with self.subTest(words):
                status, _, err = self.make(text)
                self.assertEqual(status, 1)
                self.assertIn(words, err)

    def test_wrong_use(self) -> None:
        for options in (["--tick", "0"], ["--tick", "x"], ["--scale", "0"], ["--scale", "x"]):
            with self.subTest(options):
                self.assertEqual(self.make(SMALL, *options)[0], 2)
        status, _, err = self.run_tool(roads_from_trips.main, self.folder / "none.csv", "net")
        self.assertEqual((status, err), (1, f"{self.folder}/none.csv: No such file or directory\n"))

    def test_the_trips_are_not_written_over(self) -> None:
        trips = self.file("town.csv", SMALL)
        status, _, err = self.run_tool(roads_from_trips.main, trips, self.folder / "town")
        self.assertEqual((status, (self.folder / "town.csv").read_text()), (2, SMALL))
        self.assertIn(f"{trips} would be written over {trips}, which is read", err)

    def test_times_that_lose_their_mass_are_told(self) -> None:
        status, _, err = self.make(SMALL, "--scale", 2, "--few", 0)
        self.assertEqual(
            (status, err), (0, "road r2 from B to C: 1 of its times have no mass at Q 2\n")
        )

    def test_the_example_city_is_remade(self) -> None:
        network = city()
        lines = ["road,from,to,seconds"]
        for number, arc in enumerate(network.arcs, start=1):
            for tick, count in counts(arc.pairs, network.scale).items():
                lines += [f"{number},{arc.tail},{arc.head},{tick}"] * count
        status, _, err = self.make("\n".join([lines[0]] + lines[:0:-1]), "--few", 0)
        self.assertEqual((status, err), (0, ""))
        again = read_network(str(self.folder / "net.gr"), str(self.folder / "net.csv"))
        self.assertEqual(again, network)

    def test_the_example_town_is_remade(self) -> None:
        trips = EXAMPLES / "town_trips.csv"
        words = [trips, self.folder / "town", "--tick", 5]
        status, _, err = self.run_tool(roads_from_trips.main, *words)
        self.assertEqual((status, err), (0, ""))
        for name in ("town.gr", "town.csv", "town.ids.csv"):
            self.assertEqual((self.folder / name).read_text(), (EXAMPLES / name).read_text())


class Shared(unittest.TestCase):
    def test_masses_by_largest_remainders(self) -> None:
        self.assertEqual(masses(Counter({3: 1, 1: 1, 2: 1}), 10), [(1, 4), (2, 3), (3, 3)])
        self.assertEqual(masses(Counter({1: 1, 2: 5}), 4), [(1, 1), (2, 3)])
        self.assertEqual(masses(Counter({7: 9}), 1), [(7, 1)])

    def test_ticks_are_the_nearest_even_of_two_and_one_at_least(self) -> None:
        for seconds, tick, found in ((0, 1, 1), (14, 10, 1), (15, 10, 2), (25, 10, 2), (26, 10, 3)):
            made = ticks(Fraction(seconds), Fraction(tick))
            self.assertEqual(made, found)

    def test_median_order_and_percent(self) -> None:
        self.assertEqual(median(Counter({5: 2, 9: 1, 20: 1})), 5)
        names = ["9", "10", "J", "J2", "J2b", "J10", "J11" + "0" * 5000, "b"]
        self.assertEqual(sorted(reversed(names), key=id_order), names)
        self.assertEqual(percent(999_999_999_999_999_999), "99.9 %")
        self.assertEqual([percent(1), percent(0)], ["below 0.1 %", "0.0 %"])


class Networks(ToolCase):
    def test_faults_name_their_line(self) -> None:
        cases = [
            ("p sp 2 1\na 1 3 1\n", "arc,tick,mass/4\n", "g:2: a node is not from 1 to 2"),
            ("a 1 1 1\n", "arc,tick,mass/4\n", "g:1: no line of a road graph: a 1 1 1"),
            ("p sp 2 1\na 1 2 1\n", "arc,tick,mass\n", "h:1: the header is not arc,tick,mass/Q"),
            ("p sp 2 1\na 1 2 1\n", "arc,tick,mass/4\n1,1,x\n", "h:2: not whole numbers: 1 1 x"),
            ("p sp 2 1\na 1 2 1\n", "arc,tick,mass/4\n2,1,1\n", "h:2: the arc is not from 1 to 1"),
        ]
        for graph, times, words in cases:
            with self.subTest(words), self.assertRaises(BadData) as fault:
                read_network(self.file("g", graph), self.file("h", times))
            self.assertEqual(str(fault.exception), f"{self.folder}/{words}")


if __name__ == "__main__":
    unittest.main()
