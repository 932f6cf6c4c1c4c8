"""roads_from_sumo.py, over a network of three junctions written as SUMO writes it."""
from __future__ import annotations

import gzip
import unittest

from helpers import ToolCase

import roads_from_sumo

NET = """<?xml version="1.0" encoding="UTF-8"?>
<net version="1.9">
    <edge id=":B_0" function="internal"><lane id=":B_0_0" speed="5" length="9"/></edge>
    <edge id="AB" from="A" to="B">
        <lane id="AB_0" index="0" allow="pedestrian" speed="2.00" length="139.00"/>
        <lane id="AB_1" index="1" disallow="tram" speed="13.90" length="139.00"/>
    </edge>
    <edge id="BC" from="B" to="C"><lane id="BC_0" speed="10.00" length="204.00"/></edge>
    <edge id="CA" from="C" to="A"><lane id="CA_0" speed="10.00" length="1.00"/></edge>
    <edge id="AC" from="A" to="C"><lane id="AC_0" allow="bus" speed="10" length="80"/></edge>
</net>
"""

ROUTES = """<routes>
    <vehicle id="1" depart="0.00" arrival="60.00">
        <route edges="AB BC CA AB" exitTimes="11.00 33.40 35.00 60.00"/>
    </vehicle>
    <vehicle id="2" depart="1.00" arrival="90.00"><routeDistribution>
        <route replacedOnEdge="AB" probability="0" edges="AB CA"/>
        <route edges="CA AB BC CA" exitTimes="2.00 14.00 40.00 41.00"/>
    </routeDistribution></vehicle>
    <vehicle id="3" depart="5.00"><route edges="AB BC CA" exitTimes="9.00 -1 -1"/></vehicle>
</routes>
"""

EDGES = """<meandata>
    <interval begin="0.00" end="300.00" id="e">
        <edge id=":B_0" traveltime="3.00" left="4"/>
        <edge id="AB" sampledSeconds="20.00" traveltime="12.60" left="3"/>
        <edge id="BC" sampledSeconds="0.00"/>
    </interval>
    <interval begin="300.00" end="600.00" id="e">
        <edge id="AB" sampledSeconds="20.00" traveltime="30.00" left="1"/>
        <edge id="BC" sampledSeconds="3.00" traveltime="22.00" left="0"/>
    </interval>
</meandata>
"""


class Sumo(ToolCase):
    def make(self, *words: object) -> tuple[int, str, str]:
        net = self.file("town.net.xml", NET)
        return self.run_tool(roads_from_sumo.main, net, self.folder / "net", *words)

    def written(self, ending: str) -> str:
        return (self.folder / f"net{ending}").read_text()

    def test_routes(self) -> None:
        routes = self.file("routes.xml", ROUTES)
        status, out, err = self.make("--routes", routes, "--few", 2, "--scale", 4)
        self.assertEqual(status, 0, err)
        about = "c made of the SUMO network town.net.xml; 1 tick = 1 s\n"
        self.assertEqual(self.written(".gr"), about + "p sp 3 3\na 1 2 10\na 2 3 20\na 3 1 1\n")
        self.assertEqual(self.written(".csv"), "arc,tick,mass/4\n2,22,2\n2,26,2\n")
        self.assertIn("arc,1,AB,1\narc,2,BC,2\narc,3,CA,1\n", self.written(".ids.csv"))
        few = "few observations: road {} has 1 and takes {} ticks for certain"
        named = [few.format("AB from A to B", 10), few.format("CA from C to A", 1)]
        self.assertEqual(err.splitlines(), named)
        self.assertIn("3 places and 3 roads", out)

    def test_edge_data(self) -> None:
        edges = self.file("edges.xml", EDGES)
        status, _, err = self.make("--edgedata", edges, "--few", 1, "--scale", 4, "--tick", 0.5)
        self.assertEqual(status, 0, err)
        self.assertEqual(self.written(".csv"), "arc,tick,mass/4\n1,25,3\n1,60,1\n")
        self.assertEqual(len(err.splitlines()), 2)

    def test_gzip_and_class(self) -> None:
        packed = self.file("routes.xml.gz", gzip.compress(ROUTES.encode()))
        self.assertEqual(self.make("--routes", packed)[0], 0)
        broken = bytearray(gzip.compress(ROUTES.encode()))
        broken[40:60] = bytes(20)
        for data in (b"xyz", bytes(broken), gzip.compress(ROUTES.encode())[:99]):
            status, _, err = self.make("--routes", self.file("broken.xml.gz", data))
            self.assertEqual(status, 1)
            self.assertRegex(err, "broken.xml.gz(: not gzip|:[0-9]+: not XML)")
        status, _, err = self.make("--routes", packed, "--class", "bus")
        self.assertEqual(status, 0, err)
        self.assertIn("p sp 3 4\n", self.written(".gr"))
        status, _, err = self.make("--routes", packed, "--class", "tram")
        self.assertEqual((status, err.count("\n")), (0, 2))

    def test_faults_name_their_line(self) -> None:
        cases = [
            ("<routes/>", "routes.xml: no route has exit times"),
            ("<routes>\n<route>", "routes.xml:2: not XML: no element found"),
            ('<a>\n<route exitTimes="1"/></a>', "routes.xml:2: <route> without 'edges'"),
            ('<a><route edges="AB" exitTimes="1 2"/></a>', ":1: 1 edges, but 2 exit times"),
            (
                '<a><route edges="AB XY BC" exitTimes="1 2 3"/></a>',
                "routes.xml:1: road 'XY' is not in",
            ),
            (
                '<a><route edges="AB BC CA" exitTimes="00:00:01 2 3"/></a>',
                ":1: 'exitTimes' of <route> is '00:00:01', no plain number",
            ),
            (
                '<a><route edges="AB BC CA" exitTimes="5 2 3"/></a>',
                ":1: road 'BC' is left before it is entered",
            ),
        ]
        for text, words in cases:
            with self.subTest(words):
                status, _, err = self.make("--routes", self.file("routes.xml", text))
                self.assertEqual(status, 1)
                self.assertIn(words, err)
        self.assertFalse((self.folder / "net.gr").exists())

    def test_wrong_use(self) -> None:
        self.assertEqual(self.make()[0], 2)
        self.assertEqual(self.make("--routes", "r", "--edgedata", "e")[0], 2)
        self.assertEqual(self.make("--routes", self.folder / "none.xml")[0], 1)


if __name__ == "__main__":
    unittest.main()
