"""read_plan.py and the reader of policy files, over files written by the reference planner."""
from __future__ import annotations

import itertools
import math
import struct
import subprocess
import unittest

from helpers import BUILT, EXAMPLES, ToolCase

import read_plan
import reference
from policy_file import Entry, Policy, PolicyFault, read_policy
from sota_files import Network, read_network

# Three nodes; 1 to 2 takes 1 tick; 2 to 3 takes 1 or 3, 1 to 3 takes 2 or 5.
GRAPH = "p sp 3 3\na 1 2 1\na 2 3 1\na 1 3 3\n"
TIMES = "arc,tick,mass/4\n2,1,2\n2,3,2\n3,2,1\n3,3,2\n3,5,1\n"

FIRST = bytes.fromhex(
    "534f5441504f4c31 00000003 00000003 00000001 00000003 00000004 00000002"
    "00000001 00000002 00000002"
    "00000001 06f05b59d3b20000"
    "00000003 0a688906bd8b0000"
    "00000002 00000001 00000002"
    "00000002 06f05b59d3b20000"
    "00000002 06f05b59d3b20000"
)
SECOND = bytes.fromhex(
    "534f5441504f4c32 00000003 00000003 00000001 00000003 00000004"
    "00000002 00000002"
    "00000001 06f05b59d3b20000 06f05b59d3b20000"
    "00000003 0a688906bd8b0000 0a688906bd8b0000"
    "00000001 00000002"
    "00000002 06f05b59d3b20000 06f05b59d3b20000"
    "00000002 06f05b59d3b20000 06f05b59d3b20000"
    "00000000 00000000"
)


def put(data: bytes, offset: int, *numbers: int) -> bytes:
    """The data with big-endian numbers of four bytes at an offset."""
    part = struct.pack(f">{len(numbers)}I", *numbers)
    return data[:offset] + part + data[offset + len(part) :]


FAULTS = [
    (b"", "Magic", 0, 0),
    (b"SOTAPOL3" + FIRST[8:], "Magic", 0, 0),
    (FIRST[:31], "Truncated", 0, 0),
    (put(FIRST, 8, 0), "Range", 0, 0),
    (put(FIRST, 12, 4), "Range", 0, 0),
    (put(FIRST, 20, 65536), "Range", 0, 0),
    (put(FIRST[:32], 28, 4294967295), "Truncated", 32, 32),
    (put(FIRST, 36, 4294967295, 4294967295), "Range", 1, 32),
    (put(FIRST, 32, 3), "Range", 1, 32),
    (put(FIRST, 68, 1), "Order", 2, 68),
    (FIRST[:-1], "Truncated", 92, 92),
    (FIRST + b"x", "Trailing", 104, 104),
    (SECOND[:27], "Truncated", 0, 0),
    (put(SECOND, 24, 1_000_000_001), "Range", 0, 0),
    (put(SECOND, 28, 3), "Range", 1, 28),
    (put(SECOND, 76, 65537, 0), "Range", 2, 76),
    (SECOND[:-1], "Truncated", 124, 124),
    (put(SECOND, 124, 1), "Range", 3, 124),
    (SECOND + b"xy", "Trailing", 132, 132),
]


class PolicyFiles(ToolCase):
    def read(self, data: bytes) -> Policy:
        return read_policy(self.file("plan", data))

    def test_the_reference_writes_the_known_files(self) -> None:
        network = read_network(self.file("g", GRAPH), self.file("h", TIMES))
        self.assertEqual(reference.policy_bytes(network, 1, 3, 3), FIRST)
        self.assertEqual(reference.bracket_bytes(network, 1, 3, 3), SECOND)

    def test_both_versions_are_read(self) -> None:
        for data, version in ((FIRST, 1), (SECOND, 2)):
            policy = self.read(data)
            self.assertEqual((policy.version, policy.budget, policy.scale), (version, 3, 4))
            found = [(t, entry.arc, entry.lower) for t, entry in policy.entries(1)]
            self.assertEqual(found, [(2, 1, 5 * 10**17), (3, 3, 75 * 10**16)])
            self.assertEqual([policy.entry(1, 1), policy.entry(3, 0)], [None, None])
            upper = None if version == 1 else 5 * 10**17
            self.assertEqual(policy.entry(2, 1), Entry(2, 5 * 10**17, upper))

    def test_faults_have_their_place(self) -> None:
        for data, cause, place, offset in FAULTS:
            with self.subTest(cause=cause, place=place, offset=offset):
                with self.assertRaises(PolicyFault) as caught:
                    self.read(data)
                fault = caught.exception
                self.assertEqual((fault.cause, fault.place, fault.offset), (cause, place, offset))

    def test_no_beginning_of_a_file_is_one(self) -> None:
        for length in range(len(FIRST)):
            cut = 32 + 12 * ((length - 32) // 12) if length >= 32 else 0
            with self.assertRaises(PolicyFault) as caught:
                self.read(FIRST[:length])
            fault = caught.exception
            cause = "Magic" if length < 8 else "Truncated"
            self.assertEqual((fault.cause, fault.place), (cause, cut), length)


class Plans(ToolCase):
    def setUp(self) -> None:
        super().setUp()
        self.files = [EXAMPLES / "town.gr", EXAMPLES / "town.csv"]
        self.ids = EXAMPLES / "town.ids.csv"
        self.town = read_network(*map(str, self.files))

    def show(self, data: bytes, *words: object) -> tuple[int, str, str]:
        return self.run_tool(read_plan.main, self.file("plan", data), *words)

    def test_one_place_in_words(self) -> None:
        data = reference.policy_bytes(self.town, 1, 3, 90)
        words = ["--node", "Depot", "--ids", self.ids, "--tick", 5]
        status, out, err = self.show(data, *words, "--network", *self.files)
        self.assertEqual((status, err), (0, ""))
        expected = """From Depot to Hospital within 450 s: chance 98.7 %
At Depot:
  with 425 to 450 s left take road Mill Lane out to Mill (chance 93.8 % to 98.7 %)
  with 250 to 420 s left take road Station Road out to Station (chance below 0.1 % to 92.7 %)
  with less than 250 s left the plan takes no road
"""
        self.assertEqual(out, expected)

    def test_all_places(self) -> None:
        status, out, _ = self.show(FIRST)
        self.assertEqual(status, 0)
        expected = """From 1 to 3 within 3 ticks: chance 75.0 %
At 1:
  with 3 ticks left take road 3 (chance 75.0 %)
  with 2 ticks left take road 1 (chance 50.0 %)
  with less than 2 ticks left the plan takes no road
At 2:
  with 1 to 2 ticks left take road 2 (chance 50.0 %)
  with less than 1 ticks left the plan takes no road
"""
        self.assertEqual(out, expected)

    def test_csv_of_both_versions(self) -> None:
        half, more = "0.500000000000000000", "0.750000000000000000"
        _, out, _ = self.show(FIRST, "--csv", "--node", 1)
        rows = f"1,3,3,3,{more},{more}\n1,2,2,1,{half},{half}\n"
        header = "place,least_ticks,most_ticks,road,lower_at_least,lower_at_most\n"
        self.assertEqual(out, header + rows)
        _, out, _ = self.show(SECOND, "--csv", "--node", 2)
        header = "place,least_ticks,most_ticks,road,lower_at_least,upper_at_least,"
        header += "lower_at_most,upper_at_most\n"
        self.assertEqual(out, header + f"2,1,2,2,{half},{half},{half},{half}\n")

    def test_trip_in_words_and_csv(self) -> None:
        network = ["--network", self.file("g", GRAPH), self.file("h", TIMES)]
        status, out, err = self.show(FIRST, "--trip", *network)
        self.assertEqual((status, err), (0, ""))
        expected = """From 1 to 3 within 3 ticks: chance 75.0 %
1. at 1 with 3 ticks left: road 3 to 3, 3 ticks (chance 75.0 %)
   with 3 ticks left take road 3 to 3 (chance 75.0 %)
   with 2 ticks left take road 1 to 2 (chance 50.0 %)
arrived at 3 with 0 ticks left
"""
        self.assertEqual(out, expected)
        _, out, _ = self.show(FIRST, "--trip", "--csv", *network)
        rows = "place,ticks_left,road,to,ticks_taken,lower\n1,3,3,3,3,0.750000000000000000\n"
        self.assertEqual(out, rows)

    def test_the_trip_is_the_likeliest(self) -> None:
        path = self.file("plan", reference.policy_bytes(self.town, 1, 3, 70))
        policy = read_policy(path)
        steps = read_plan.likeliest_trip(policy, self.town) or []
        self.assertEqual(probability(self.town, steps), best_by_trying(policy, self.town))

    def test_a_plan_that_cannot_arrive(self) -> None:
        head = struct.pack(">8s6I", b"SOTAPOL1", 3, 3, 1, 0, 4, 0)
        network = ["--network", self.file("g", GRAPH), self.file("h", TIMES)]
        status, out, err = self.show(head, "--trip", *network)
        self.assertEqual((status, out), (0, "no trip of this plan arrives in time\n"))

    def test_what_does_not_go_together(self) -> None:
        network = ["--network", *self.files]
        status, _, err = self.show(FIRST, *network)
        self.assertEqual(status, 1)
        self.assertIn("a plan for 3 nodes and Q 4, but the network has 7 nodes", err)
        turned = self.file("g", GRAPH.replace("a 2 3 1", "a 3 2 1"))
        status, _, err = self.show(FIRST, "--network", turned, self.file("h", TIMES))
        self.assertEqual(status, 1)
        self.assertIn("arc 2, taken at node 2 with 1 ticks left, does not leave that node", err)
        self.assertEqual(self.show(FIRST, "--trip")[0], 2)
        self.assertEqual(self.show(FIRST, "--trip", "--node", 1)[0], 2)
        self.assertEqual(self.show(FIRST, "--node", "Depot")[0], 2)
        self.assertEqual(self.show(FIRST, "--node", "9")[0], 2)
        status, _, err = self.show(FIRST[:-1])
        expected = f"{self.folder}/plan: at byte 92: the file ends too soon (Truncated 92)\n"
        self.assertEqual((status, err), (1, expected))

    @unittest.skipUnless(BUILT.exists(), "the program is not built")
    def test_the_program_writes_as_the_reference(self) -> None:
        writers = (("policy", reference.policy_bytes), ("bracket", reference.bracket_bytes))
        for word, writer in writers:
            with self.subTest(word):
                plan = self.folder / word
                script = self.file("s", f"{word} 1 3 90 {plan}\n")
                words = [str(BUILT), "run", *map(str, self.files), script]
                done = subprocess.run(words, stdout=subprocess.PIPE, text=True, check=False)
                if done.stdout == "refused 1 Word\n":
                    self.skipTest(f"the program has no line '{word}'")
                self.assertEqual(done.stdout, f"stored {plan}\n")
                self.assertEqual(plan.read_bytes(), writer(self.town, 1, 3, 90))


def probability(network: Network, steps: list[read_plan.Step]) -> float:
    """How probable the times of a trip are together."""
    chances = [dict(network.arcs[step.arc - 1].pairs)[step.takes] for step in steps]
    return round(math.prod(chance / network.scale for chance in chances), 12)


def best_by_trying(policy: Policy, network: Network) -> float:
    """The probability of the likeliest trip that arrives, by trying all trips."""

    def best(node: int, left: int) -> float:
        if node == policy.dest:
            return 1.0
        entry = policy.entry(node, left)
        if entry is None or entry.arc == 0:
            return 0.0
        arc = network.arcs[entry.arc - 1]
        within = itertools.takewhile(lambda pair: pair[0] <= left, arc.pairs)
        tried = [mass / network.scale * best(arc.head, left - tick) for tick, mass in within]
        return max(tried, default=0.0)

    return round(best(policy.origin, policy.budget), 12)


if __name__ == "__main__":
    unittest.main()
