#!/usr/bin/env python3
"""Runs the built program where a machine, a disk or a stranger's file is against it.

Each row of the tables below is one run: the words, what surrounds it, the exit status that is
wanted and the text that is written. No run may end by a signal, write a message of its own, or
write anything but a beginning of what it writes when all is well. Standard library alone.

    tests/hostile.py                        over crates/sota/out/sota
    tests/hostile.py --sota PATH            over another program
    tests/hostile.py --large                the inputs of 64 MiB too, which take a minute
"""
import argparse
import os
import resource
import subprocess
import sys
import tempfile
import threading
import unittest

HERE = os.path.dirname(os.path.abspath(__file__))
SOTA = os.path.join(HERE, "..", "crates", "sota", "out", "sota")
LARGE = False

GRAPH = b"p sp 3 3\na 1 2 1\na 2 3 1\na 1 3 3\n"
HISTS = b"arc,tick,mass/4\n2,1,2\n2,3,2\n3,3,3\n3,5,1\n"
LATER = b"arc,tick,mass/4\n2,1,4\n3,3,3\n3,5,1\n"
SCRIPT = b"ask 1 3 2\nedit 2 1:4\nask 1 3 2\n"
ANSWER = b"answer 1 3 2 0.500000000000000000 0.500000000000000000 1\n"
REPLIES = (
    ANSWER + b"edited 2\n" + b"answer 1 3 2 1.000000000000000000 1.000000000000000000 1\n"
)
PLAN = bytes.fromhex(
    "534f5441504f4c31 00000003 00000003 00000001 00000003 00000004 00000002"
    "00000001 00000002 00000002 00000001 06f05b59d3b20000 00000003 0a688906bd8b0000"
    "00000002 00000001 00000002 00000002 06f05b59d3b20000 00000002 06f05b59d3b20000"
)
TEXT_LIMIT = 67_108_864

DONE, REFUSED, WORDS, INPUT, UNREAD, UNWRITTEN, MEMORY, NO_WORDS = range(8)
ASK = ["ask", "graph", "hists", "1", "3", "2"]
RUN = ["run", "graph", "hists", "script"]
REPLAY = ["replay", "graph", "hists", "plan", "5", "7"]
MAKE = ["make", "1", "2", "2", "1", "20"]
TIMED = ["timed", "graph", "1", "3", "3", "10", "hists", "8", "later"]
TRIPS = b"trips 5 arrived 3 late 2 stuck 0 lost 0\n"
MADE = (
    b"made 2 2 16 236\nanswer 1 2 20 1.000000000000000000 1.000000000000000000 1\n"
    b"accepted 1 2 20 1.000000000000000000\n"
)
LATER_ANSWER = b"timed 1 3 3 10 1.000000000000000000 1.000000000000000000 1\n"


def play(folder, words, stdout=subprocess.PIPE, before=None, wait=120):
    """Runs the program in a folder. Answers its status, what it wrote, and its messages."""
    done = subprocess.run(
        [SOTA, *words], cwd=folder, stdin=subprocess.DEVNULL, stdout=stdout,
        stderr=subprocess.PIPE, preexec_fn=before, timeout=wait, check=False,
    )
    return done.returncode, done.stdout, done.stderr


def limit_memory(size):
    """What limits a child's memory to so many bytes."""
    return lambda: resource.setrlimit(resource.RLIMIT_AS, (size, size))


class InFolder(unittest.TestCase):
    """A folder with the files of a small network, for each test a new one."""

    def setUp(self):
        self.at = tempfile.TemporaryDirectory()
        self.folder = self.at.name
        for name, data in [("graph", GRAPH), ("hists", HISTS), ("later", LATER),
                           ("script", SCRIPT)]:
            self.write(name, data)
        os.mkdir(self.path("folder"))

    def tearDown(self):
        self.at.cleanup()

    def path(self, name):
        """A file of the folder."""
        return os.path.join(self.folder, name)

    def write(self, name, data):
        """Writes a file of the folder."""
        with open(self.path(name), "wb") as out:
            out.write(data)

    def wants(self, words, status, text, **how):
        """Runs the program, and compares its status and all that it wrote."""
        with self.subTest(words=words, **{key: str(value) for key, value in how.items()}):
            got = play(self.folder, words, **how)
            self.assertEqual(got, (status, text, b""))


class Hostile(InFolder):
    """What a machine, a disk or a stranger's file can do."""

    def test_all_is_well(self):
        """Without an enemy all commands answer."""
        self.wants(ASK, DONE, ANSWER)
        self.wants(RUN, DONE, REPLIES)
        self.write("plan", PLAN)
        self.wants(REPLAY, DONE, TRIPS)
        self.wants(MAKE, DONE, MADE)
        self.wants(TIMED, DONE, LATER_ANSWER)

    def test_words(self):
        """Words that are no command, and words that are not UTF-8."""
        for words in ([], ["ask"], ASK + ["1"], ["Ask"] + ASK[1:], ASK[:5] + ["x"], [""], ["run"],
                      REPLAY[:5], REPLAY[:4] + ["1000001", "7"], REPLAY[:5] + ["4294967296"],
                      MAKE[:5], MAKE[:2] + ["1", "2", "1", "20"], MAKE + ["1"],
                      TIMED[:6], TIMED[:8], TIMED[:5] + ["2", "hists"], TIMED + ["8", "later"],
                      TIMED + [word for start in range(9, 40) for word in (str(start), "later")]):
            self.wants(words, WORDS, b"refused words\n")
        for words in ([b"\xff"], ["ask", "graph", b"\xfe\xff", "1", "3", "2"]):
            self.wants(words, NO_WORDS, b"")

    def test_timed_asks_that_are_too_large(self):
        """More pairs of a node and a budget, or of broad arcs, than are planned for."""
        self.write("graph", b"p sp 1000 0\n")
        ask = ["timed", "graph", "1", "2", "65535", "65535"]
        self.wants(ask + ["-"], REFUSED, b"refused 1 TimedCells 65536000\n")
        self.write("graph", b"p sp 2 20\n" + 20 * b"a 1 2 1\n")
        rows = (f"{arc},{tick},1\n" for arc in range(1, 21) for tick in range(1, 34))
        self.write("broad", b"arc,tick,mass/33\n" + "".join(rows).encode())
        periods = [word for start in range(1, 32) for word in (str(start), "broad")]
        self.wants(ask + ["broad"] + periods, REFUSED, b"refused 1 TimedBroad 41964160\n")

    def test_inputs_that_cannot_be_read(self):
        """A file that is not there, a folder, an empty name, a name that is far too long."""
        for name in ("missing", "folder", "", "x" * 5000, "graph/below", "missing/below"):
            self.wants(["ask", name, "hists", "1", "3", "2"], UNREAD, b"")
            self.wants(["ask", "graph", name, "1", "3", "2"], UNREAD, b"")
            self.wants(["run", "graph", "hists", name], UNREAD, b"")
            self.wants(["check", "graph", "hists", name], UNREAD, b"")
            self.wants(["replay", "graph", "hists", name, "1", "1"], UNREAD, b"")
            self.wants(TIMED[:8] + [name], UNREAD, b"")

    def test_a_file_without_leave_to_read(self):
        """A file that the user may not read."""
        os.chmod(self.folder, 0o755)
        os.chmod(self.path("graph"), 0)
        nobody = (lambda: os.setuid(65534)) if os.getuid() == 0 else None
        self.wants(ASK, UNREAD, b"", before=nobody)

    def test_outputs_that_fail(self):
        """A full device, a pipe that nobody reads, and no output at all."""
        self.write("plan", PLAN)
        for words in (ASK, RUN, REPLAY, MAKE, TIMED, ["nonsense"],
                      ["ask", "folder/x", "-", "1", "3", "2"]):
            status = UNREAD if "folder/x" in words else UNWRITTEN
            with open("/dev/full", "wb") as full:
                self.wants(words, status, None, stdout=full)
            reader, writer = os.pipe()
            os.close(reader)
            self.wants(words, status, None, stdout=writer)
            os.close(writer)
            self.wants(words, status, b"", before=lambda: os.close(1))

    def test_stores_that_cannot_be_made(self):
        """A plan that cannot be stored has no reply, and no line after it is done."""
        for name in (b"missing/plan", b"folder", b"/dev/full", b"graph/below", b"a\0b",
                     b"x" * 5000):
            self.write("script", b"ask 1 3 2\npolicy 1 3 3 " + name + b"\nask 1 3 2\n")
            self.wants(RUN, UNWRITTEN, ANSWER)
        self.write("script", b"policy 1 3 3 p\xff\n")
        self.wants(RUN, REFUSED, b"refused 1 Name\n")

    def test_stores_over_files(self):
        """A longer file is replaced whole, an input too: all of them were read before."""
        for name in ("plan", "graph", "script"):
            self.write("graph", GRAPH)
            self.write("plan", b"x" * 100_000)
            self.write("script", b"policy 1 3 3 %s\npolicy 1 3 3 again\n" % name.encode())
            self.wants(RUN, DONE, b"stored %s\nstored again\n" % name.encode())
            for stored in (name, "again"):
                with open(self.path(stored), "rb") as plan:
                    self.assertEqual(plan.read(), PLAN)
        self.write("graph", GRAPH)
        self.wants(["check", "graph", "hists", "again"], DONE,
                   b"accepted 1 3 3 0.750000000000000000\n")

    def feed(self, name, pieces):
        """Makes a FIFO, and writes the pieces to it from a thread."""
        os.mkfifo(self.path(name))

        def writer():
            with open(self.path(name), "wb", buffering=0) as out:
                for piece in pieces:
                    out.write(piece)

        thread = threading.Thread(target=writer)
        thread.start()
        return thread

    def test_fifos(self):
        """An input that comes byte by byte, and one whose writer ends early."""
        thread = self.feed("slow", [GRAPH[k:k + 1] for k in range(len(GRAPH))])
        self.wants(["ask", "slow", "hists", "1", "3", "2"], DONE, ANSWER)
        thread.join()
        thread = self.feed("cut", [GRAPH[:-9]])
        self.wants(["ask", "cut", "hists", "1", "3", "2"], INPUT, b"refused graph TooFewArcs 2\n")
        thread.join()

    def test_devices(self):
        """An input without end, and one without a byte."""
        self.wants(["ask", "/dev/zero", "-", "1", "3", "2"], INPUT,
                   b"refused graph TooLong 67108864\n")
        self.wants(["ask", "/dev/null", "-", "1", "3", "2"], INPUT, b"refused graph NoProblem 0\n")
        self.wants(["run", "graph", "hists", "/dev/null"], DONE, b"")

    def test_a_file_that_is_cut_while_it_is_read(self):
        """Whatever is read of it, the answer is one of a text: an answer or a named refusal."""
        arcs = b"".join(b"a %d %d 1\n" % (k, k + 1) for k in range(1, 200_000))
        text = b"p sp 200000 199999\n" + arcs
        seen = set()
        for turn in range(40):
            self.write("large", text)
            cutter = threading.Timer(
                turn * 0.0005, lambda: os.truncate(self.path("large"), len(text) // 3))
            cutter.start()
            status, out, message = play(self.folder, ["ask", "large", "-", "1", "2", "0"])
            cutter.join()
            self.assertIn(status, (DONE, INPUT))
            self.assertEqual(message, b"")
            self.assertRegex(out, rb"\A(answer 1 2 0 .*"
                                  rb"|refused graph (BadLine|TooFewArcs|NodeRange) \d+)\n\Z")
            seen.add(status)

    def test_little_memory(self):
        """Limits of memory from what starts the program up to what is enough, in many steps: the
        status is one of the table, and what was written begins what is written else."""
        side = 60
        roads = [(row * side + column + 1, other)
                 for row in range(side) for column in range(side)
                 for other in ([row * side + column + 2] if column + 1 < side else [])
                 + ([(row + 1) * side + column + 1] if row + 1 < side else [])]
        arcs = b"".join(b"a %d %d 3\na %d %d 4\n" % (u, v, v, u) for u, v in roads)
        self.write("grid", b"p sp %d %d\n" % (side * side, 2 * len(roads)) + arcs)
        words = ["ask", "grid", "-", "1", str(side * side), "500"]
        status, whole, _ = play(self.folder, words)
        self.assertEqual(status, DONE)
        least = 1 << 20
        while play(self.folder, [], before=limit_memory(least))[0] != WORDS:
            least += 1 << 18
        enough = least
        while play(self.folder, words, before=limit_memory(enough))[0] != DONE:
            enough += enough - least + (1 << 20)
        seen = set()
        for step in range(101):
            size = least + (enough - least) * step // 100
            status, out, message = play(self.folder, words, before=limit_memory(size))
            self.assertIn(status, (DONE, MEMORY), f"{size} bytes")
            self.assertEqual(message, b"")
            self.assertTrue(whole.startswith(out))
            self.assertEqual(out == whole, status == DONE)
            seen.add(status)
        self.assertEqual(seen, {DONE, MEMORY})


@unittest.skipUnless(LARGE or "--large" in sys.argv, "the large inputs are asked for by --large")
class Large(InFolder):
    """Texts of the greatest length, and the worst ones of that length: none takes long."""

    def test_the_greatest_length(self):
        """A text of exactly the limit is read, one byte more is too long."""
        padding = b"c" + b"x" * (TEXT_LIMIT - len(GRAPH) - 2) + b"\n"
        self.write("graph", GRAPH + padding)
        self.wants(ASK, DONE, ANSWER)
        self.write("graph", GRAPH + padding + b"\n")
        self.wants(ASK, INPUT, b"refused graph TooLong 67108864\n")
        self.write("graph", GRAPH)
        self.write("script", b"#" * (TEXT_LIMIT + 1))
        self.wants(RUN, INPUT, b"refused script TooLong 67108864\n")

    def test_the_worst_texts(self):
        """One line, empty lines, quotes, records of one arc and records in falling order."""
        falling = b"".join(b"1,%d,1\n" % tick for tick in range(5_500_000, 0, -1))
        for name, data, words, status, text in [
            ("graph", b"a" * TEXT_LIMIT, ASK, INPUT, b"refused graph BadLine 1\n"),
            ("graph", b"\n" * (TEXT_LIMIT - len(GRAPH)) + GRAPH, ASK, DONE, ANSWER),
            ("hists", b'"' * TEXT_LIMIT, ASK, INPUT, b"refused hists Header 0\n"),
            ("hists", b"arc,tick,mass/4\n" + b'"' * (TEXT_LIMIT - 16), ASK, INPUT,
             b"refused hists Fields 1\n"),
            ("hists", b"arc,tick,mass/4\n" + b"2,1,0\n" * ((TEXT_LIMIT - 16) // 6), ASK, DONE,
             b"answer 1 3 2 1.000000000000000000 1.000000000000000000 1\n"),
            ("hists", b"arc,tick,mass/4\n" + b"2,1,1\n" * ((TEXT_LIMIT - 16) // 6), ASK, INPUT,
             b"refused hists RepeatedTick 2\n"),
            ("hists", b"arc,tick,mass/999999999\n" + falling,
             ["ask", "graph", "hists", "1", "3", "3"], DONE,
             b"answer 1 3 3 1.000000000000000000 1.000000000000000000 3\n"),
            ("script", b"\n" * TEXT_LIMIT, RUN, DONE, b""),
            ("script", b"x" * TEXT_LIMIT, RUN, REFUSED, b"refused 1 Word\n"),
        ]:
            with self.subTest(name=name, start=data[:24]):
                self.write(name, data)
                got = play(self.folder, words)
                self.assertEqual(got, (status, text, b""))
            for kept, data_kept in [("graph", GRAPH), ("hists", HISTS), ("script", SCRIPT)]:
                self.write(kept, data_kept)


if __name__ == "__main__":
    reader = argparse.ArgumentParser(add_help=False)
    reader.add_argument("--sota", default=SOTA)
    reader.add_argument("--large", action="store_true")
    mine, rest = reader.parse_known_args()
    SOTA = os.path.abspath(mine.sota)
    LARGE = mine.large
    unittest.main(argv=[sys.argv[0], *rest])
