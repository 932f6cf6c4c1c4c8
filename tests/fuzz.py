#!/usr/bin/env python3
"""Hands mutated texts to the readers of the built program, and looks at every answer.

Each round changes a valid text at a few places (bytes replaced, dropped, doubled, parts cut out or
put in twice, numbers made large) and runs the program on it. An answer is right where its status is
one of the table, a refusal names a cause of its reader and a place inside the text, and nothing
else is written. The lines of scripts go to the program by the thousand, one refusal or reply a
line. Standard library alone; the rounds of a seed are the same everywhere.

    tests/fuzz.py                           2,000 rounds a reader over crates/sota/out/sota
    tests/fuzz.py --rounds 1000000 --jobs 4
    tests/fuzz.py --reader graph --seed 7 --sota PATH
"""
import argparse
import multiprocessing
import os
import random
import re
import shutil
import subprocess
import sys
import tempfile

HERE = os.path.dirname(os.path.abspath(__file__))
SOTA = os.path.join(HERE, "..", "crates", "sota", "out", "sota")

GRAPH = b"c a triangle\np sp 3 3\na 1 2 1\na 2 3 1\n\na 1 3 3\n"
HISTS = b'arc,tick,mass/4\n2,1,2\n2,"3",2\r\n3,3,3\n3,5,1\n'
PLAN = bytes.fromhex(
    "534f5441504f4c31 00000003 00000003 00000001 00000003 00000004 00000002"
    "00000001 00000002 00000002 00000001 06f05b59d3b20000 00000003 0a688906bd8b0000"
    "00000002 00000001 00000002 00000002 06f05b59d3b20000 00000002 06f05b59d3b20000"
)
BRACKET = bytes.fromhex(
    "534f5441504f4c32 00000003 00000003 00000001 00000003 00000004"
    "00000002 00000002 00000001 06f05b59d3b20000 06f05b59d3b20000"
    "00000003 0a688906bd8b0000 0a688906bd8b0000"
    "00000001 00000002 00000002 06f05b59d3b20000 06f05b59d3b20000"
    "00000002 06f05b59d3b20000 06f05b59d3b20000 00000000 00000000"
)
NAMES = "# places\n1 Home\n3 Work\n\n1 H\u00e4user\n".encode()
LATER = b"arc,tick,mass/4\n2,1,4\n3,3,3\n3,5,1\n"
LINES = [b"ask 1 3 2", b"edit 2 1:2 3:2", b"close 3", b"policy 4 3 3 name", b"bracket 4 3 3 name",
         b"# note", b"", b"\task 3 1 9", b"edit 3 3:3 5:1", b"route 3 3 1 2",
         b"need 1 3 0.750000000000000000 9"]

GRAIN = rb"[01]\.\d{18}"
ANSWER = rb"answer \d+ \d+ \d+ " + GRAIN + rb" " + GRAIN + rb" (-|\d+)"
CAUSES = {
    "graph": rb"NoProblem|SecondProblem|BadLine|NodeRange|ArcBeforeProblem|TooManyArcs|TooFewArcs"
             rb"|TooManyNodes|ArcLimit",
    "hists": rb"Header|Fields|Number|NoArc|ZeroTick|RepeatedTick|Sum|ZeroTime",
    "policy": rb"Magic|Truncated|Order|Range|Trailing",
    "names": rb"Fields|Number|NodeRange|NotText|RepeatedName",
}
LINE_CAUSES = (rb"Word|Count|Number|Name|ZeroTick|RepeatedTick|Sum|NoArc|NoOrigin|NoDest|Budget"
               rb"|NotThere|(TableCells|BroadCells|RouteArcs|NoLeg|Broken) \d+")
REPLY = (ANSWER + rb"|edited \d+|closed \d+|route \d+ \d+ " + GRAIN + rb" " + GRAIN + rb" \d+"
         rb"|need \d+ \d+ " + GRAIN + rb" \d+ (-|\d+) (-|\d+)")
VERDICT = (rb"accepted \d+ \d+ \d+ " + GRAIN + rb"|rejected (Size|Scale)"
           rb"|rejected (NoArc|WrongTail|Value) \d+ \d+")
BRACKET_VERDICT = (rb"enclosed \d+ \d+ \d+ " + GRAIN + rb" " + GRAIN + rb"|rejected Potential \d+"
                   rb"|rejected (Size|Scale)|rejected (NoArc|WrongTail|Lower|Upper) \d+ \d+")
TIMED = rb"timed 1 3 3 10 " + GRAIN + rb" " + GRAIN + rb" (-|\d+)"
READERS = ["graph", "hists", "later", "script", "policy", "bracket", "names"]
# What a refusal calls the text of a reader, and the replies to a text that is read.
KINDS = {"bracket": "policy", "later": "hists"}
OBJECT = (rb'\{"arc":3,"budget":3,"dest":3,"from":"?.*"?,"kind":"answer",'
          rb'"lower":750000000000000000,"origin":1,"to":"?.*"?,"upper":750000000000000000\}')
REPLIES = {"policy": VERDICT, "bracket": VERDICT + rb"|" + BRACKET_VERDICT, "names": OBJECT,
           "later": TIMED}


def mutated(draw, text):
    """The text with one to four changes."""
    data = bytearray(text)
    for _ in range(draw.randint(1, 4)):
        at = draw.randint(0, len(data))
        to = min(len(data), at + draw.choice([0, 1, 1, 1, 2, 4, 12]))
        kind = draw.randrange(7)
        if kind == 0:
            data[at:to] = b""
        elif kind == 1:
            data[at:to] = bytes([draw.randrange(256)])
        elif kind == 2:
            data[at:at] = data[at:to]
        elif kind == 3:
            data[at:at] = draw.choice([b"\n", b"\r", b" ", b"\t", b",", b'"', b":", b"#", b"\x00"])
        elif kind == 4:
            data[at:to] = str(draw.choice([0, 2**16, 10**9 + 1, 2**32 - 1, 2**32, 10**30])).encode()
        elif kind == 5:
            data[at:to] = draw.randbytes(to - at)
        else:
            start = draw.randint(0, len(data))
            data[at:at] = data[start:start + draw.randint(1, 24)]
    return bytes(data)


# Runs a program once for each of so many files, with the file's name for the word "@", and hands
# over the status and the two outputs of each run. Starting a program from here takes a fifth of the
# time that it takes from Python. A run of more than 20 seconds of processor time is ended.
SPAWNER = r"""
#define _GNU_SOURCE
#include <fcntl.h>
#include <spawn.h>
#include <stdio.h>
#include <stdlib.h>
#include <string.h>
#include <sys/resource.h>
#include <sys/wait.h>
#include <unistd.h>

extern char **environ;

static void hand_over(int file, long size) {
    char data[4096];
    lseek(file, 0, SEEK_SET);
    while (size > 0) {
        ssize_t got = read(file, data, sizeof data);
        if (got <= 0) exit(1);
        fwrite(data, 1, (size_t)got, stdout);
        size -= got;
    }
}

int main(int count, char **words) {
    struct rlimit limit = {20, 20};
    int out = open("out", O_RDWR | O_CREAT, 0600), err = open("err", O_RDWR | O_CREAT, 0600);
    char name[32];
    setrlimit(RLIMIT_CPU, &limit);
    for (int word = 3; word < count; word++) if (!strcmp(words[word], "@")) words[word] = name;
    for (long at = 0, runs = atol(words[1]); at < runs; at++) {
        posix_spawn_file_actions_t actions;
        pid_t child;
        int status;
        snprintf(name, sizeof name, "t%ld", at);
        if (ftruncate(out, 0) || ftruncate(err, 0)) return 1;
        lseek(out, 0, SEEK_SET);
        lseek(err, 0, SEEK_SET);
        posix_spawn_file_actions_init(&actions);
        posix_spawn_file_actions_addopen(&actions, 0, "/dev/null", O_RDONLY, 0);
        posix_spawn_file_actions_adddup2(&actions, out, 1);
        posix_spawn_file_actions_adddup2(&actions, err, 2);
        if (posix_spawn(&child, words[2], &actions, 0, words + 2, environ)) return 1;
        posix_spawn_file_actions_destroy(&actions);
        if (waitpid(child, &status, 0) != child) return 1;
        status = WIFEXITED(status) ? WEXITSTATUS(status) : -WTERMSIG(status);
        long written = lseek(out, 0, SEEK_END), noted = lseek(err, 0, SEEK_END);
        printf("%d %ld %ld\n", status, written, noted);
        hand_over(out, written);
        hand_over(err, noted);
    }
    return 0;
}
"""


class Runner:
    """Runs the program on the files of a folder of its own."""

    def __init__(self, sota):
        self.sota = os.path.abspath(sota)
        self.folder = tempfile.TemporaryDirectory()
        for name, data in [("graph", GRAPH), ("hists", HISTS), ("policy", PLAN),
                           ("asked", b"ask 1 3 3\n")]:
            self.write(name, data)
        self.spawner = None
        if shutil.which("cc"):
            self.write("spawn.c", SPAWNER.encode())
            self.spawner = os.path.join(self.folder.name, "spawn")
            subprocess.run(["cc", "-O1", "-o", self.spawner, self.spawner + ".c"], check=True)

    def run_all(self, words, texts):
        """The answers to words in which "@" is the name of each of the texts in turn."""
        for number, data in enumerate(texts):
            self.write(f"t{number}", data)
        if self.spawner is None:
            for number in range(len(texts)):
                yield self.run([f"t{number}" if word == "@" else word for word in words])
            return
        done = subprocess.run([self.spawner, str(len(texts)), self.sota, *words], check=True,
                              cwd=self.folder.name, stdout=subprocess.PIPE)
        at, answers = 0, done.stdout
        for _ in texts:
            end = answers.index(b"\n", at)
            status, out, err = (int(word) for word in answers[at:end].split())
            at = end + 1
            yield status, answers[at:at + out], answers[at + out:at + out + err]
            at += out + err

    def write(self, name, data):
        """Writes a file of the folder."""
        with open(os.path.join(self.folder.name, name), "wb") as out:
            out.write(data)

    def run(self, words):
        """The status, the text and the messages of a run."""
        done = subprocess.run([self.sota, *words], cwd=self.folder.name, capture_output=True,
                              stdin=subprocess.DEVNULL, timeout=60, check=False)
        return done.returncode, done.stdout, done.stderr


def is_place_in(reader, place, text):
    """Whether a place that a fault has can be one of the text: an offset, a line, a record or an
    arc, or a number that stands in it."""
    return place <= len(text) + 1 or str(place).encode() in text or reader in REPLIES


def fault_of(reader, status, out, message, text):
    """What is wrong with an answer to a text of a reader, or None."""
    if message:
        return "a message of its own"
    if status == 3:
        found = re.fullmatch(rb"refused (\w+) (\w+) (\d+)\n", out)
        # Without histograms a graph's weight of 0 is refused where it is taken for a time.
        of_weights = reader == "graph" and found and found[1] + found[2] == b"histsZeroTime"
        # The histograms of a later period may have another denominator than the first period's.
        if reader == "later" and out == b"refused hists ScaleDiffers 1\n":
            return None
        kind = KINDS.get(reader, reader)
        of_reader = found and found[1].decode() == kind and re.fullmatch(CAUSES[kind], found[2])
        if not of_reader and not of_weights:
            return "a refusal that is none of its reader"
        return None if is_place_in(reader, int(found[3]), text) else "a place outside the text"
    reply = REPLIES.get(reader, ANSWER + rb"|refused 1 (" + LINE_CAUSES + rb")")
    if status not in (0, 1) or not re.fullmatch(rb"(" + reply + rb")\n", out):
        return "an answer that is none"
    return None


def fuzz_files(reader, rounds, seed, sota):
    """Rounds of one reader, many in a run of the spawner. Answers the first wrong one, or None."""
    draw = random.Random(f"{reader} {seed}")
    runner = Runner(sota)
    text = {"graph": GRAPH, "hists": HISTS, "later": LATER, "policy": PLAN, "bracket": BRACKET,
            "names": NAMES}[reader]
    words = {"graph": ["ask", "@", "-", "1", "3", "3"],
             "hists": ["ask", "graph", "@", "1", "3", "3"],
             "later": ["timed", "graph", "1", "3", "3", "10", "hists", "8", "@"],
             "policy": ["check", "graph", "hists", "@"],
             "bracket": ["check", "graph", "hists", "@"],
             "names": ["report", "graph", "hists", "@", "asked"]}[reader]
    done = 0
    while done < rounds:
        texts = [mutated(draw, text) for _ in range(min(1000, rounds - done))]
        for number, (data, answer) in enumerate(zip(texts, runner.run_all(words, texts)), done):
            fault = fault_of(reader, *answer, data)
            if fault:
                return f"{reader}, seed {seed}, round {number}: {fault}: {data!r} gives {answer!r}"
        done += len(texts)
    return None


def fuzz_script(rounds, seed, sota):
    """Rounds of the reader of scripts, many lines in one run."""
    draw = random.Random(f"script {seed}")
    runner = Runner(sota)
    left = rounds
    while left > 0:
        lines = [mutated(draw, draw.choice(LINES)).replace(b"\n", b" ")
                 for _ in range(min(left, 50_000))]
        # A mutated line that stores may do so under any name.
        lines = [line for line in lines if not re.match(rb"[ \t]*(policy|bracket)[ \t]", line)]
        runner.write("script", b"\n".join(lines) + b"\n")
        status, out, message = runner.run(["run", "graph", "hists", "script"])
        wanted = rb"(?:" + REPLY + rb"|refused (?P<line>\d+) (" + LINE_CAUSES + rb"))"
        if message or status not in (0, 1):
            return f"script, seed {seed}: status {status}, message {message!r}"
        last = 0
        for reply in out.splitlines():
            found = re.fullmatch(wanted, reply)
            if not found or (found["line"] and not last < int(found["line"]) <= len(lines)):
                return f"script, seed {seed}: a reply {reply!r}"
            last = int(found["line"] or last)
        left -= 50_000
    return None


def play(task):
    """Plays a task of a worker: a reader, rounds, a seed and the program."""
    reader, rounds, seed, sota = task
    if reader == "script":
        return fuzz_script(rounds, seed, sota)
    return fuzz_files(reader, rounds, seed, sota)


def main():
    """Plays all rounds, and says the first wrong answer of each worker."""
    reader = argparse.ArgumentParser(description=__doc__.splitlines()[0])
    reader.add_argument("--sota", default=SOTA)
    reader.add_argument("--rounds", type=int, default=2000)
    reader.add_argument("--reader", choices=READERS, action="append")
    reader.add_argument("--seed", type=int, default=1)
    reader.add_argument("--jobs", type=int, default=1)
    words = reader.parse_args()
    readers = words.reader or READERS
    tasks = [(name, -(-words.rounds // words.jobs), words.seed * 1000 + job, words.sota)
             for name in readers for job in range(words.jobs)]
    with multiprocessing.Pool(words.jobs) as pool:
        wrong = [answer for answer in pool.imap_unordered(play, tasks) if answer]
    for answer in wrong:
        print(answer)
    print(f"fuzz: {words.rounds} rounds of {', '.join(readers)}: {len(wrong)} wrong")
    return 1 if wrong else 0


if __name__ == "__main__":
    sys.exit(main())
