#!/usr/bin/env python3
"""Shows how the chance to arrive in time grows with the time allowed, by asking sota.

Asks for the chance from FROM to TO within LOW, LOW + STEP and so on up to HIGH ticks, prints it (as
words or CSV) or draws it, and answers how much time one must allow to be sure enough. With --edits
the same is asked once more after the edits, and both plans stand beside each other.

FROM and TO are node numbers, or ids of places where a table of ids is given. Chances are the lower
bounds that the program prints; its upper bounds differ by a few units of 10^-18. In words they are
rounded down. CSV has all digits; the answer in words then goes to the error output.
"""
from __future__ import annotations

import argparse
import csv
import re
import subprocess
import sys
import tempfile
from dataclasses import dataclass
from pathlib import Path
from typing import Any, Sequence

from sota_files import (
    BUDGET_LIMIT,
    ONE,
    BadData,
    Clock,
    Ids,
    WrongUse,
    all_digits,
    at,
    keep_inputs,
    number_from,
    percent,
    read_ids,
    read_text,
    run_tool,
    tick_length,
)

BUILT = Path(__file__).resolve().parent.parent / "crates" / "sota" / "out" / "sota"
LINE_CAUSES = ("SecondProblem", "BadLine", "NodeRange", "ArcBeforeProblem", "TooManyArcs")
RECORD_CAUSES = ("Fields", "Number", "NoArc", "ZeroTick", "RepeatedTick")
PLACES = {
    **dict.fromkeys(LINE_CAUSES, "line"),
    **dict.fromkeys(RECORD_CAUSES, "record"),
    "Sum": "arc",
    "ZeroTime": "arc",
}
REPLIES = {"ask": "answer", "edit": "edited", "close": "closed"}
CAUSES = {
    "Word": "no command",
    "Count": "wrong number of fields",
    "Number": "not a number where one must stand",
    "ZeroTick": "a time of 0 ticks",
    "RepeatedTick": "the same tick twice",
    "Sum": "masses that do not fit the Q of the network",
    "NoArc": "no such arc",
    "NoOrigin": "no such node to start from",
    "NoDest": "no such node to arrive at",
    "Budget": f"more than {BUDGET_LIMIT} ticks",
    "TableCells": "too large to plan: fewer ticks, or a smaller network",
    "BroadCells": "too large to plan: times of fewer different ticks, or fewer ticks in all",
}


@dataclass(frozen=True)
class Line:
    """A line of the script, and the file and line that it was taken from."""

    text: str
    source: str


@dataclass(frozen=True)
class Point:
    """The chance within a budget, in units of 10^-18, and the arc to leave by, 0 for none."""

    budget: int
    chance: int
    arc: int


@dataclass(frozen=True)
class Trip:
    """Who asks: the program, its two files, and the two nodes."""

    program: str
    graph: str
    histograms: str
    origin: int
    dest: int

    def ask(self, budget: int) -> Line:
        text = f"ask {self.origin} {self.dest} {budget}"
        return Line(text, f"the ask from {self.origin} to {self.dest}")

    def run(self, script: list[Line], kept: str | None = None) -> list[str]:
        """Runs the program on a script, and answers its replies, one a line of the script."""
        with tempfile.TemporaryDirectory() as folder:
            path = Path(kept) if kept else Path(folder) / "script"
            path.write_text("".join(line.text + "\n" for line in script), encoding="utf-8")
            words = [self.program, "run", self.graph, self.histograms, str(path)]
            try:
                done = subprocess.run(words, stdout=subprocess.PIPE, text=True, check=False)
            except OSError as fault:
                raise BadData(
                    f"{self.program}: {fault.strerror}; build it or give --sota"
                ) from None
        if done.returncode not in (0, 1):
            raise BadData(self.failure(done.returncode, done.stdout))
        replies = done.stdout.splitlines()
        check_replies(script, replies)
        return replies

    def failure(self, status: int, output: str) -> str:
        """Why the program gave no replies."""
        fields = output.split()
        if status == 3 and len(fields) == 4:
            _, kind, cause, place = fields
            name = {"graph": self.graph, "hists": self.histograms}.get(kind, kind)
            where = f" ({PLACES[cause]} {place})" if cause in PLACES else f" {place}"
            return f"{name}: the program refuses it: {cause}{where}"
        if status == 4:
            return f"{self.graph} or {self.histograms}: cannot be read"
        if status == 6:
            return "the program did not have enough memory"
        return f"{self.program}: ended with status {status}"


def check_replies(script: list[Line], replies: list[str]) -> None:
    """Refuses replies of which one is a refusal, or not what its line asks for."""
    refusals = []
    for line, reply in zip(script, replies):
        kind, *fields = reply.split() or [""]
        if kind == "refused" and len(fields) >= 2:
            refusals.append(f"{line.source}: {CAUSES.get(fields[1], 'refused')} ({fields[1]})")
        elif kind != REPLIES[line.text.split()[0]]:
            raise BadData(f"no reply to '{line.text}': {reply}")
    if refusals:
        raise BadData(*dict.fromkeys(refusals))
    if len(replies) != len(script):
        raise BadData(f"the program gave {len(replies)} replies to {len(script)} lines")


def points(replies: list[str]) -> list[Point]:
    """The answers among replies."""
    found = []
    for reply in replies:
        fields = reply.split()
        if fields[0] == "answer":
            chance = int(fields[4].replace(".", ""))
            found.append(Point(int(fields[3]), chance, 0 if fields[6] == "-" else int(fields[6])))
    return found


def read_edits(path: str) -> list[Line]:
    """The lines of a script that change the network; its asks are left out."""
    edits = []
    for number, text in enumerate(read_text(path).split("\n"), start=1):
        if text.split()[:1] in (["edit"], ["close"]):
            edits.append(Line(text.strip(), f"{path}:{number}"))
    if not edits:
        raise BadData(at(path, 1, "no line of this file begins with 'edit' or 'close'"))
    return edits


def curves(
    trip: Trip, budgets: Sequence[int], edits: list[Line], kept: str | None
) -> list[list[Point]]:
    """The chances at the budgets: one list, and a second one where there are edits."""
    asks = [trip.ask(budget) for budget in budgets]
    found = points(trip.run(asks + (edits + asks if edits else []), kept))
    return [found[: len(asks)]] + ([found[len(asks) :]] if edits else [])


def least_time(trip: Trip, curve: list[Point], edits: list[Line], sure: int) -> Point | None:
    """The first budget of the range, to the tick, whose chance is sure enough; None for none."""
    enough = [place for place, each in enumerate(curve) if each.chance >= sure]
    if not enough:
        return None
    first = enough[0]
    below = curve[first - 1].budget + 1 if first else curve[0].budget
    asks = [trip.ask(budget) for budget in range(below, curve[first].budget)]
    finer = points(trip.run(edits + asks)) if asks else []
    return next(each for each in finer + [curve[first]] if each.chance >= sure)


def sure_words(
    needs: list[Point | None], names: list[str], given: argparse.Namespace, clock: Clock
) -> list[str]:
    """The answer to how much time must be allowed."""
    words = []
    for name, need in zip(names, needs):
        begin = f"To be {given.sure} % sure" + (f" {name}" if len(needs) > 1 else "")
        if need is None:
            words.append(f"{begin}, {clock.words(given.high)} are not enough.")
        elif need.budget == given.low:
            words.append(f"{begin}, allow {clock.words(need.budget)} or less.")
        else:
            words.append(f"{begin}, allow {clock.words(need.budget)}.")
    return words


def table(found: list[list[Point]], names: list[str], ids: Ids, clock: Clock) -> list[str]:
    """The chances as a table in words."""
    wide = max([16] + [len(name) + 2 for name in names])
    roads = max([7] + [len(road_name(ids, each.arc)) for curve in found for each in curve])
    lines = ["time allowed" + "".join(f"{name:>{wide}}  {'by road':<{roads}}" for name in names)]
    for row in zip(*found):
        cells = [f"{clock.words(row[0].budget):>12}"]
        cells += [
            f"{percent(each.chance):>{wide}}  {road_name(ids, each.arc):<{roads}}" for each in row
        ]
        lines.append("".join(cells))
    return [line.rstrip() for line in lines]


def road_name(ids: Ids, arc: int) -> str:
    return ids.arc(arc) if arc else "-"


def write_csv(found: list[list[Point]], ids: Ids) -> None:
    """The chances as CSV, with all their digits."""
    out = csv.writer(sys.stdout, lineterminator="\n")
    columns = ["chance", "road", "chance_after_edits", "road_after_edits"]
    out.writerow(["ticks"] + columns[: 2 * len(found)])
    for row in zip(*found):
        cells = [[all_digits(each.chance), road_name(ids, each.arc)] for each in row]
        out.writerow([row[0].budget] + sum(cells, []))


def draw(
    found: list[list[Point]],
    needs: list[Point | None],
    names: list[str],
    given: argparse.Namespace,
    clock: Clock,
) -> None:
    """Draws the chance against the time allowed; the ending of the name says PNG or SVG."""
    try:
        import matplotlib

        matplotlib.use("Agg")
        from matplotlib import pyplot
    except ImportError:
        raise BadData("a picture needs matplotlib (python3-matplotlib, or pip install matplotlib)")
    scale, level = float(clock.tick or 1), float(given.sure)
    figure, axes = pyplot.subplots(figsize=(8, 4.8), layout="constrained")
    for curve, need, name, colour in zip(found, needs, names, ("#1f5fa8", "#c7522a")):
        times = [each.budget * scale for each in curve]
        axes.plot(times, [each.chance * 100 / ONE for each in curve], color=colour, label=name)
        if need:
            mark_need(axes, need.budget * scale, level, colour, clock)
    axes.axhline(level, color="grey", linewidth=0.8, linestyle="--")
    axes.annotate(
        f"{given.sure} %",
        (0, level),
        xycoords=("axes fraction", "data"),
        xytext=(4, 3),
        textcoords="offset points",
        color="grey",
    )
    title = given.title or f"From {given.origin} to {given.dest}"
    axes.set(
        title=title,
        ylabel="chance to arrive in time (%)",
        ylim=(0, 102),
        xlabel="time allowed (s)" if clock.tick else "time allowed (ticks)",
    )
    axes.grid(alpha=0.3)
    axes.spines[["top", "right"]].set_visible(False)
    if len(found) > 1:
        axes.legend(frameon=False, loc="center left")
    figure.savefig(given.picture, dpi=120)
    pyplot.close(figure)


def mark_need(axes: Any, time: float, level: float, colour: str, clock: Clock) -> None:
    """Marks in a picture how much time must be allowed."""
    axes.plot([time], [level], "o", color=colour)
    axes.plot([time, time], [0, level], color=colour, linewidth=0.8, linestyle=":")
    unit = " s" if clock.tick else ""
    axes.annotate(
        f"{time:g}{unit}", (time, 2), xytext=(4, 0), textcoords="offset points", color=colour
    )


def sure_percent(word: str) -> str:
    """A number of per cent above 0 and up to 100, for the command line."""
    if not re.fullmatch(r"[0-9]{1,3}(\.[0-9]{1,16})?", word) or not 0 < percent_units(word) <= ONE:
        raise argparse.ArgumentTypeError(f"'{word}' is no number of per cent from 0 to 100")
    return word


def percent_units(sure: str) -> int:
    """A number of per cent in units of 10^-18."""
    whole, _, digits = sure.partition(".")
    return int(whole + digits.ljust(16, "0"))


def picture_name(word: str) -> str:
    if not word.endswith((".png", ".svg")):
        raise argparse.ArgumentTypeError(f"'{word}' ends in neither .png nor .svg")
    return word


def arguments() -> argparse.ArgumentParser:
    budget = number_from(0, BUDGET_LIMIT)
    parser = argparse.ArgumentParser(
        description=__doc__, formatter_class=argparse.RawDescriptionHelpFormatter
    )
    parser.add_argument("graph", metavar="GRAPH", help="the road graph (.gr)")
    parser.add_argument("histograms", metavar="HISTS", help="the histograms (.csv), or - for none")
    parser.add_argument("origin", metavar="FROM", help="where the trip begins")
    parser.add_argument("dest", metavar="TO", help="where it ends")
    parser.add_argument("low", metavar="LOW", type=budget, help="the least time, in ticks")
    parser.add_argument("high", metavar="HIGH", type=budget, help="the greatest time, in ticks")
    parser.add_argument(
        "--step",
        type=number_from(1, BUDGET_LIMIT),
        default=10,
        metavar="TICKS",
        help="from one time to the next (default 10)",
    )
    parser.add_argument(
        "--edits", metavar="SCRIPT", help="ask again after the lines edit and close of this script"
    )
    parser.add_argument(
        "--after",
        default="after the edits",
        metavar="WORDS",
        help="what to call the plan after the edits",
    )
    parser.add_argument(
        "--sure",
        type=sure_percent,
        default="90",
        metavar="PERCENT",
        help="how sure one must be to arrive in time (default 90)",
    )
    parser.add_argument("--ids", metavar="TABLE", help="the table of ids (.ids.csv)")
    parser.add_argument(
        "--tick",
        type=tick_length,
        metavar="SECONDS",
        help="the length of a tick: times are then shown in seconds",
    )
    parser.add_argument("--csv", action="store_true", help="print CSV, with all digits")
    parser.add_argument(
        "--picture", type=picture_name, metavar="FILE", help="draw a picture, .png or .svg"
    )
    parser.add_argument("--title", help="the title of the picture")
    parser.add_argument("--script", metavar="FILE", help="keep the script of asks in this file")
    parser.add_argument(
        "--sota",
        default=str(BUILT),
        metavar="PROGRAM",
        help="the built program (default crates/sota/out/sota)",
    )
    return parser


def show(given: argparse.Namespace) -> None:
    """Asks, and shows what came of it."""
    if given.low > given.high:
        raise WrongUse("LOW is greater than HIGH")
    inputs = [given.graph, given.histograms, given.edits, given.ids]
    keep_inputs([given.script, given.picture], inputs)
    ids, clock = read_ids(given.ids), Clock(given.tick)
    trip = Trip(
        given.sota,
        given.graph,
        given.histograms,
        ids.find_node(given.origin),
        ids.find_node(given.dest),
    )
    budgets = list(range(given.low, given.high, given.step)) + [given.high]
    edits = read_edits(given.edits) if given.edits else []
    found = curves(trip, budgets, edits, given.script)
    names = ["now", given.after][: len(found)]
    sure = percent_units(given.sure)
    changes: list[list[Line]] = [[], edits]
    needs = [least_time(trip, curve, before, sure) for curve, before in zip(found, changes)]
    answers = sure_words(needs, names, given, clock)
    if given.csv:
        write_csv(found, ids)
        print("\n".join(answers), file=sys.stderr)
    else:
        print("\n".join(table(found, names, ids, clock) + [""] + answers))
    if given.picture:
        draw(found, needs, names, given, clock)


def main(words: Sequence[str] | None = None) -> int:
    given = arguments().parse_args(words)
    return run_tool(lambda: show(given))


if __name__ == "__main__":
    sys.exit(main())
