#!/usr/bin/env python3
"""Asks sota from Python: how much of the trips from one place to another are in time?

    report_client.py SOTA GRAPH HISTS NAMES FROM TO BUDGET ..

SOTA is the built program. NAMES has a line `NODE NAME` for each place; FROM and TO are two of the
names, and each BUDGET is a time to allow, in ticks. One line is printed for each budget.
"""
import json
import os
import subprocess
import sys
import tempfile

UNITS = 10**18  # Bounds are whole numbers of these units.


def ask_all(sota, graph, hists, names, lines):
    """The reply to each line of a script, as a dictionary. A line without a reply is none."""
    with tempfile.NamedTemporaryFile("w", suffix=".script", delete=False) as script:
        script.write("".join(line + "\n" for line in lines))
    try:
        run = subprocess.run(
            [sota, "report", graph, hists, names, script.name], capture_output=True, text=True
        )
    finally:
        os.unlink(script.name)
    # Status 0 and 1 are those of scripts that were played; with 1 some lines were refused.
    if run.returncode not in (0, 1):
        raise SystemExit(f"sota ended with status {run.returncode}: {run.stdout.strip()}")
    return [json.loads(line) for line in run.stdout.splitlines()]


def main(argv):
    if len(argv) < 8:
        raise SystemExit(__doc__)
    sota, graph, hists, names, origin, dest = argv[1:7]
    lines = [f"ask @{origin} @{dest} {budget}" for budget in argv[7:]]
    for reply in ask_all(sota, graph, hists, names, lines):
        if reply["kind"] == "refused":
            print(f"line {reply['line']} was refused: {reply['cause']}")
        else:
            low, high = reply["lower"] / UNITS, reply["upper"] / UNITS
            print(f"{reply['from']} to {reply['to']} within {reply['budget']} ticks: "
                  f"{low:.4%} to {high:.4%}, first by road {reply['arc']}")


if __name__ == "__main__":
    main(sys.argv)
