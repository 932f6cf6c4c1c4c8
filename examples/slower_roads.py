#!/usr/bin/env python3
"""Writes histograms in which every time is longer, as those of a rush hour.

    slower_roads.py HISTS PERCENT

HISTS is a file of histograms. Each of its ticks is multiplied by PERCENT / 100, which is at least 1,
and rounded up; the masses stay.
"""
import csv
import sys


def slower(rows, percent):
    """The records with longer times. Ticks that differ still do, since the factor is at least 1."""
    for arc, tick, mass in rows:
        yield arc, str(-(-int(tick) * percent // 100)), mass


def main():
    if len(sys.argv) != 3 or not sys.argv[2].isdigit() or int(sys.argv[2]) < 100:
        raise SystemExit("slower_roads.py HISTS PERCENT, with a PERCENT of 100 or more")
    with open(sys.argv[1], newline="", encoding="utf-8") as text:
        rows = csv.reader(text)
        out = csv.writer(sys.stdout, lineterminator="\n")
        out.writerow(next(rows))
        out.writerows(slower(rows, int(sys.argv[2])))


if __name__ == "__main__":
    main()
