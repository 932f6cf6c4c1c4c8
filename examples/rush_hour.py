#!/usr/bin/env python3
"""Shows how the chance to arrive in time depends on when one leaves, by asking sota.

    rush_hour.py SOTA GRAPH HISTS RUSH BEGIN END FROM TO BUDGET LAST STEP [PICTURE]

SOTA is the built program. The roads take the times of HISTS, but those of RUSH from tick BEGIN of
the clock to END. Who leaves FROM at tick 0, STEP, 2 STEP and so on up to LAST has BUDGET ticks to
be at TO. A line is printed for each departure: its tick, the chance, and the road to take first.
PICTURE is the name of an SVG file that is drawn.
"""
import subprocess
import sys

LEFT, TOP, WIDTH, HEIGHT = 60, 20, 640, 260  # Of the field of the curve in the picture.


def ask(sota, graph, periods, trip, deadline):
    """The lower bound of the chance and the first road, as they are printed."""
    origin, dest, budget = (str(number) for number in trip)
    words = [sota, "timed", graph, origin, dest, budget, str(deadline), *periods]
    run = subprocess.run(words, capture_output=True, text=True)
    if run.returncode != 0:
        raise SystemExit(f"sota ended with status {run.returncode}: {run.stdout.strip()}")
    reply = run.stdout.split()
    return reply[5], reply[7]


def text(x, y, words, anchor="middle"):
    return f'<text x="{x:.1f}" y="{y:.1f}" text-anchor="{anchor}">{words}</text>'


def picture(points, begin, end, title):
    """The curve of the chances as SVG, with the rush hour in grey."""
    last = points[-1][0]

    def across(tick):
        return LEFT + WIDTH * tick / last

    def up(chance):
        return TOP + HEIGHT * (1 - chance)

    rush = across(min(end, last)) - across(begin)
    parts = [
        f'<svg xmlns="http://www.w3.org/2000/svg" viewBox="0 0 {LEFT + WIDTH + 20} 340"'
        ' font-family="sans-serif" font-size="12">',
        '<rect width="100%" height="100%" fill="white"/>',
        f'<rect x="{across(begin):.1f}" y="{TOP}" width="{rush:.1f}" height="{HEIGHT}"'
        ' fill="#dddddd"/>',
        text(across(begin) + rush / 2, TOP + 14, "rush hour"),
        text(LEFT + WIDTH / 2, 14, title),
        text(LEFT + WIDTH / 2, 325, "tick of the departure"),
    ]
    for tenth in range(0, 11, 2):
        y = up(tenth / 10)
        parts.append(f'<path d="M{LEFT} {y:.1f}h{WIDTH}" stroke="#bbbbbb"/>')
        parts.append(text(LEFT - 8, y + 4, f"{tenth * 10} %", "end"))
    for tick in range(0, last + 1, max(1, last // 5)):
        parts.append(text(across(tick), TOP + HEIGHT + 18, tick))
    curve = " ".join(f"{across(tick):.1f},{up(chance):.1f}" for tick, chance in points)
    parts.append(f'<polyline points="{curve}" fill="none" stroke="#1f4e9c" stroke-width="2"/>')
    return "\n".join(parts) + "\n</svg>\n"


def main():
    if len(sys.argv) not in (12, 13):
        raise SystemExit(__doc__.split("\n\n")[1].strip())
    sota, graph, hists, rush = sys.argv[1:5]
    begin, end, origin, dest, budget, last, step = (int(word) for word in sys.argv[5:12])
    periods = [hists, str(begin), rush, str(end), hists]
    points = []
    for leave in range(0, last + 1, step):
        chance, road = ask(sota, graph, periods, (origin, dest, budget), leave + budget)
        print(f"{leave} {chance} {road}", flush=True)
        points.append((leave, float(chance)))
    if len(sys.argv) == 13:
        title = f"Chance to go from {origin} to {dest} within {budget} ticks"
        with open(sys.argv[12], "w", encoding="utf-8") as drawn:
            drawn.write(picture(points, begin, end, title))


if __name__ == "__main__":
    main()
