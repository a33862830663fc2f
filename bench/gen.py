#!/usr/bin/env python3
"""Draws bench/rates.svg from the table of bench/gen.sh, which it reads and prints: And words a second by size and by workers, beside the
dealer's rate.
"""
import os, re, sys

HERE = os.path.dirname(os.path.abspath(__file__))
WIDE, HIGH, LEFT, RIGHT, TOP, BOTTOM = 720, 400, 80, 190, 40, 50
COLOURS = {1: "#1b4f72", 2: "#2e86c1", 4: "#28b463", 16: "#ca6f1e"}


def read(lines):
    """The dealer's rate, where it is told, and the rates by workers: (And words, rate) of each size."""
    dealer, rates = None, {}
    for line in lines:
        sys.stdout.write(line)
        told = re.fullmatch(r"dealer (\d+) And words a second\n", line)
        row = re.fullmatch(r"(\d+) (\d+) (\d+) [0-9.]+ (\d+) \d+ [0-9.]+\n", line)
        if told:
            dealer = int(told[1])
        elif row:
            rates.setdefault(int(row[2]), []).append((int(row[3]), int(row[4])))
    return dealer, rates


def ticks(most):
    """Round numbers up to the most, four to eight of them."""
    step = 1
    while most / step > 8:
        step *= 5 if str(step)[0] == "1" else 2
    return range(0, int(most) + step, step)


def in_short(n):
    return f"{n / 1e6:g} M" if n >= 1e6 else f"{n / 1e3:g} k" if n >= 1e3 else str(n)


class Plot:
    def __init__(self, most_words, most_rate):
        self.words, self.rate, self.out = most_words, most_rate, []

    def x(self, words):
        return LEFT + (WIDE - LEFT - RIGHT) * words / self.words

    def y(self, rate):
        return HIGH - BOTTOM - (HIGH - TOP - BOTTOM) * rate / self.rate

    def line(self, points, colour, more=""):
        path = " ".join(f"{self.x(w):.1f},{self.y(r):.1f}" for w, r in points)
        self.out.append(f'<polyline points="{path}" fill="none" stroke="{colour}" stroke-width="2"{more}/>')

    def text(self, x, y, words, anchor="start", colour="#333"):
        self.out.append(f'<text x="{x:.1f}" y="{y:.1f}" text-anchor="{anchor}" fill="{colour}">{words}</text>')

    def axes(self):
        for rate in ticks(self.rate):
            self.out.append(f'<line x1="{LEFT}" x2="{WIDE - RIGHT}" y1="{self.y(rate):.1f}" y2="{self.y(rate):.1f}" stroke="#ddd"/>')
            self.text(LEFT - 8, self.y(rate) + 4, in_short(rate), "end")
        for words in ticks(self.words):
            self.text(self.x(words), HIGH - BOTTOM + 20, in_short(words), "middle")
        self.text((LEFT + WIDE - RIGHT) / 2, HIGH - 10, "And words of the three queries", "middle")
        self.text(LEFT - 60, TOP - 16, "And words a second")

    def svg(self):
        body = "\n".join(self.out)
        return (f'<svg xmlns="http://www.w3.org/2000/svg" width="{WIDE}" height="{HIGH}" viewBox="0 0 {WIDE} {HIGH}" '
                f'font-family="sans-serif" font-size="12">\n<rect width="{WIDE}" height="{HIGH}" fill="#fff"/>\n{body}\n</svg>\n')


def drawn(dealer, rates):
    every = [point for points in rates.values() for point in points]
    highest = max([rate for _, rate in every] + ([dealer] if dealer else []))
    plot = Plot(max(ticks(max(words for words, _ in every))), max(ticks(highest)))
    plot.axes()
    at = TOP + 10
    for workers, points in sorted(rates.items()):
        colour = COLOURS.get(workers, "#555")
        plot.line(sorted(points), colour)
        plot.text(WIDE - RIGHT + 15, at, f"{workers} worker{'s' if workers > 1 else ''}", colour=colour)
        at += 20
    if dealer:
        plot.line([(0, dealer), (plot.words, dealer)], "#999", ' stroke-dasharray="6 4"')
        plot.text(WIDE - RIGHT + 15, at, "the dealer alone", colour="#999")
    return plot.svg()


def main():
    dealer, rates = read(sys.stdin)
    if not rates:
        raise SystemExit("no table: bench/gen.sh | bench/gen.py")
    with open(os.path.join(HERE, "rates.svg"), "w") as out:
        out.write(drawn(dealer, rates))


main()
