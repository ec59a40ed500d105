#!/usr/bin/env python3
"""Measures `make N 7 STRATEGY` over a range of N, for several programs side by side, and draws time and memory.

usage: bench/plot.py [--from N] [--to N] [--repeats N] [--strategy plain|represented|small-value] [--out FILE.svg] NAME=PROGRAM [NAME=PROGRAM ..]

Each PROGRAM is a command line, to which the words of the job are appended; NAME is what the picture calls it. The
programs run one after the other in each repeat. Printed are the medians of processor time, less that of a job of two
entries, and of the peak of memory, their ratios to the last program's, and by which power of the table's length the
time grows from the first N to the last; the picture has both over N, by logarithmic scales. Status and output of all
are compared byte for byte.
"""
import argparse, math, os, shlex, statistics, sys, tempfile

from measured import run

WIDTH, HEIGHT, LEFT, TOP, BOTTOM = 420, 330, 62, 34, 46
COLORS = ["#1f6fb2", "#c2571a", "#3a8f4d", "#7a4fa3"]


def measured(given, programs):
    """The medians (processor seconds less those of a start, peak in MB) of each program, by N."""
    figures = {}
    with tempfile.TemporaryDirectory() as folder:
        for n in [1, *range(given.first, given.last + 1)]:
            samples, answers = [[] for _ in programs], set()
            for _ in range(given.repeats):
                for i, (_, command) in enumerate(programs):
                    out = os.path.join(folder, f"out-{i}")
                    _, seconds, peak, status = run(command + ["make", str(n), "7", given.strategy], os.devnull, out)
                    samples[i].append((seconds, peak))
                    with open(out, "rb") as f:
                        answers.add((status, f.read()))
            if len(answers) != 1 or next(iter(answers))[0] != 0:
                sys.exit(f"2^{n} entries: the programs' answers differ, or are refusals")
            figures[n] = [[statistics.median(s[k] for s in taken) for k in range(2)] for taken in samples]
    start = figures.pop(1)
    return {n: [(max(t - s, 1e-4), peak) for (t, peak), (s, _) in zip(taken, start)] for n, taken in figures.items()}


def table(figures, programs):
    """The figures as rows of a table in Markdown."""
    names = [name for name, _ in programs]
    yield "| Entries | " + " | ".join(names) + " | Ratio | " + " | ".join(f"{name}, peak" for name in names) + " | Ratio |"
    yield "|---" * (2 * len(names) + 3) + "|"
    for n, taken in figures.items():
        times = [f"{t * 1e3:.1f} ms" for t, _ in taken]
        peaks = [f"{p:.1f} MB" for _, p in taken]
        ratios = [" ".join(f"{x[k] / taken[-1][k]:.2f}" for x in taken[:-1]) for k in range(2)]
        yield f"| 2^{n} | {' | '.join(times)} | {ratios[0]} | {' | '.join(peaks)} | {ratios[1]} |"


def panel(x0, title, unit, series, names):
    """One picture: a line for each program over N, by a logarithmic scale with a mark at each power of ten, and at 2 and 5 times it."""
    ns = [n for n, _ in series[0]]
    values = [v for line in series for _, v in line]
    low, high = math.log10(min(values)) - 0.05, math.log10(max(values)) + 0.05
    right, base = x0 + WIDTH - 24, TOP + HEIGHT - TOP - BOTTOM

    def x(n):
        return x0 + LEFT + (right - x0 - LEFT) * (n - ns[0]) / max(1, ns[-1] - ns[0])

    def y(value):
        return base - (base - TOP) * (math.log10(value) - low) / (high - low)

    yield f'<text x="{x0 + LEFT}" y="20" font-weight="bold">{title}</text>'
    for power in range(math.floor(low), math.ceil(high) + 1):
        for factor in (1, 2, 5):
            value = factor * 10.0 ** power
            if low <= math.log10(value) <= high:
                yield f'<line x1="{x0 + LEFT}" y1="{y(value):.1f}" x2="{right}" y2="{y(value):.1f}" stroke="#ddd"/>'
                yield f'<text x="{x0 + LEFT - 6}" y="{y(value) + 4:.1f}" text-anchor="end">{value:g} {unit}</text>'
    for n in ns:
        yield f'<text x="{x(n):.1f}" y="{base + 18}" text-anchor="middle">2^{n}</text>'
    yield f'<rect x="{x0 + LEFT}" y="{TOP}" width="{right - x0 - LEFT}" height="{base - TOP}" fill="none" stroke="#888"/>'
    for i, (line, name) in enumerate(zip(series, names)):
        points = " ".join(f"{x(n):.1f},{y(v):.1f}" for n, v in line)
        yield f'<polyline points="{points}" fill="none" stroke="{COLORS[i % 4]}" stroke-width="2"/>'
        yield from (f'<circle cx="{x(n):.1f}" cy="{y(v):.1f}" r="3" fill="{COLORS[i % 4]}"/>' for n, v in line)
        yield f'<text x="{x0 + LEFT + 10}" y="{TOP + 18 + 16 * i}" fill="{COLORS[i % 4]}">{name}</text>'


def picture(figures, programs, strategy):
    names = [name for name, _ in programs]

    def series(k, scale):
        return [[(n, taken[i][k] * scale) for n, taken in figures.items()] for i in range(len(programs))]

    yield f'<svg xmlns="http://www.w3.org/2000/svg" width="{2 * WIDTH}" height="{HEIGHT}" font-family="sans-serif" font-size="12">'
    yield f'<rect width="{2 * WIDTH}" height="{HEIGHT}" fill="white"/>'
    yield from panel(0, f"make {strategy}: processor time", "ms", series(0, 1e3), names)
    yield from panel(WIDTH, f"make {strategy}: peak of memory", "MB", series(1, 1), names)
    yield "</svg>"


def main():
    arguments = argparse.ArgumentParser(description=__doc__, formatter_class=argparse.RawDescriptionHelpFormatter)
    arguments.add_argument("--from", dest="first", type=int, default=16)
    arguments.add_argument("--to", dest="last", type=int, default=24)
    arguments.add_argument("--repeats", type=int, default=9)
    arguments.add_argument("--strategy", choices=["plain", "represented", "small-value"], default="plain")
    arguments.add_argument("--out")
    arguments.add_argument("programs", nargs="+")
    given = arguments.parse_args()
    programs = [(name, shlex.split(command)) for name, _, command in (p.partition("=") for p in given.programs)]
    if not all(command for _, command in programs):
        sys.exit("a program is given as NAME=PROGRAM")
    figures = measured(given, programs)
    print("\n".join(table(figures, programs)))
    for i, (name, _) in enumerate(programs):
        first, last = figures[given.first][i][0], figures[given.last][i][0]
        if given.last > given.first and first > 0:
            print(f"{name}: the time grows with the power {math.log2(last / first) / (given.last - given.first):.3f} of the length")
    if given.out:
        with open(given.out, "w") as f:
            f.write("\n".join(picture(figures, programs, given.strategy)) + "\n")


main()
