"""The benchmark's tables and plot, from the records of speed.c, libntru.c and bundles.c.

Usage: report.py --machine TEXT --table N... --convolutions N... --every N... --modulo-2 N... --bundles N... -- DATA

Prints the tables, puts them between the marks of docs/PERFORMANCE.md, and writes docs/performance.svg.
"""

import argparse
import math
import pathlib

DOCS = pathlib.Path(__file__).resolve().parent.parent / "docs"
BEGIN, END = "<!-- measured: begin -->\n", "<!-- measured: end -->\n"

# ---- Records


def read_records(path):
    """{(call, who): {N: microseconds}}, the best where a record is repeated; what libntru cannot do is infinite."""
    times = {}
    for line in path.read_text().splitlines():
        n, call, who, time = line.split("\t")
        by_n = times.setdefault((call, who), {})
        time = math.inf if time == "beyond" else float(time)
        by_n[int(n)] = min(time, by_n.get(int(n), math.inf))
    return times


# ---- Tables

# libntru's product, by the part of its ternary operand that is not zero
LIBNTRU = ["libntru 2/3", "libntru 4/9"]


def microseconds(time):
    if time is None:
        return "–"
    if time == math.inf:
        return "beyond"
    return f"{time:,.1f}" if time >= 1 else f"{time:.2f}"


def ratio(time, other):
    return "–" if other in (None, math.inf) else f"{time / other:.2f}"


def table(head, rows):
    lines = [head, [":--" if name == "call" else "--:" for name in head], *rows]
    return "".join("| " + " | ".join(cells) + " |\n" for cells in lines)


def sealing_and_opening(times, sizes):
    head = ["N", "call", "ours µs", "plain C µs", "times as fast"]
    head += ["single rotations in C µs", "ours / it", "same algorithm in C µs", "ours / same"]
    head += ["libntru 2/3 µs", "ours / it", "libntru 4/9 µs", "ours / it"]
    rows = []
    for n in sizes:
        libntru = [times.get(("product", who), {}).get(n) for who in LIBNTRU]
        for call in ("sealing", "opening"):
            ours, plain, single, same = (times[call, who][n] for who in ("ours", "plain", "single", "same"))
            row = [f"{n:,}", call, microseconds(ours), microseconds(plain), ratio(plain, ours)]
            row += [microseconds(single), ratio(ours, single), microseconds(same), ratio(ours, same)]
            for time in libntru:
                row += [microseconds(time), ratio(ours, time)]
            rows.append(row)
    return table(head, rows)


def convolution(times, sizes):
    head = ["N", "etru_convolve µs", "direct sum in C µs", "times as fast", "same algorithm in C µs", "ours / same"]
    rows = []
    for n in sizes:
        ours, direct, same = (times["convolution", who][n] for who in ("ours", "direct", "same"))
        row = [f"{n:,}", microseconds(ours), microseconds(direct), ratio(direct, ours)]
        rows.append([*row, microseconds(same), ratio(ours, same)])
    return table(head, rows)


def least_gain(times, sizes):
    """Where among the sizes, which are every N of a range, the direct sum comes nearest to ours."""
    direct, ours = (times["each convolution", who] for who in ("direct", "ours"))
    n = min(sizes, key=lambda n: direct[n] / ours[n])
    return (
        f"Of all N from {min(sizes)} to {max(sizes)} the gain is least at N = {n}, where etru_convolve is "
        f"{ratio(direct[n], ours[n])} times as fast as the direct sum in C.\n"
    )


def doubling(times, sizes):
    """How many times the cost of N that of 2N is, wherever both are among the sizes."""
    rows = []
    for n in sizes:
        if 2 * n in sizes:
            costs = (times["convolution", who] for who in ("ours", "direct", "same"))
            rows.append([f"{n:,} → {2 * n:,}", *(ratio(by_n[2 * n], by_n[n]) for by_n in costs)])
    return table(["N", "etru_convolve", "direct sum in C", "same algorithm in C"], rows)


def f_times_e(times, sizes):
    head = ["N", "by rotations in C µs", "by halving in C µs", "etru_convolve(f, e) µs"]
    head += ["halving in C / rotations in C"]
    rows = []
    for n in sizes:
        rotations, halving, ours = (times["f × e", who][n] for who in ("rotations", "halving", "ours"))
        rows.append([f"{n:,}", *map(microseconds, (rotations, halving, ours)), ratio(halving, rotations)])
    return table(head, rows)


def product_modulo_2(times, sizes):
    rows = []
    for n in sizes:
        rotations, classes = (times["F2 × product", who][n] for who in ("rotations", "classes"))
        rows.append([f"{n:,}", microseconds(rotations), microseconds(classes), ratio(rotations, classes)])
    return table(["N", "by rotations in C µs", "by classes in C µs", "times as fast"], rows)


def opening_before_and_now(times, sizes):
    head = ["N", "etru_open µs", "both products by rotations in C µs", "etru_open / it"]
    head += ["f × e by rotations, F2 × it by classes, in C µs"]
    rows = []
    for n in sizes:
        ours, rotations, same = (times["opening", who][n] for who in ("ours", "rotations", "same"))
        row = [f"{n:,}", microseconds(ours), microseconds(rotations), ratio(ours, rotations)]
        rows.append([*row, microseconds(same)])
    return table(head, rows)


def full_bundles(times, sizes):
    head = ["N", "entries", "making µs", "walking µs", "opening all µs", "opening, each µs"]
    rows = []
    for n in sizes:
        count, making, walking, opening = (
            times[what, "bundle"][n] for what in ("entries", "making", "walking", "opening")
        )
        rows.append([f"{n:,}", f"{count:,.0f}", *map(microseconds, (making, walking, opening, opening / count))])
    return table(head, rows)


def libntru_note(times, sizes):
    libntru = times.get(("product", LIBNTRU[0]))
    if libntru is None:
        return "\nlibntru was not installed.\n"
    if math.inf in (libntru[n] for n in sizes):
        return "\n“beyond”: 2N is above the largest degree that libntru has room for, 1,499.\n"
    return ""


def measured(times, sizes, convolution_sizes, every_n, modulo_2_sizes, bundle_sizes, machine):
    return (
        f"Measured on {machine}.\n\nSealing and opening:\n\n{sealing_and_opening(times, sizes)}"
        f"{libntru_note(times, sizes)}\nConvolution:\n\n{convolution(times, convolution_sizes)}"
        f"\n{least_gain(times, every_n)}"
        f"\nConvolution, how many times the cost when N doubles:\n\n{doubling(times, convolution_sizes)}"
        f"\nf × e modulo q:\n\n{f_times_e(times, convolution_sizes)}"
        f"\nThe product modulo 2:\n\n{product_modulo_2(times, modulo_2_sizes)}"
        f"\nOpening, before and now:\n\n{opening_before_and_now(times, sizes)}"
        f"\nA full bundle:\n\n{full_bundles(times, bundle_sizes)}"
    )


def put_between_marks(path, text):
    before, rest = path.read_text().split(BEGIN)
    _, after = rest.split(END)
    path.write_text(f"{before}{BEGIN}\n{text}\n{END}{after}")


# ---- Plot: both axes logarithmic, so that a ratio of times is the same height everywhere

WIDTH, HEIGHT = 760, 500
LEFT, RIGHT, TOP, BOTTOM = 80, 740, 50, 440

# Colour tells who, and the dash which call.
CURVES = [
    (("opening", "plain"), "plain C, opening", "#d55e00", "7 4"),
    (("sealing", "plain"), "plain C, sealing", "#d55e00", "none"),
    (("opening", "ours"), "ours, opening", "#0072b2", "7 4"),
    (("sealing", "ours"), "ours, sealing", "#0072b2", "none"),
    (("opening", "single"), "single rotations in C, opening", "#999999", "7 4"),
    (("sealing", "single"), "single rotations in C, sealing", "#999999", "none"),
    (("product", "libntru 2/3"), "libntru, one product at 2N", "#007a59", "2 3"),
]


def text(x, y, words, anchor="middle", more=""):
    return f'<text x="{x:.1f}" y="{y:.1f}" text-anchor="{anchor}"{more}>{words}</text>'


def line(x1, y1, x2, y2, style):
    return f'<line x1="{x1:.1f}" y1="{y1:.1f}" x2="{x2:.1f}" y2="{y2:.1f}" {style}/>'


def scale(low, high, start, end):
    """The place of a number on a logarithmic axis from `low` at `start` to `high` at `end`."""
    return lambda number: start + (end - start) * math.log(number / low) / math.log(high / low)


def axes(x, y, sizes, decades):
    grid = 'stroke="#d8d8d8"'
    parts = []
    for n in sizes:
        parts += [line(x(n), TOP, x(n), BOTTOM, grid), text(x(n), BOTTOM + 20, f"{n:,}")]
    for time in decades:
        parts += [line(LEFT, y(time), RIGHT, y(time), grid), text(LEFT - 8, y(time) + 4, f"{time:,}", "end")]
    middle = (TOP + BOTTOM) / 2
    return parts + [
        f'<rect x="{LEFT}" y="{TOP}" width="{RIGHT - LEFT}" height="{BOTTOM - TOP}" fill="none" stroke="#444444"/>',
        text((LEFT + RIGHT) / 2, BOTTOM + 46, "N, coefficients"),
        text(20, middle, "time of one call, µs", more=f' transform="rotate(-90 20 {middle})"'),
    ]


def curve(points, colour, dash):
    path = " ".join(f"{px:.1f},{py:.1f}" for px, py in points)
    dots = [f'<circle cx="{px:.1f}" cy="{py:.1f}" r="3" fill="{colour}"/>' for px, py in points]
    return [
        f'<polyline points="{path}" fill="none" stroke="{colour}" stroke-width="2" stroke-dasharray="{dash}"/>',
        *dots,
    ]


def plot(times):
    curves = []
    for key, name, colour, dash in CURVES:
        points = sorted((n, time) for n, time in times.get(key, {}).items() if time != math.inf)
        if points:
            curves.append((name, colour, dash, points))
    numbers = [n for *_, points in curves for n, _ in points]
    all_times = [time for *_, points in curves for _, time in points]
    low, high = math.floor(math.log10(min(all_times))), math.ceil(math.log10(max(all_times)))
    powers = [2**k for k in range(1, 11) if min(numbers) <= 2**k <= max(numbers)]
    x = scale(min(numbers) * 0.93, max(numbers) * 1.07, LEFT, RIGHT)
    y = scale(10.0**low, 10.0**high, BOTTOM, TOP)

    title = "Time of one call against N, s and t about 2N/3"
    parts = [
        f'<svg xmlns="http://www.w3.org/2000/svg" viewBox="0 0 {WIDTH} {HEIGHT}" width="{WIDTH}" height="{HEIGHT}"'
        ' font-family="sans-serif" font-size="14" fill="#222222">',
        f"<title>{title}</title>",
        # readable on a dark page too
        f'<rect width="{WIDTH}" height="{HEIGHT}" fill="#ffffff"/>',
        text((LEFT + RIGHT) / 2, 30, title, more=' font-size="16"'),
        *axes(x, y, powers, [10**k for k in range(low, high + 1)]),
    ]
    for place, (name, colour, dash, points) in enumerate(curves):
        parts += curve([(x(n), y(time)) for n, time in points], colour, dash)
        level = TOP + 24 + 22 * place
        parts += curve([(LEFT + 20, level), (LEFT + 60, level)], colour, dash)
        parts.append(text(LEFT + 72, level + 5, name, "start"))
    return "\n".join([*parts, "</svg>", ""])


def main():
    parser = argparse.ArgumentParser()
    parser.add_argument("--machine", required=True)
    parser.add_argument("--table", type=int, nargs="+", required=True)
    parser.add_argument("--convolutions", type=int, nargs="+", required=True)
    parser.add_argument("--every", type=int, nargs="+", required=True)
    parser.add_argument("--modulo-2", type=int, nargs="+", required=True)
    parser.add_argument("--bundles", type=int, nargs="+", required=True)
    parser.add_argument("data", type=pathlib.Path)
    arguments = parser.parse_args()

    times = read_records(arguments.data)
    sizes = (arguments.table, arguments.convolutions, arguments.every, arguments.modulo_2, arguments.bundles)
    report = measured(times, *sizes, arguments.machine)
    print(report, end="")
    put_between_marks(DOCS / "PERFORMANCE.md", report)
    (DOCS / "performance.svg").write_text(plot(times))


if __name__ == "__main__":
    main()
