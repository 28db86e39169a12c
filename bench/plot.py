"""A plot of small panels as SVG: time (log) against the number of types."""

import math

OURS, RUST, INK, GRID = "#1b6ca8", "#c8553d", "#333333", "#dddddd"
WIDE, HIGH, LEFT, TOP, COLUMNS = 300, 190, 62, 44, 3
INNER_W, INNER_H = 210, 120
MOST = 64
SIDES = [("ours", OURS, ""), ("the Rust's functions", RUST, ""), ("the Rust from bytes", RUST, "3 3")]


def text(x, y, words, anchor="start", size=11, color=INK, weight="normal"):
    return (f'<text x="{x:.1f}" y="{y:.1f}" text-anchor="{anchor}" font-size="{size}" '
            f'font-weight="{weight}" fill="{color}">{words}</text>')


def line(points, color, dashes=""):
    path = " ".join(f"{x:.1f},{y:.1f}" for x, y in points)
    dots = "".join(f'<circle cx="{x:.1f}" cy="{y:.1f}" r="2" fill="{color}"/>' for x, y in points)
    dashed = f' stroke-dasharray="{dashes}"' if dashes else ""
    return f'<polyline points="{path}" fill="none" stroke="{color}" stroke-width="1.6"{dashed}/>{dots}'


def power_text(power):
    """A power of ten of nanoseconds."""
    unit, over = ("ns", 0) if power < 3 else ("µs", 3) if power < 6 else ("ms", 6) if power < 9 else ("s", 9)
    return f"{10 ** (power - over)} {unit}"


class Scale:
    """Where a size and a time stand in a panel."""

    def __init__(self, times):
        self.low = math.floor(math.log10(min(times)))
        self.high = math.ceil(math.log10(max(times)))

    def at(self, size, time):
        up = (math.log10(time) - self.low) / (self.high - self.low)
        return size / MOST * INNER_W, INNER_H - up * INNER_H

    def grid(self):
        out = []
        for power in range(self.low, self.high + 1):
            _, y = self.at(0, 10 ** power)
            out.append(f'<line x1="0" y1="{y:.1f}" x2="{INNER_W}" y2="{y:.1f}" stroke="{GRID}"/>')
            out.append(text(-6, y + 4, power_text(power), "end", 10))
        for size in (0, 16, 32, 48, 64):
            out.append(text(size / MOST * INNER_W, INNER_H + 15, size, "middle", 10))
        return out


def panel(scale, title, curves):
    """One family; a curve that stops before the last size is said to have no end there."""
    out = [text(0, -10, title, size=12, weight="bold"), *scale.grid()]
    for points, (_, color, dashes) in zip(curves, SIDES):
        if points:
            places = [scale.at(*point) for point in points]
            out.append(line(places, color, dashes))
    stopped = curves[1]
    if stopped and stopped[-1][0] < curves[0][-1][0]:
        x, y = scale.at(*stopped[-1])
        out.append(text(x + 6, y + 4, "then no end", color=RUST, size=10))
    return out


def legend(wide):
    """What the lines are, at the upper right."""
    out, x = [], wide - 430
    for name, color, dashes in SIDES:
        out.append(line([(x, 18), (x + 26, 18)], color, dashes))
        out.append(text(x + 32, 22, name))
        x += 60 + 6.2 * len(name)
    return out


def panels(title, families):
    """The whole picture; the panels share their scale of time. A family is a title and, for each
    side, its points."""
    scale = Scale([time for _, curves in families for curve in curves for _, time in curve])
    rows = math.ceil(len(families) / COLUMNS)
    wide, high = COLUMNS * WIDE + 20, rows * HIGH + TOP + 10
    out = [f'<svg xmlns="http://www.w3.org/2000/svg" viewBox="0 0 {wide} {high}" '
           f'width="{wide}" height="{high}" font-family="sans-serif">',
           f'<rect width="{wide}" height="{high}" fill="white"/>',
           text(16, 22, title, size=14, weight="bold"), *legend(wide)]
    for at, (name, curves) in enumerate(families):
        x, y = LEFT + at % COLUMNS * WIDE, TOP + 24 + at // COLUMNS * HIGH
        out.append(f'<g transform="translate({x},{y})">')
        out += panel(scale, name, curves)
        out.append("</g>")
    return "\n".join(out) + "\n</svg>\n"
