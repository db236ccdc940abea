"""Draws the picture of docs/BENCHMARKS.md, time against entries, for bench/run."""
import html
import math

COLUMNS, PANEL_W, PANEL_H, TOP, BOTTOM = 3, 370, 330, 90, 10
WIDTH = COLUMNS * PANEL_W
LEFT, RIGHT, ABOVE, BELOW = 62, 58, 30, 52  # around the axes of a panel

# How each is drawn: its colour, its mark and its name.
STYLES = {
    "library": ("#0b5fbf", "circle", "this project"),
    "plain": ("#4a4a4a", "square", "plain Rust"),
    "bcder": ("#b8580b", "triangle", "bcder"),
    "rpki-client": ("#a3164e", "diamond", "rpki-client -f"),
}


def unit(seconds):
    """A time, as short as it can be read."""
    for size, name in (1e-9, "ns"), (1e-6, "µs"), (1e-3, "ms"), (1, "s"):
        if seconds < 999.5 * size or name == "s":
            number = seconds / size
            return f"{number:.3g} {name}" if number < 99.5 else f"{number:.0f} {name}"
    return ""


def text(x, y, said, size=12, anchor="middle", colour="#222", more=""):
    return (f'<text x="{x:.1f}" y="{y:.1f}" font-size="{size}" text-anchor="{anchor}" '
            f'fill="{colour}"{more}>{html.escape(said)}</text>')


def mark(kind, x, y, colour, size=4):
    if kind == "circle":
        return f'<circle cx="{x:.1f}" cy="{y:.1f}" r="{size}" fill="{colour}"/>'
    corners = {"square": ((-1, -1), (1, -1), (1, 1), (-1, 1)),
               "triangle": ((0, -1.2), (1.1, 0.9), (-1.1, 0.9)),
               "diamond": ((0, -1.3), (1.3, 0), (0, 1.3), (-1.3, 0))}[kind]
    points = " ".join(f"{x + size * dx:.1f},{y + size * dy:.1f}" for dx, dy in corners)
    return f'<polygon points="{points}" fill="{colour}"/>'


class Panel:
    """One kind: lines of points (entries, seconds), each in a style, and dashed or not."""

    def __init__(self, number, title, entries, lines):
        column, row = number % COLUMNS, number // COLUMNS
        self.x0, self.y0 = column * PANEL_W + LEFT, TOP + row * PANEL_H + ABOVE
        self.x1 = (column + 1) * PANEL_W - RIGHT
        self.y1 = TOP + (row + 1) * PANEL_H - BELOW
        self.title, self.entries, self.lines = title, entries, lines
        points = [point for _, _, line in lines for point in line]
        self.xs = self.decades(x for x, _ in points)
        self.ys = self.decades(y for _, y in points)

    @staticmethod
    def decades(values):
        values = list(values)
        low, high = math.floor(math.log10(min(values))), math.ceil(math.log10(max(values)))
        return low, max(high, low + 1)

    def x(self, entries):
        low, high = self.xs
        return self.x0 + (self.x1 - self.x0) * (math.log10(entries) - low) / (high - low)

    def y(self, seconds):
        low, high = self.ys
        return self.y1 - (self.y1 - self.y0) * (math.log10(seconds) - low) / (high - low)

    def axes(self):
        middle = (self.x0 + self.x1) / 2
        yield text(middle, self.y0 - 12, self.title, 14, more=' font-weight="bold"')
        for power in range(self.xs[0], self.xs[1] + 1):
            x = self.x(10.0**power)
            yield f'<path d="M{x:.1f} {self.y0}V{self.y1}" stroke="#ddd"/>'
            yield text(x, self.y1 + 16, f"{10**power:,}", 11)
        for power in range(self.ys[0], self.ys[1] + 1):
            y = self.y(10.0**power)
            yield f'<path d="M{self.x0} {y:.1f}H{self.x1}" stroke="#ddd"/>'
            yield text(self.x0 - 6, y + 4, unit(10.0**power), 11, "end")
        yield (f'<path d="M{self.x0} {self.y0}V{self.y1}H{self.x1}" stroke="#222" fill="none"/>')
        yield text((self.x0 + self.x1) / 2, self.y1 + 34, self.entries, 12)

    def drawn(self):
        yield from self.axes()
        ends = []
        for style, is_dashed, line in self.lines:
            colour, kind, _ = STYLES[style]
            places = [(self.x(x), self.y(y)) for x, y in line]
            path = "L".join(f"{x:.1f} {y:.1f}" for x, y in places)
            dash = ' stroke-dasharray="6 4"' if is_dashed else ""
            yield f'<path d="M{path}" stroke="{colour}" stroke-width="2" fill="none"{dash}/>'
            yield from (mark(kind, x, y, colour) for x, y in places)
            ends.append([places[-1][1] + 4, places[-1][0], unit(line[-1][1]), colour])
        # (the times at the right ends, moved apart where they meet)
        ends.sort(reverse=True)
        for end, before in zip(ends[1:], ends):
            end[0] = min(end[0], before[0] - 12)
        yield from (text(x + 8, y, said, 11, "start", colour) for y, x, said, colour in ends)


def legend(styles, has_dashes):
    x = 20
    for style in styles:
        colour, kind, name = STYLES[style]
        yield f'<path d="M{x} 56h34" stroke="{colour}" stroke-width="2"/>'
        yield mark(kind, x + 17, 56, colour)
        yield text(x + 42, 60, name, 13, "start")
        x += 62 + 7.5 * len(name)
    if has_dashes:
        for dash, name in ("", "certificate of 2 blocks"), ("6 4", "of 1,000 blocks"):
            yield (f'<path d="M{x} 56h34" stroke="#222" stroke-width="2" '
                   f'stroke-dasharray="{dash}"/>')
            yield text(x + 42, 60, name, 13, "start")
            x += 62 + 7.2 * len(name)


def picture(title, panels):
    """The picture of panels: a title, the name of what is counted, and lines."""
    drawn = [Panel(number, *panel) for number, panel in enumerate(panels)]
    named = {line[0] for panel in drawn for line in panel.lines}
    used = [style for style in STYLES if style in named]
    has_dashes = any(it[1] for panel in drawn for it in panel.lines)
    height = TOP + math.ceil(len(panels) / COLUMNS) * PANEL_H + BOTTOM
    parts = [
        f'<svg xmlns="http://www.w3.org/2000/svg" viewBox="0 0 {WIDTH} {height}" '
        f'width="{WIDTH}" height="{height}" font-family="Helvetica, Arial, sans-serif">',
        f"<title>{html.escape(title)}</title>",
        f'<rect width="{WIDTH}" height="{height}" fill="white"/>',
        text(20, 30, title, 17, "start", more=' font-weight="bold"'),
        *legend(used, has_dashes),
    ]
    for panel in drawn:
        parts += panel.drawn()
    return "\n".join([*parts, "</svg>"]) + "\n"
