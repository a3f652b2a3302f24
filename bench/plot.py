"""Plots of measures, as SVG: panels with lines of points, each told apart by colour, marker and dashes, on a background of their own."""
from dataclasses import dataclass
from html import escape
from math import ceil, floor, log10

# of the colours that Okabe and Ito chose to be told apart by all readers; each has enough contrast with white
STYLES = [("#0072B2", "circle", "none"), ("#D55E00", "square", "none"), ("#B0518A", "triangle", "7 4"), ("#00795A", "diamond", "2 4")]
WIDTH, HEIGHT = 450, 340
LEFT, RIGHT, TOP, BOTTOM = 86, 18, 66, 52
INK, GRID, PAPER = "#222222", "#dddddd", "#ffffff"
MARK = 4.5


@dataclass
class Panel:
    """A heading, the names of both axes, the places with a number on the axis across, and for each line its name and its points."""

    heading: str
    across: str
    up: str
    ticks: list
    lines: list


def number(value):
    return f"{value:,.0f}" if value >= 10 or value == int(value) else f"{value:.1f}"


def rounded_up(greatest):
    """A round number of no less, and how far the numbers on the axis are apart."""
    power = 10 ** floor(log10(greatest))
    step = next(step for step in [power / 5, power / 2, power, 2 * power] if greatest / step <= 6)
    return step * ceil(greatest / step), step


def text(x, y, words, anchor="middle", size=13, extra=""):
    return f'<text x="{x:.1f}" y="{y:.1f}" text-anchor="{anchor}" font-size="{size}" fill="{INK}"{extra}>{escape(words)}</text>'


def stroke(x, y, to_x, to_y, colour):
    return f'<line x1="{x:.1f}" y1="{y:.1f}" x2="{to_x:.1f}" y2="{to_y:.1f}" stroke="{colour}"/>'


def marker(shape, x, y, colour):
    """A mark at a point, with a rim as the paper, so that those that meet are told apart."""
    rim = f'fill="{colour}" stroke="{PAPER}" stroke-width="1"'
    if shape == "circle":
        return f'<circle cx="{x:.1f}" cy="{y:.1f}" r="{MARK}" {rim}/>'
    corners = {
        "square": [(-1, -1), (1, -1), (1, 1), (-1, 1)],
        "triangle": [(0, -1.2), (1.2, 1), (-1.2, 1)],
        "diamond": [(0, -1.4), (1.4, 0), (0, 1.4), (-1.4, 0)],
    }[shape]
    points = " ".join(f"{x + MARK * right:.1f},{y + MARK * down:.1f}" for right, down in corners)
    return f'<polygon points="{points}" {rim}/>'


class Drawing:
    """The axes of a panel, and where its points come to stand."""

    def __init__(self, panel, offset):
        self.panel, self.left, self.right = panel, offset + LEFT, offset + WIDTH - RIGHT
        self.most_across = max(panel.ticks)
        self.most_up, self.step = rounded_up(max(y for _, points in panel.lines for _, y in points))

    def place(self, x, y):
        return (
            self.left + (self.right - self.left) * x / self.most_across,
            HEIGHT - BOTTOM - (HEIGHT - BOTTOM - TOP) * y / self.most_up,
        )

    def axes(self):
        middle, bottom = (self.left + self.right) / 2, HEIGHT - BOTTOM
        yield text(middle, 22, self.panel.heading, size=15, extra=' font-weight="bold"')
        for k in range(round(self.most_up / self.step) + 1):
            _, y = self.place(0, k * self.step)
            yield stroke(self.left, y, self.right, y, INK if k == 0 else GRID)
            yield text(self.left - 8, y + 4, number(k * self.step), anchor="end")
        for tick in self.panel.ticks:
            x, _ = self.place(tick, 0)
            yield stroke(x, bottom, x, bottom + 5, INK)
            yield text(x, bottom + 19, number(tick))
        yield text(middle, HEIGHT - 10, self.panel.across)
        x, y = self.left - 66, (TOP + bottom) / 2
        yield text(x, y, self.panel.up, extra=f' transform="rotate(-90 {x:.1f} {y:.1f})"')

    def lines(self):
        for (_, points), (colour, shape, dashes) in zip(self.panel.lines, STYLES):
            places = [self.place(*point) for point in points]
            path = " ".join(f"{x:.1f},{y:.1f}" for x, y in places)
            yield f'<polyline points="{path}" fill="none" stroke="{colour}" stroke-width="2" stroke-dasharray="{dashes}"/>'
            yield from (marker(shape, x, y, colour) for x, y in places)

    def names(self):
        """What each line is, above the panel."""
        x, y = self.left, 46
        for (name, _), (colour, shape, dashes) in zip(self.panel.lines, STYLES):
            yield f'<line x1="{x:.1f}" y1="{y}" x2="{x + 26:.1f}" y2="{y}" stroke="{colour}" stroke-width="2" stroke-dasharray="{dashes}"/>'
            yield marker(shape, x + 13, y, colour)
            yield text(x + 32, y + 4, name, anchor="start", size=12)
            x += 56 + 7 * len(name)


def plot(path, title, description, panels):
    """Writes a plot with these panels beside each other; title and description are for readers who do not see it."""
    width = WIDTH * len(panels)
    parts = [
        f'<svg xmlns="http://www.w3.org/2000/svg" viewBox="0 0 {width} {HEIGHT}" width="{width}" height="{HEIGHT}" role="img" aria-labelledby="title desc">',
        f'<title id="title">{escape(title)}</title>',
        f'<desc id="desc">{escape(description)}</desc>',
        f'<rect width="{width}" height="{HEIGHT}" fill="{PAPER}"/>',
        '<g font-family="Helvetica, Arial, sans-serif">',
    ]
    for place, panel in enumerate(panels):
        drawing = Drawing(panel, place * WIDTH)
        parts += [*drawing.axes(), *drawing.lines(), *drawing.names()]
    with open(path, "w") as file:
        file.write("\n".join([*parts, "</g>", "</svg>", ""]))
