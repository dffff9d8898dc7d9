"""Draws SVG charts: curves on logarithmic axes in panels, and bars of ratios. Both are legible on
white and dark pages."""

import math
from dataclasses import dataclass
from xml.sax.saxutils import escape

INK, PALE, GRID = "#222222", "#666666", "#e6e6e6"
COLOURS = ["#1b6ca8", "#d95f02", "#7f7f7f", "#7b4fa3", "#2a9d5c"]  # ours first
FASTER, SLOWER = COLOURS[0], COLOURS[1]
WIDTH, HEIGHT = 210, 190  # of a panel
LEFT, TOP, GAP, BELOW = (
    62,
    58,
    112,
    66,
)  # around a panel: axis labels, title, labels of lines, title of the axis
BAR, LABELS, SCALE = (
    30,
    270,
    330,
)  # of a chart of bars: height of a row, width of its labels, width of its scale

Points = list[tuple[int, float]]
Rows = list[tuple[str, float, str]]  # a label, a ratio, and what is written at the bar


@dataclass(frozen=True)
class Panel:
    """A title, the name of the horizontal axis, and lines by their names."""

    title: str
    across: str
    lines: dict[str, Points]

    def counts(self) -> list[int]:
        return sorted({count for points in self.lines.values() for count, _ in points})


@dataclass(frozen=True)
class Scale:
    """Maps a logarithmic range to a range of pixels."""

    low: float
    high: float
    start: float
    end: float

    def at(self, value: float) -> float:
        share = (math.log10(value) - math.log10(self.low)) / (
            math.log10(self.high) - math.log10(self.low)
        )
        return self.start + share * (self.end - self.start)


def text(
    x: float,
    y: float,
    words: str,
    anchor: str = "start",
    colour: str = INK,
    size: int = 11,
    more: str = "",
) -> str:
    return (
        f'<text x="{x:.1f}" y="{y:.1f}" text-anchor="{anchor}" fill="{colour}" '
        f'font-size="{size}"{more}>{escape(words)}</text>'
    )


def picture(width: float, height: float, title: str, description: str, parts: list[str]) -> str:
    """A whole picture on a white ground, with a title and a description for readers who do not see
    it."""
    head = (
        f'<svg xmlns="http://www.w3.org/2000/svg" viewBox="0 0 {width:.0f} {height:.0f}" '
        'font-family="sans-serif" role="img" aria-labelledby="title desc">'
    )
    names = (
        f'<title id="title">{escape(title)}</title><desc id="desc">{escape(description)}</desc>'
    )
    ground = f'<rect width="{width:.0f}" height="{height:.0f}" rx="6" fill="white"/>'
    return "\n".join([head, names, ground, *parts, "</svg>", ""])


# ---- curves ----


def curves(title: str, below: str, up: str, panels: list[Panel]) -> str:
    """Panels of curves with one vertical scale, whose name is `up`. A line has its name at its
    end, and one colour in all panels."""
    names = list(dict.fromkeys(name for panel in panels for name in panel.lines))
    colours = dict(zip(names, COLOURS)) if len(names) <= len(COLOURS) else {}
    figures = [
        figure for panel in panels for points in panel.lines.values() for _, figure in points
    ]
    low, high = bound(min(figures), math.floor), bound(max(figures), math.ceil)
    parts = [
        text(LEFT - 44, 24, title, size=15, more=' font-weight="bold"'),
        text(LEFT - 44, 42, below, colour=PALE),
    ]
    columns = 2 if len(panels) in (2, 4) else 3
    for place, panel in enumerate(panels):
        left, top = LEFT + place % columns * (
            WIDTH + GAP + LEFT - 20
        ), TOP + 22 + place // columns * (HEIGHT + BELOW)
        parts += drawn(
            panel,
            left,
            top,
            colours,
            Scale(low, high, top + HEIGHT, top),
            up if place % columns == 0 else "",
        )
    rows = -(-len(panels) // columns)
    width = LEFT + columns * (WIDTH + GAP) + (columns - 1) * (LEFT - 20)
    return picture(
        width,
        TOP + 22 + rows * (HEIGHT + BELOW),
        title,
        f"{below} Panels: {', '.join(panel.title for panel in panels)}.",
        parts,
    )


def bound(figure: float, whole) -> float:
    """The next of 1, 3, 10, 30 .. on the side that `whole` rounds to."""
    steps = [digit * 10**power for power in range(-2, 9) for digit in (1, 3)]
    return (
        max(step for step in steps if step <= figure)
        if whole is math.floor
        else min(step for step in steps if step >= figure)
    )


def drawn(
    panel: Panel, left: float, top: float, colours: dict[str, str], scale: Scale, up: str
) -> list[str]:
    own = colours or dict(zip(panel.lines, COLOURS))
    parts = [text(left, top - 8, panel.title, size=12, more=' font-weight="bold"')]
    for tick in [digit * 10**power for power in range(-2, 9) for digit in (1, 3)]:
        if scale.low <= tick <= scale.high:
            y = scale.at(tick)
            parts.append(
                f'<line x1="{left}" x2="{left + WIDTH}" y1="{y:.1f}" y2="{y:.1f}" '
                f'stroke="{GRID}"/>'
            )
            parts.append(text(left - 6, y + 4, f"{tick:,}", "end", PALE))
    counts = panel.counts()
    over = Scale(counts[0], counts[-1], left + 8, left + WIDTH - 8)
    for count in counts:
        parts.append(text(over.at(count), top + HEIGHT + 16, short(count), "middle", PALE))
    parts.append(text(left + WIDTH / 2, top + HEIGHT + 34, panel.across, "middle", PALE))
    if up:
        x, y = left - 48, top + HEIGHT / 2
        parts.append(
            text(x, y, up, "middle", PALE, more=f' transform="rotate(-90 {x:.1f} {y:.1f})"')
        )
    ends = spread(
        {name: scale.at(points[-1][1]) for name, points in panel.lines.items()}, top, top + HEIGHT
    )
    for name, points in panel.lines.items():
        places = [(over.at(count), scale.at(figure)) for count, figure in points]
        path = " ".join(f"{x:.1f},{y:.1f}" for x, y in places)
        parts.append(
            f'<polyline points="{path}" fill="none" stroke="{own[name]}" stroke-width="2"/>'
        )
        parts += [
            f'<circle cx="{x:.1f}" cy="{y:.1f}" r="2.8" fill="{own[name]}"/>' for x, y in places
        ]
        parts.append(text(left + WIDTH + 4, ends[name] + 4, name, colour=own[name]))
    return parts


def spread(ends: dict[str, float], top: float, bottom: float) -> dict[str, float]:
    """Places for the names at the lines' ends, 13 pixels apart."""
    found, last = {}, top - 13
    for name, y in sorted(ends.items(), key=lambda it: it[1]):
        found[name] = last = max(y, last + 13)
    over = max(0.0, last - bottom)
    return {name: y - over for name, y in found.items()}


def short(count: int) -> str:
    """A number in at most four signs, where it is round."""
    for unit, sign in (1_000_000, "M"), (1_000, "k"):
        if count >= unit:
            return f"{count // unit}{sign}"
    return str(count)


# ---- bars ----


def bars(title: str, below: str, rows: Rows) -> str:
    """Bars from 1 to each ratio on a logarithmic scale: to the left what is below 1, to the right
    what is above."""
    low, high = bound(min(ratio for _, ratio, _ in rows), math.floor), bound(
        max(ratio for _, ratio, _ in rows), math.ceil
    )
    left, top = LABELS, 76
    scale, bottom = Scale(low, high, left, left + SCALE), top + BAR * len(rows)
    parts = [
        text(16, 24, title, size=15, more=' font-weight="bold"'),
        text(16, 42, below, colour=PALE),
    ]
    for tick in (0.1, 0.2, 0.5, 1, 2, 5, 10, 20):
        if low <= tick <= high:
            x, line = scale.at(tick), INK if tick == 1 else GRID
            parts.append(
                f'<line x1="{x:.1f}" x2="{x:.1f}" y1="{top - 6}" y2="{bottom}" stroke="{line}"/>'
            )
            parts.append(text(x, top - 12, f"{tick:g}x", "middle", PALE))
    one = scale.at(1)
    for place, (label, ratio, note) in enumerate(rows):
        y, x = top + BAR * place, scale.at(ratio)
        colour = FASTER if ratio <= 1 else SLOWER
        parts.append(
            f'<rect x="{min(x, one):.1f}" y="{y + 5}" width="{max(abs(x - one), 1):.1f}" '
            f'height="{BAR - 10}" fill="{colour}"/>'
        )
        parts.append(text(left - 10, y + BAR / 2 + 4, label, "end"))
        parts.append(text(left + SCALE + 12, y + BAR / 2 + 4, note, colour=colour))
    parts.append(text(one - 8, bottom + 18, "better than ets", "end", FASTER))
    parts.append(text(one + 8, bottom + 18, "worse than ets", "start", SLOWER))
    described = "; ".join(f"{label}: {ratio:g} times ets" for label, ratio, _ in rows)
    return picture(left + SCALE + 270, bottom + 34, title, described, parts)
