"""Draws what was measured of three members: throughput and latency of all groups, as bars."""

import html
import statistics

from measure import Flood, Single
from table import Results

WIDTH, LEFT, RIGHT, BAR, GAP, HEAD = 760, 210, 130, 15, 26, 34
COLOURS = ["#1b6ca8", "#0a3d62", "#3c9d9b", "#0f6e6c", "#c0392b", "#e08e45", "#888888", "#444444"]
STYLE = "text{font:13px sans-serif;fill:#222} .head{font-weight:bold} .small{font-size:12px;fill:#555} rect.back{fill:#fff}"


def middle(results: Results, cell: tuple) -> float | None:
    """The median of a cell, as it is drawn: messages a second, or microseconds to the last member's delivery."""
    values = results.values.get(cell, [])
    shown = [value.rate if isinstance(value, Flood) else value.last for value in values if isinstance(value, Flood | Single)]
    return statistics.median(shown) if shown else None


def panels(results: Results) -> list[tuple[str, str, tuple]]:
    """What is drawn: a title, a unit, and what the cells begin with."""
    found = [("One message of 64 bytes at a time, to the last member: median", "us", ("latency", 3, shown)) for shown in ("open", "sealed")]
    sizes = sorted({cell[2] for cell in results.values if cell[0] == "throughput"})
    found += [(f"Messages of {size:,} bytes a second, all send", "a second", ("throughput", 3, size, "all", "sealed")) for size in sizes]
    return found


def bars(results: Results, prefix: tuple, groups: list[str]) -> list[tuple[str, float, str]]:
    """The bars of a panel: the group, its value, its colour."""
    values = ((group, middle(results, (*prefix, group)), colour) for group, colour in zip(groups, COLOURS * 2))
    return [(group, value, colour) for group, value, colour in values if value is not None]


def drawn(results: Results, groups: list[str]) -> str:
    """The picture, in SVG."""
    lines, at = [], 10
    for title, unit, prefix in panels(results):
        those = bars(results, prefix, groups)
        if not those:
            continue
        most = max(value for _, value, _ in those)
        sealed = "sealed" if "sealed" in prefix else "open"
        lines.append(f'<text class="head" x="10" y="{at + 16}">{html.escape(title)}, 3 members, {sealed}</text>')
        at += HEAD
        for group, value, colour in those:
            long = max(1, round((WIDTH - LEFT - RIGHT) * value / most))
            name = f"Muoswyld, {group}" if group.startswith("r = ") else group
            lines.append(f'<text x="{LEFT - 8}" y="{at + 12}" text-anchor="end">{html.escape(name)}</text>')
            lines.append(f'<rect x="{LEFT}" y="{at}" width="{long}" height="{BAR}" fill="{colour}"/>')
            lines.append(f'<text class="small" x="{LEFT + long + 6}" y="{at + 12}">{value:,.0f} {unit}</text>')
            at += BAR + 5
        at += GAP
    size = f'width="{WIDTH}" height="{at}" viewBox="0 0 {WIDTH} {at}"'
    back = f'<rect class="back" width="{WIDTH}" height="{at}"/>'
    return "\n".join([f'<svg xmlns="http://www.w3.org/2000/svg" {size}>', f"<style>{STYLE}</style>", back, *lines, "</svg>", ""])
