#!/usr/bin/env python3
"""Draws the text of a play or a race as a space-time diagram.

    tools/picture.py < TEXT > PICTURE.svg
    tools/picture.py --html < TEXT > RUN.html

It has a column for each name and an event in each row; time goes downwards. A letter is an arrow from the event that sent it to each event
that heard it. The end of the picture explains the marks. Ticks of places that take no part aren't drawn, and ticks in a row of which nobody
hears anything are drawn as one. With --html it is a page to step through the run, one file that needs nothing else.
"""

import html
import sys
from typing import Any

from playtext import Event, Letter, NoText, Run, Stamp, key_of, read, short
from stepping import page
from words import end, printable, taken, words

# a point; and a box, or a straight line: two points
Point = tuple[float, float]
Box = tuple[float, float, float, float]

FAR = 30            # a letter that is heard so many rows later is drawn as two ends with its number
ROW = 24            # the height of an event
HEAD = 46           # the height of a line of names
HEAD_EVERY = 40     # so many events below each line of names
COLUMNS = (112, 205) # from one name to the next, at least and at most
BAND = 34           # the width of a view's band
LEFT = 16
TEXT_MOST = 44      # letters of an event in the margin
LETTER = 7.25       # the width of a letter there
SMALL = 6.3         # the width of a letter of the words beside a mark
SANS = "'DejaVu Sans', Verdana, Helvetica, sans-serif"
MONO = "'DejaVu Sans Mono', Menlo, Consolas, monospace"
DOTTED, DASHED, VOID, RETURNED = "1.5 4", "6 4", "10 3 2 3", "2 3"

# the marks, and what they mean
LEGEND = [
    ("dot", "another event"), ("numbered", "entry numbered"), ("stored", "stored"), ("taken", "given to the application"),
    ("arrow", "letter heard"), ("again", "heard again"), ("lost", "never heard"), ("cut", "cut, and refused"),
    ("far", "heard later, by its number"),
    ("stop", "stopped"), ("end", "departed"), ("begin", "returned"), ("band", "in a view"),
    ("band1", "in the next view"), ("band2", "in the third"), ("band3", "in the fourth"), ("leads", "its sequencer"),
    ("dotted", "not a member"),
    ("void", "from here on the run isn't lawful"),
]


def escape(text: str) -> str:
    """A text as it stands in SVG."""
    return html.escape(text, quote=True)


def tag(name: str, inside: str = "", **attributes: Any) -> str:
    """An element of SVG."""
    def value(of: Any) -> str:
        """An attribute's value."""
        return f"{of:.1f}".removesuffix(".0") if isinstance(of, float) else escape(str(of))
    said = "".join(f' {key.replace("_", "-")}="{value(of)}"' for key, of in attributes.items() if of is not None)
    return f"<{name}{said}>{inside}</{name}>" if inside else f"<{name}{said}/>"


def overlap(one: Box, other: Box) -> bool:
    """Whether two boxes overlap."""
    return one[0] < other[2] and other[0] < one[2] and one[1] < other[3] and other[1] < one[3]


def crosses(segment: Box, box: Box) -> bool:
    """Whether a straight line goes through a box."""
    x1, y1, x2, y2 = segment
    first, last = 0.0, 1.0
    for start, way, least, most in ((x1, x2 - x1, box[0], box[2]), (y1, y2 - y1, box[1], box[3])):
        if way == 0:
            if not least < start < most:
                return False
            continue
        near, far = sorted(((least - start) / way, (most - start) / way))
        first, last = max(first, near), min(last, far)
    return first < last


class Picture:
    """The picture of a run, drawn part by part."""

    def __init__(self, run: Run, group: list[list[str]], mark: str) -> None:
        """A run, its group list, and the last line of its text."""
        self.run, self.group, self.mark = run, group, mark
        self.names = sorted(run.nodes, key=key_of)
        self.rows = len(run.events)
        self.columns: dict[str, float] = dict(zip(self.names, range(len(self.names))))
        self.place()
        self.stamps = sorted({s for n in run.nodes.values() for _, s in n.bands}, key=lambda s: (s[0], key_of(s[1])))
        self.under: list[str] = []
        self.lines: list[str] = []
        self.marks: list[str] = []
        self.words: list[str] = []
        self.used = {"band"}                # of the marks, for the legend
        self.segments: list[Box] = []       # of the arrows
        self.boxes: list[Box] = []          # of the words beside marks

    def place(self) -> None:
        """Where the columns stand, with room for the words beside them."""
        first, last = self.names[0], self.names[-1]
        wide: dict[int, list[tuple[str, float]]] = {1: [], -1: []}
        for event in self.run.events:
            wide[self.label_side(event)].append((event.name, self.label_wide(event)))
        inner = [w for n, w in wide[1] if n != last] + [w for n, w in wide[-1] if n != first]
        column = min(max([w + 24 for w in inner] + [COLUMNS[0]]), COLUMNS[1])
        longest = max([len(self.margin(e)) for e in self.run.events] + [15])
        start = LEFT + longest * LETTER + 24 + max([w for n, w in wide[-1] if n == first] + [BAND / 2])
        self.columns = {name: start + k * column for k, name in enumerate(self.names)}
        self.side = self.columns[last] + max([w for n, w in wide[1] if n == last] + [BAND]) + 34

    def label_text(self, event: Event) -> str:
        """The words beside a mark."""
        return event.label + (f" {self.view_text(event.view)}" if event.view else "")

    def label_wide(self, event: Event) -> float:
        """How wide a mark and the words beside it are, from its middle on."""
        return self.half(event) + 6 + SMALL * len(self.label_text(event))

    def margin(self, event: Event) -> str:
        """An event's text in the margin."""
        text = event.text
        return text if len(text) <= TEXT_MOST else text[:TEXT_MOST - 1] + "\u2026"

    def y(self, row: int) -> float:
        """The height of an event; row -1 is the first line of names."""
        blocks = max(row, 0) // HEAD_EVERY
        return 24 + (blocks + 1) * HEAD + (row + 0.5) * ROW

    def draw(self) -> str:
        """The whole picture."""
        self.heads()
        for name in self.names:
            self.lifeline(name)
        for letter in self.run.letters.values():
            self.letter(letter)
        for event in self.run.events:
            self.event(event)
        self.void_line()
        end = self.group_list()
        bottom = max(self.y(self.rows - 1) + ROW, end) + 18
        height = self.legend(bottom)
        width = self.width()
        ground = tag("rect", width="100%", height="100%", fill="white")
        parts = [tag("title", escape(self.title())), self.patterns(), ground]
        parts += self.under + self.lines + self.marks + self.words
        size = f"{width:.0f}", f"{height:.0f}"
        return tag("svg", "\n" + "\n".join(parts) + "\n", xmlns="http://www.w3.org/2000/svg",
                   width=size[0], height=size[1], viewBox=f"0 0 {size[0]} {size[1]}") + "\n"

    def title(self) -> str:
        """What the picture is of."""
        return f"A play of {self.rows} events, {self.mark}"

    def width(self) -> float:
        """The width of the picture."""
        longest = max([len(self.entry_text(e)) for e in self.group] + [10])
        return max(self.side + longest * LETTER + 24, 640)

    def patterns(self) -> str:
        """Bands of views differ by a hatching, so that they do without colours."""
        lines = ["", '<path d="M-2,2 l4,-4 M0,8 l8,-8 M6,10 l4,-4" stroke="#9a8a70" stroke-width="0.9"/>',
                 '<circle cx="2" cy="2" r="0.9" fill="#5f8a66"/><circle cx="6" cy="6" r="0.9" fill="#5f8a66"/>',
                 '<path d="M0,4 h8" stroke="#8d7797" stroke-width="0.9"/>']
        fills = ["#e6edf7", "#fbf1df", "#e6f4e6", "#f2e8f5"]
        tiles = [tag("rect", width=8, height=8, fill=fill) + line for fill, line in zip(fills, lines)]
        return tag("defs", "".join(tag("pattern", tile, id=f"view{k}", width=8, height=8, patternUnits="userSpaceOnUse")
                                   for k, tile in enumerate(tiles)))

    def text(self, x: float, y: float, words: str, size: float = 12, anchor: str | None = None, face: str = SANS, weight: str | None = None,             fill: str = "#111", halo: bool = False) -> str:
        """Words at a point."""
        edge = dict(stroke="white", stroke_width=3.5, stroke_linejoin="round", paint_order="stroke") if halo else {}
        style = "white-space: pre" if "  " in f" {words}" else None
        return tag("text", escape(words), x=x, y=y, font_size=size, text_anchor=anchor, font_family=face, font_weight=weight,
                   fill=fill, style=style, **edge)

    def heads(self) -> None:
        """The names, above every so many events."""
        for row in range(0, max(self.rows, 1), HEAD_EVERY):
            y = self.y(row) - ROW / 2 - HEAD + 20
            self.words.append(self.text(LEFT, y, "event : outcome", weight="bold"))
            for name, x in self.columns.items():
                self.words.append(self.text(x, y, name, size=15, anchor="middle", weight="bold", halo=True))

    def lifeline(self, name: str) -> None:
        """A name's line, dotted while it isn't a member, and its views' bands."""
        node, x = self.run.nodes[name], self.columns[name]
        last = self.y(self.rows - 1) + ROW / 2
        start = self.y(-1) if node.begins is None else self.y(node.begins)
        end = last if node.ends is None else self.y(node.ends)
        for (row, stamp), after in zip(node.bands, node.bands[1:] + [(None, None)]):
            top, bottom = self.y(row), end if after[0] is None else self.y(after[0])
            fill = self.stamps.index(stamp) % 4
            self.under.append(self.band(x - BAND / 2, top, BAND, max(bottom - top, 2), fill))
            self.used |= {f"band{fill}"} if fill else set()
            if stamp[1] == name:
                self.used.add("leads")
                self.under.append(self.leads(x, top, max(bottom - top, 2)))
            if row == -1:
                self.words.append(self.text(x, top + 4, self.view_text(stamp), size=11, anchor="middle", halo=True))
        joined = start if node.member_from == -1 else end if node.member_from is None else self.y(node.member_from)
        if start < joined:
            self.used.add("dotted")
            self.under.append(self.line(x, start, x, joined, DOTTED))
        self.under.append(self.line(x, joined, x, end))
        if end < last:
            self.under.append(self.line(x, end, x, last, DOTTED, "#bbb"))

    def band(self, x: float, y: float, width: float, height: float, fill: int) -> str:
        """A part of a view's band."""
        return tag("rect", x=x, y=y, width=width, height=height, fill=f"url(#view{fill})", stroke="#999", stroke_width=0.7)

    def leads(self, x: float, y: float, height: float) -> str:
        """The mark along the band of a view's sequencer."""
        return tag("rect", x=x - BAND / 2, y=y, width=4, height=height, fill="#444")

    def line(self, x1: float, y1: float, x2: float, y2: float, dashes: str | None = None, colour: str = "#555", width: float = 1.2) -> str:
        """A straight line."""
        return tag("line", x1=x1, y1=y1, x2=x2, y2=y2, stroke=colour, stroke_width=width, stroke_dasharray=dashes)

    def view_text(self, stamp: Stamp) -> str:
        """A view by its stamp, in words."""
        return f"view {stamp[0]}.{stamp[1]}"

    def half(self, event: Event) -> float:
        """Half of the width of an event's mark."""
        if event.mark in ("numbered", "stored", "taken"):
            return max(9, 4 + 3.9 * len(str(event.entry)))
        return {"dot": 3.5, "stop": 7, "end": 8, "begin": 6}[event.mark]

    def letter(self, letter: Letter) -> None:
        """Arrows to those that heard a letter, and short ends towards those that never did."""
        sending = self.run.events[letter.row]
        x, y = self.columns[letter.sender], self.y(letter.row)
        seen: set[str] = set()
        for row, name, hearing in letter.heard:
            side = 1 if x < self.columns[name] else -1
            again, word = name in seen, hearing.outcome[0]
            x2 = self.columns[name] - side * (self.half(hearing) + 1)
            if row - letter.row > FAR and word != "refused":
                self.used.add("far")
                self.stub(x + side * self.half(sending), y, side, letter.number)
                self.arrow(x2 - side * 24, self.y(row) - 7, x2, self.y(row), again, word, letter.number)
            else:
                self.arrow(x + side * self.half(sending), y, x2, self.y(row), again, word)
            if word != "refused":
                seen.add(name)
        lost = [n for n in letter.to if n not in seen] if letter.to is not None else [] if seen else ["all"]
        cut = {name for _, name, _ in letter.heard}
        for side in sorted({self.side_of(letter.sender, n) for n in lost if n not in cut}):
            self.lost(x + side * self.half(sending), y, side)

    def side_of(self, sender: str, name: str) -> int:
        """The side of a sender on which a name stands: 1 for the right, -1 for the left."""
        if name == "all":
            return 1 if len(self.names) == 1 or self.names.index(sender) < len(self.names) - 1 else -1
        return 1 if self.columns[sender] < self.columns[name] else -1

    def stub(self, x: float, y: float, side: int, number: int) -> None:
        """The beginning of a letter that is heard far below, with its number."""
        ex, ey = x + side * 18, y + 6
        if (x, y, ex, ey) not in self.segments:
            self.segments.append((x, y, ex, ey))
            self.lines.append(self.line(x, y, ex, ey, None, "#222"))
            self.words.append(self.text(ex + side * 2, ey + 4, str(number), 9, None if side > 0 else "end", halo=True))

    def bow(self, x1: float, y1: float, x2: float, y2: float) -> int:
        """How far an arrow is bowed: it is if it would go close by another event, as if that event had sent it on."""
        for event in self.run.events:
            x, y = self.columns[event.name], self.y(event.row)
            if min(x1, x2) + 10 < x < max(x1, x2) - 10 and min(y1, y2) < y < max(y1, y2):
                if abs(y1 + (y2 - y1) * (x - x1) / (x2 - x1) - y) < 12:
                    return 26 if x1 < x2 else -26
        return 0

    def bowed(self, start: Point, end: Point, bow: int, dash: str | None) -> None:
        """An arrow along a curve above the straight one."""
        (x1, y1), (x2, y2) = start, end
        length = ((x2 - x1) ** 2 + (y2 - y1) ** 2) ** 0.5 or 1
        cx, cy = (x1 + x2) / 2 + bow * (y2 - y1) / length, (y1 + y2) / 2 - bow * (x2 - x1) / length
        length = ((x2 - cx) ** 2 + (y2 - cy) ** 2) ** 0.5 or 1
        ux, uy = (x2 - cx) / length, (y2 - cy) / length
        bx, by = x2 - 8 * ux, y2 - 8 * uy
        path = f"M{x1:.1f},{y1:.1f} Q{cx:.1f},{cy:.1f} {bx:.1f},{by:.1f}"
        self.lines.append(tag("path", d=path, fill="none", stroke="#222", stroke_width=1.2, stroke_dasharray=dash))
        self.head(x2, y2, ux, uy)

    def head(self, x: float, y: float, ux: float, uy: float) -> None:
        """The head of an arrow."""
        bx, by = x - 8 * ux, y - 8 * uy
        points = f"{x:.1f},{y:.1f} {bx - 3.4 * uy:.1f},{by + 3.4 * ux:.1f} {bx + 3.4 * uy:.1f},{by - 3.4 * ux:.1f}"
        self.lines.append(tag("polygon", points=points, fill="#222"))

    def arrow(self, x1: float, y1: float, x2: float, y2: float, again: bool, word: str, number: int | None = None) -> None:
        """A letter that is heard; one that is cut ends before the event."""
        if number is not None:
            side = 1 if x1 < x2 else -1
            self.words.append(self.text(x1 - side * 2, y1 + 3, str(number), 9, "end" if side > 0 else None, halo=True))
        self.segments.append((x1, y1, x2, y2))
        dx, dy = x2 - x1, y2 - y1
        length = (dx * dx + dy * dy) ** 0.5 or 1
        ux, uy = dx / length, dy / length
        dash = DASHED if again else None
        self.used.add("cut" if word == "refused" else "again" if again else "arrow")
        if word == "refused":
            x2, y2 = x2 - 14 * ux, y2 - 14 * uy
            self.lines.append(self.line(x1, y1, x2, y2, dash, "#222"))
            self.lines.append(self.line(x2 + 6 * uy, y2 - 6 * ux, x2 - 6 * uy, y2 + 6 * ux, None, "#222", 2))
            return
        if bow := self.bow(x1, y1, x2, y2):
            self.bowed((x1, y1), (x2, y2), bow, dash)
            return
        self.lines.append(self.line(x1, y1, x2 - 8 * ux, y2 - 8 * uy, dash, "#222"))
        self.head(x2, y2, ux, uy)

    def lost(self, x: float, y: float, side: int) -> None:
        """A letter that is never heard."""
        self.used.add("lost")
        ex, ey = x + side * 20, y + 9
        self.segments.append((x, y, ex, ey))
        self.lines.append(self.line(x, y, ex, ey, None, "#222"))
        self.lines.append(self.line(ex - 3.5, ey - 3.5, ex + 3.5, ey + 3.5, None, "#222", 1.4))
        self.lines.append(self.line(ex - 3.5, ey + 3.5, ex + 3.5, ey - 3.5, None, "#222", 1.4))

    def event(self, event: Event) -> None:
        """An event: its mark, its words, and its text in the margin."""
        x, y = self.columns[event.name], self.y(event.row)
        self.used.add(event.mark)
        if event.left_out:
            ticks = "an idle tick isn't" if event.left_out == 1 else f"{event.left_out} idle ticks aren't"
            self.words.append(self.text(LEFT, y - ROW / 2 + 3, f"({ticks} drawn)", 8, fill="#666"))
        self.marks.append(f'<g data-row="{event.row}" data-entry="{event.entry}"><title>{escape(event.line)}</title>')
        self.marks.append(self.shape(event.mark, x, y, self.half(event), event.entry))
        self.marks.append("</g>")
        if event.mark == "begin":
            self.returned(event, x, y)
        self.label(event, x, y)
        self.words.append(self.text(LEFT, y + 4, self.margin(event), face=MONO))

    def returned(self, event: Event, x: float, y: float) -> None:
        """From a place's last life to its next."""
        to = self.columns[f"{event.name.partition('/')[0]}/{event.outcome[1]}"]
        self.lines.append(self.line(x + 6, y, to - 6, y, RETURNED))
        self.marks.append(self.shape("begin", to, y, 6, 0))

    def label(self, event: Event, x: float, y: float) -> None:
        """The words beside a mark, at the place where the fewest arrows and words stand in the way."""
        words, side = self.label_text(event), self.label_side(event)
        if not words:
            return
        wide, off = SMALL * len(words), self.half(event) + 6
        best: tuple[int, int, int, Box, int] | None = None
        for cost, (way, down) in enumerate([(side, -3), (-side, -3), (side, 13), (-side, 13)]):
            left = x + off if way > 0 else x - off - wide
            box = (left, y + down - 10, left + wide, y + down + 3)
            if left < LEFT + LETTER * len(self.margin(event)) + 8 or self.side - 12 < left + wide:
                cost += 100
            crossed = sum(crosses(segment, box) for segment in self.segments)
            cost += 10 * crossed + 40 * sum(overlap(box, other) for other in self.boxes)
            if best is None or cost < best[0]:
                best = cost, way, down, box, crossed
        assert best is not None
        _, way, down, box, crossed = best
        self.boxes.append(box)
        if crossed:
            ground = tag("rect", x=box[0] - 2, y=box[1], width=wide + 4, height=13, fill="white", fill_opacity=0.85)
            self.words.append(ground)
        self.words.append(self.text(x + way * off, y + down, words, size=11, anchor=None if way > 0 else "end", halo=True))

    def label_side(self, event: Event) -> int:
        """The side of the words beside a mark: the one from which the heard letter doesn't come."""
        x = self.columns[event.name]
        if event.act in ("hear", "cut"):
            letter = self.run.letters.get(int(event.arguments[0]))
            if letter and self.columns[letter.sender] > x:
                return -1
        return 1

    def shape(self, mark: str, x: float, y: float, half: float, entry: int) -> str:
        """A mark: an entry's number in a box, or the sign of another event."""
        if mark in ("numbered", "stored", "taken"):
            fill = {"numbered": "#111", "stored": "white", "taken": "#d5d5d5"}[mark]
            box = tag("rect", x=x - half, y=y - 8, width=2 * half, height=16, rx=8 if mark == "taken" else None,
                      fill=fill, stroke="#111", stroke_width=1.4)
            ink = "white" if mark == "numbered" else "#111"
            return box + self.text(x, y + 4, str(entry), 11, "middle", weight="bold", fill=ink)
        if mark == "stop":
            return "".join(self.line(x - 7, y - 7 * way, x + 7, y + 7 * way, None, "#111", 2.6) for way in (1, -1))
        if mark == "end":
            return self.line(x - 8, y, x + 8, y, None, "#111", 2.6)
        if mark == "begin":
            return tag("circle", cx=x, cy=y, r=5, fill="white", stroke="#111", stroke_width=1.6)
        return tag("circle", cx=x, cy=y, r=3.5, fill="#222")

    def void_line(self) -> None:
        """The line below which the run isn't lawful."""
        words = self.mark.split()
        if words[:1] == ["void"]:
            row = next((e.row for e in self.run.events if e.number >= int(words[-1])), self.rows)
            y, right = self.y(row) - ROW / 2, self.columns[self.names[-1]] + 100
            self.used.add("void")
            self.under.append(self.line(LEFT, y, right, y, VOID, "#111", 1.4))

    def entry_text(self, entry: list[str]) -> str:
        """A line of the group list."""
        number = entry[0].rjust(len(self.group[-1][0]))
        return " ".join([number, *entry[1:3], *map(short, entry[3:])])

    def group_list(self) -> float:
        """The group list and the last line; how far down they go."""
        y = self.y(-1) - ROW / 2 - 14
        self.words.append(self.text(self.side, y, "group list", weight="bold"))
        for entry in self.group:
            y += 19
            self.words.append(self.text(self.side, y, self.entry_text(entry), face=MONO))
        y += 26
        self.words.append(self.text(self.side, y, self.mark, weight="bold"))
        return y

    def legend(self, y: float) -> float:
        """The legend of the marks, below the picture; how far down it goes."""
        parts = [(mark, words) for mark, words in LEGEND if mark in self.used]
        x, right = float(LEFT), self.width() - 20
        for mark, words in parts:
            wide = 48 + SMALL * len(words)
            if right < x + wide:
                x, y = float(LEFT), y + 26
            self.sample(mark, x + 14, y + 8)
            self.words.append(self.text(x + 36, y + 12, words, size=11))
            x += wide + 8
        return y + 36

    def sample(self, mark: str, x: float, y: float) -> None:
        """A mark of the legend."""
        if mark in ("arrow", "again", "cut"):
            self.arrow(x - 14, y, x + 14, y, mark == "again", "refused" if mark == "cut" else "")
        elif mark == "lost":
            self.lost(x - 14, y - 4, 1)
        elif mark.startswith("band"):
            self.under.append(self.band(x - 14, y - 8, 28, 16, int(mark.removeprefix("band") or 0)))
        elif mark == "leads":
            self.under.append(self.band(x - 14, y - 8, 28, 16, 0))
            self.under.append(tag("rect", x=x - 14, y=y - 8, width=4, height=16, fill="#444"))
        elif mark == "far":
            self.stub(x - 14, y, 1, 7)
        elif mark == "dotted":
            self.lines.append(self.line(x, y - 9, x, y + 9, DOTTED))
        elif mark == "void":
            self.lines.append(self.line(x - 14, y, x + 14, y, VOID, "#111", 1.4))
        else:
            self.marks.append(self.shape(mark, x, y, 9, 2))


def main() -> int | str:
    """Draws the text that is read."""
    given = words(__doc__, 0, 1)
    if given not in ([], ["--html"]):
        print((__doc__ or "").strip(), file=sys.stderr)
        return 2
    try:
        events, group, mark = read(taken())
        run = Run(events, group)
    except NoText as error:
        return printable(f"this is no text of a play: {error}")
    picture = Picture(run, group, mark)
    drawn = picture.draw()
    sys.stdout.write(page(picture, drawn) if given else drawn)
    return 0


if __name__ == "__main__":
    end(main)
