"""Results by cells, and tables of them: medians, and behind each how far the least and the greatest are apart, in percent of it."""

import math
import statistics
from collections import defaultdict
from collections.abc import Callable, Sequence
from dataclasses import asdict, is_dataclass


class Results:
    """Values by cell: the measurement, what it is of, and the kind of group."""

    def __init__(self) -> None:
        self.values: dict[tuple, list] = defaultdict(list)
        self.tried: dict[tuple, int] = defaultdict(int)

    def begin(self, cell: tuple) -> None:
        """A value of a cell is tried to be had."""
        self.tried[cell] += 1

    def add(self, cell: tuple, value: object) -> None:
        """Adds a value of a cell."""
        self.values[cell].append(value)

    def plain(self) -> list[dict]:
        """All values, as JSON has them."""
        return [
            {"cell": list(cell), "values": [asdict(value) if is_dataclass(value) else value for value in values]}
            for cell, values in self.values.items()
        ]

    def rows(self, measurement: str) -> list[tuple]:
        """What the cells of a measurement are of, in the order in which they were begun."""
        return list(dict.fromkeys(cell[1:-1] for cell in self.tried if cell[0] == measurement))

    def shown(self, cell: tuple, of: Callable[[object], float]) -> str:
        """The median of a cell's values, with their spread, and of how many it is if some are missing; "-" if there is none."""
        values = [number for number in map(of, self.values.get(cell, [])) if not math.isnan(number)]
        if not values:
            return "-"
        middle = statistics.median(values)
        digits = 0 if middle >= 100 or float(middle).is_integer() else 1 if middle >= 10 else 2
        spread = f" ±{(max(values) - min(values)) / middle / 2:.0%}" if middle and min(values) < max(values) else ""
        missing = f" ({len(values)} of {self.tried[cell]})" if len(values) < self.tried[cell] else ""
        return f"{middle:,.{digits}f}{spread}{missing}"


def printed(title: str, heads: Sequence[str], rows: Sequence[Sequence[str]]) -> None:
    """Prints a table."""
    widths = [max(map(len, column)) for column in zip(heads, *rows)]

    def line(words: Sequence[str]) -> str:
        return "| " + " | ".join(word.ljust(width) for word, width in zip(words, widths)) + " |"

    print(f"\n{title}\n\n{line(heads)}\n|{'|'.join('-' * (width + 2) for width in widths)}|")
    print("\n".join(map(line, rows)), flush=True)
