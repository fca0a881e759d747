#!/usr/bin/env python3
"""crates.py [--compare] [--heads FILE]

Writes the tables of crates in docs/ARCHITECTURE.md, between the two marks there, from crates.txt and the heads of the crates' sources.
A table has the crates of a group of crates.txt. Of each it has the first paragraph of its head (`//!` in src/lib.rt or src/main.rt), and
the crates that it builds on: those of its line in crates.txt that no other crate of the line depends on.

With --compare it writes nothing, and ends with 1 if the page has other tables. With --heads it first gives crates new heads: each line of
FILE is a crate, a tab, and the text of its first paragraph.
"""

import pathlib
import sys
import textwrap
from typing import NamedTuple

TOP = pathlib.Path(__file__).resolve().parent.parent
PAGE = TOP / "docs" / "ARCHITECTURE.md"
BEGIN = "<!-- gate/crates.py writes the tables up to the next mark, from crates.txt and crates' heads. -->"
END = "<!-- Up to here. -->"
WIDTH = 140


class Crate(NamedTuple):
    """A line of crates.txt: a crate, and the crates of this project that it depends on."""

    name: str
    needs: list[str]


def groups(text: str) -> list[tuple[str, list[Crate]]]:
    """The groups of crates.txt, each with its title and its crates."""
    found: list[tuple[str, list[Crate]]] = []
    for line in text.splitlines():
        if line.startswith("# "):
            found.append((line[2:], []))
        elif line.strip():
            name, _, needs = line.partition(":")
            found[-1][1].append(Crate(name.split()[0], needs.split()))
    names = {crate.name for _, crates in found for crate in crates}
    return [(title, [Crate(name, [need for need in needs if need in names]) for name, needs in crates]) for title, crates in found]


def below(name: str, needs: dict[str, list[str]]) -> set[str]:
    """All crates that a crate depends on, by others too."""
    found: set[str] = set()
    ahead = list(needs[name])
    while ahead:
        crate = ahead.pop()
        if crate not in found:
            found.add(crate)
            ahead.extend(needs[crate])
    return found


def builds_on(crate: Crate, needs: dict[str, list[str]]) -> list[str]:
    """The crates that a crate depends on, without those that another of them depends on."""
    return [need for need in crate.needs if not any(need in below(other, needs) for other in crate.needs if other != need)]


def source(name: str) -> pathlib.Path:
    """The source whose head says what a crate is."""
    folder = TOP / "crates" / name / "src"
    return folder / "lib.rt" if (folder / "lib.rt").exists() else folder / "main.rt"


def paragraph(lines: list[str]) -> int:
    """How many lines the first paragraph of a head has."""
    for count, line in enumerate(lines):
        if not line.startswith("//! "):
            return count
    return len(lines)


def head(name: str) -> str:
    """The first paragraph of a crate's head, in one line."""
    lines = source(name).read_text().splitlines()
    return " ".join(line.removeprefix("//! ").strip() for line in lines[: paragraph(lines)])


def give_head(name: str, text: str) -> None:
    """Gives a crate a head with this first paragraph; what follows it stays."""
    path = source(name)
    lines = path.read_text().splitlines()
    wrapped = textwrap.wrap(text, WIDTH - 4, break_long_words=False, break_on_hyphens=False)
    path.write_text("\n".join([f"//! {line}" for line in wrapped] + lines[paragraph(lines) :]) + "\n")


def tables(listed: list[tuple[str, list[Crate]]]) -> str:
    """The tables of all groups."""
    needs = {crate.name: crate.needs for _, crates in listed for crate in crates}
    parts = []
    for title, crates in listed:
        rows = [f"| {crate.name} | {head(crate.name)} | {', '.join(builds_on(crate, needs))} |".replace("|  |", "| |") for crate in crates]
        parts.append("\n".join([f"### {title[0].upper()}{title[1:]}", "", "| crate | what it is | builds on |", "|---|---|---|", *rows]))
    return "\n\n".join(parts)


def main() -> None:
    """Writes the tables, or compares them."""
    words = sys.argv[1:]
    if words[:1] in (["-h"], ["--help"]):
        print((__doc__ or "").strip())
        return
    if words[:1] == ["--heads"] and len(words) == 2:
        for line in pathlib.Path(words[1]).read_text().splitlines():
            name, _, text = line.partition("\t")
            give_head(name, text)
    elif words not in ([], ["--compare"]):
        print((__doc__ or "").strip(), file=sys.stderr)
        sys.exit(2)
    page = PAGE.read_text()
    before, _, rest = page.partition(BEGIN)
    _, mark, after = rest.partition(END)
    if not mark:
        sys.exit("crates.py: docs/ARCHITECTURE.md doesn't have both marks")
    written = f"{before}{BEGIN}\n\n{tables(groups((TOP / 'crates.txt').read_text()))}\n\n{END}{after}"
    if words == ["--compare"]:
        if written != page:
            sys.exit("crates.py: docs/ARCHITECTURE.md has other tables of crates; call gate/crates.py to write them")
    else:
        PAGE.write_text(written)


if __name__ == "__main__":
    main()
