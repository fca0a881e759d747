"""Lists where the sources answer that there was no memory, and compares with the list of these places that has the reasons.

    memory.py SOURCES LIST

No clause can say that memory sufficed. So this list is short, and a reader can check each place: memory was asked for there. Each place
has the conditions that lead to it in its function, from the outermost on. So one condition more makes it another place.
"""

import re
import sys
from collections.abc import Iterator
from pathlib import Path

from words import words

MADE = re.compile(r"\b(NoMemory|NO_MEMORY|AllocError)\b(?!\s*>)")
SAID = re.compile(r"^\s*(//|use |pub use |ghost |ensures |requires |impl |#)")
# what opens a block without being a condition
BLOCK = re.compile(r"(impl|mod|trait|struct|enum|loop)\b")
FUNCTION = re.compile(r'(pub |pub\(crate\) )?(const |extern "C" )?fn\b')
CLOSING = re.compile(r"[)\]{]|\}(?! else)")


def depth(line: str) -> int:
    """How far a line is indented."""
    return len(line) - len(line.lstrip(" "))


def opening(lines: list[str], at: int) -> tuple[int, str]:
    """The line at which the statement begins whose block is opened at the end of a line, and its text without the brace."""
    begins = at
    while begins > 0 and (not lines[begins].strip() or depth(lines[begins]) > depth(lines[at]) or CLOSING.match(lines[begins].strip())):
        begins -= 1
    text = " ".join(line.strip() for line in lines[begins : at + 1] if not SAID.match(line))
    return begins, text.removesuffix("{").strip()


def conditions(lines: list[str], at: int) -> list[str]:
    """What leads to a line within its function, from the outermost on."""
    found: list[str] = []
    level = depth(lines[at])
    while at > 0 and level > 0:
        at -= 1
        line = lines[at]
        # behind an `else` stand the conditions of the branches before it, at its own depth
        below = level + 1 if found and found[0].startswith("} else") else level
        if SAID.match(line) or depth(line) >= below or not line.rstrip().endswith("{"):
            continue
        at, text = opening(lines, at)
        if FUNCTION.match(text):
            break
        level = depth(lines[at])
        if not BLOCK.match(text):
            found.insert(0, text)
    return found


def made_in(text: str) -> Iterator[str]:
    """The lines that make it with their conditions, without tests."""
    lines = text.split("#[cfg(test)]")[0].splitlines()
    for at, line in enumerate(lines):
        code = line.strip()
        if SAID.match(line) or "->" in code or re.match(r"fn |pub fn |type |pub type ", code):
            continue
        # where it is matched, what stands before the arrow isn't made
        after = code.split("=>")[-1] if "=>" in code else code
        after = re.sub(r"== [\w:]+", "", after)
        if MADE.search(after) and code != "NoMemory,":
            yield " > ".join([*conditions(lines, at), code])


def places(sources: str) -> Iterator[str]:
    """All places of the sources, each with its file."""
    for path in sorted(Path(sources).glob("*/src/**/*.rt")):
        if path.name == "tests.rt" or path.name.endswith("_tests.rt"):
            continue
        for code in made_in(path.read_text()):
            yield f"{path.relative_to(sources)}: {code}"


def main(sources: str, wanted: str) -> int:
    """Compares the places with the list."""
    found = list(places(sources))
    listed = [line for line in Path(wanted).read_text().splitlines() if line and not line.startswith("#")]
    for line in found:
        if line not in listed:
            print(f"refused: {line} isn't in {wanted}")
    for line in listed:
        if line not in found:
            print(f"refused: {line} of {wanted} isn't there")
    return 0 if sorted(found) == sorted(listed) else 1


if __name__ == "__main__":
    sys.exit(main(*words(__doc__, 2, 2)))
