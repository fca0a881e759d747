"""Tries the auditor on texts, as they are and changed.

    try_audit.py [--program PROGRAM] [--count COUNT] [--seed SEED] FOLDER...

Each FOLDER has texts NAME.txt. If a NAME.line is beside one, tools/audit.py must write that line. Any other text of a play must agree, or end in
` void from K`. If there is a NAME.said, tools/explain.py must say that of the bad line. COUNT texts are made by changing one of these at one to three
places. The word `audit` of a PROGRAM must write the same of each text, changed or not. It prints what fails, and how many texts passed.
"""

import argparse
import pathlib
import random
import sys
from collections import Counter

import audit
import explain
from running import run

# no texts of plays
OTHER = {"about.txt", "sentences.txt"}
# words that stand in texts, and some that don't
WORDS = [b"0", b"1", b"2", b"3", b"15", b"16", b"01", b"2000000000", b"2000000001", b"1/2", b"1/1", b"0,1", b"1,0", b"-", b"61", b"6A", b"r1", b"r0", b"", b":", b"|",
         b"empty", b"lawful", b"{", b"view", b"data", b"join", b"leave", b"group", b"log", b"send", b"take", b"done", b"return", b"1.0", b"2.1", b"took", b"queued", b"sent"]


def told(data: bytes) -> tuple[int, bytes, bytes]:
    """Status, output and errors that tools/audit.py has for a text."""
    try:
        line, status = audit.audit(data)
    except audit.BadText as bad:
        return 8, b"", f"{bad}\n".encode()
    return status, f"{line}\n".encode(), b""


def answered(program: str, data: bytes) -> tuple[int, bytes, bytes]:
    """The same of a program."""
    ran = run([program, "audit"], data)
    return ran.returncode, ran.stdout, ran.stderr


def renumbered(lines: list[bytes]) -> list[bytes]:
    """Events and the group list counted anew."""
    events = entries = 0
    counted = []
    for line in lines:
        head, *rest = line.split(b" ", 2)
        if head.isdigit() and rest:
            events += 1
            line = b" ".join([b"%d" % events, *rest])
        elif head == b"group" and len(rest) == 2:
            entries += 1
            line = b" ".join([head, b"%d" % entries, rest[1]])
        counted.append(line)
    return counted


def other_word(line: bytes, draw: random.Random) -> bytes:
    """A line with one word changed."""
    words = line.split(b" ")
    place = draw.randrange(len(words))
    word = words[place]
    words[place] = b"%d" % max(0, int(word) + draw.choice((-1, 1))) if word.isdigit() and draw.random() < 0.6 else draw.choice(WORDS)
    return b" ".join(words)


def other_byte(line: bytes, draw: random.Random) -> bytes:
    """A line with one byte or two changed, added or left out."""
    place = draw.randrange(len(line) + 1)
    return line[:place] + draw.choice((b"", bytes([draw.randrange(256)]), b"0", b" ", b"/2")) + line[place + draw.randrange(2):]


def changed(data: bytes, draw: random.Random) -> bytes:
    """A text with one to three changes, most often counted anew."""
    lines = data.split(b"\n")[:-1]
    for _ in range(draw.choice((1, 1, 2, 3))):
        place, other = draw.randrange(len(lines)), draw.randrange(len(lines))
        match draw.randrange(8):
            case 0 if len(lines) > 1:
                del lines[place]
            case 1:
                lines.insert(other, lines[place])
            case 2:
                lines[place], lines[other] = lines[other], lines[place]
            case 3:
                lines[place] = other_byte(lines[place], draw)
            case _:
                lines[place] = other_word(lines[place], draw)
    if draw.random() < 0.7:
        lines = renumbered(lines)
    text = b"\n".join(lines) + b"\n"
    return text[:draw.randrange(len(text))] if draw.random() < 0.01 else text


def is_right(path: pathlib.Path, data: bytes) -> bool:
    """Whether a text is told the line beside it; a play's agrees, or is void."""
    status, output, errors = told(data)
    wanted, said = path.with_suffix(".line"), path.with_suffix(".said")
    if said.exists():
        number = int(errors.split()[-1])
        return errors == wanted.read_bytes() and explain.of_text(data, number) == said.read_text().rstrip("\n")
    if wanted.exists():
        return output + errors == wanted.read_bytes()
    return status == 0 or b" void from " in output


def main() -> int:
    """Audits all texts."""
    words = argparse.ArgumentParser(description=__doc__, formatter_class=argparse.RawDescriptionHelpFormatter)
    words.add_argument("--program", help="the command whose word audit must tell the same")
    words.add_argument("--count", type=int, default=0, help="how many changed texts")
    words.add_argument("--seed", type=int, default=1, help="of the changes")
    words.add_argument("folders", nargs="+", type=pathlib.Path)
    given = words.parse_args()
    passed = failed = 0
    texts: list[bytes] = []
    verdicts: Counter[str] = Counter()

    def count(right: bool, what: object) -> None:
        """Counts a try, and prints one that failed."""
        nonlocal passed, failed
        passed, failed = passed + right, failed + (not right)
        if not right:
            print(what)

    for path in sorted(path for folder in given.folders for path in folder.glob("*.txt") if path.name not in OTHER):
        texts.append(path.read_bytes())
        count(is_right(path, texts[-1]), f"{path}: {told(texts[-1])}")
        if given.program:
            count(answered(given.program, texts[-1]) == told(texts[-1]), f"{path}: {answered(given.program, texts[-1])}, and not {told(texts[-1])}")
    draw = random.Random(given.seed)
    small = [text for text in texts if len(text) <= 20_000]
    for _ in range(given.count):
        text = changed(draw.choice(small), draw)
        wanted = told(text)
        verdicts[(wanted[1] or wanted[2]).decode().split(" ")[0].strip()] += 1
        if given.program:
            count(answered(given.program, text) == wanted, f"{text!r}: {answered(given.program, text)}, and not {wanted}")
    if given.count:
        print("of changed texts: " + ", ".join(f"{word} {times}" for word, times in verdicts.most_common()))
    print(f"{len(texts)} texts, {passed} passed, {failed} failed")
    return 1 if failed or not passed else 0


if __name__ == "__main__":
    sys.exit(main())
