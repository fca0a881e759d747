"""Tries tools/picture.py on texts of plays, as they are and changed.

    try_picture.py FOLDER...

Each FOLDER has scripts NAME.json with their texts NAME.txt; scripts without a text are left out. Each picture must be XML. It must have a
mark for each event that it draws, with the event's line in it, and an arrow for each letter that was heard. A page to step through it must
have the picture and each event. Each View that an application was given must be the one that the picture has at this number. Of the texts
1,000 are changed at one to three places: each must be drawn, or refused as no text of a play. It prints what fails, and how many passed.
"""

import pathlib
import random
import sys
import xml.etree.ElementTree as xml
from collections.abc import Iterator

import picture
import playtext
import stepping
from try_audit import changed
from words import words

SVG = "{http://www.w3.org/2000/svg}"


def faults(text: bytes) -> Iterator[str]:
    """What is wrong with the picture of a text."""
    events, group, mark = playtext.read(text)
    run = playtext.Run(events, group)
    for event in run.events:
        if event.outcome[:1] == ["took"] and event.outcome[2] == "view":
            entry = run.node(event.name).has.get(int(event.outcome[1]))
            if entry != ("view", playtext.stamp_of(event.outcome[3])):
                yield f"event {event.number}: the picture has {entry}"
    drawing = picture.Picture(run, group, mark)
    text_drawn = drawing.draw()
    drawn = xml.fromstring(text_drawn)
    lines = [title.text for title in drawn.iterfind(f"{SVG}g/{SVG}title")]
    if lines != [event.line for event in run.events]:
        yield f"{len(lines)} marks for {len(run.events)} events"
    heard = sum(e.outcome[0] != "refused" for letter in run.letters.values() for _, _, e in letter.heard)
    heads = len(drawn.findall(f"{SVG}polygon")) - len(drawing.used & {"arrow", "again"})
    if heads != heard:
        yield f"{heads} arrows for {heard} letters that were heard"
    shown = {number for event in run.events for number in range(event.number, (event.last or event.number) + 1)}
    left_out = [e for e in events if e.number not in shown and e.outcome != ["idle"]]
    if left_out:
        yield f"event {left_out[0].number} isn't drawn"
    bands = {drawing.stamps.index(stamp) % 4 for node in run.nodes.values() for _, stamp in node.bands}
    explained = {fill for fill in range(4) if text_drawn.count(f'height="16" fill="url(#view{fill})"') > 0}
    if bands - {0} != explained - {0}:
        yield f"the legend has the views' fills {explained}, and the picture {bands}"
    page = stepping.page(drawing, text_drawn)
    if text_drawn not in page or page.count('"line":') != len(run.events):
        yield "the page to step through it lacks the picture or an event"
    if page.count(f"<title>{picture.escape(drawing.title())}</title>") != 2:
        yield "the page to step through it has another title than the picture"


def faults_of_changed(text: bytes) -> Iterator[str]:
    """What is wrong with what comes of a text that was changed."""
    try:
        events, group, mark = playtext.read(text)
        picture.Picture(playtext.Run(events, group), group, mark).draw()
    except playtext.NoText:
        pass
    except Exception as error:  # whatever it is
        yield f"{error!r} at {text!r}"


def main() -> None:
    """Draws all texts, and changed ones."""
    passed = failed = 0
    scripts = (script for folder in words(__doc__, 1) for script in sorted(pathlib.Path(folder).glob("*.json")))
    paths = [script.with_suffix(".txt") for script in scripts if script.with_suffix(".txt").exists()]
    draw, small = random.Random(1), [text for text in (path.read_bytes() for path in paths) if len(text) <= 4_000]
    tried = [(str(path), faults(path.read_bytes())) for path in paths]
    tried += [("a changed text", faults_of_changed(changed(draw.choice(small), draw))) for _ in range(1_000 if small else 0)]
    for what, found in tried:
        wrong = list(found)
        passed, failed = passed + (not wrong), failed + bool(wrong)
        for line in wrong:
            print(f"{what}: {line}")
    print(f"{passed} texts passed, {failed} failed")
    sys.exit(1 if failed or not passed else 0)


if __name__ == "__main__":
    main()
