"""The words of a tool's call, what it reads, and how it ends."""

import contextlib
import os
import pathlib
import sys
from collections.abc import Callable


def words(doc: str | None, least: int = 0, most: int | None = None) -> list[str]:
    """The words after the tool's name. There must be so many, and no option that its page doesn't name. Otherwise, or if the page is asked for,
    it prints the page and ends."""
    given, page = sys.argv[1:], (doc or "").strip()
    if given[:1] in (["-h"], ["--help"]):
        print(page)
        sys.exit(0)
    is_option = any(word.startswith("-") and word not in page for word in given)
    if is_option or len(given) < least or (most is not None and most < len(given)):
        print(page, file=sys.stderr)
        sys.exit(2)
    return given


def taken(most: int = -1) -> bytes:
    """Standard input, or the first bytes of it."""
    with open(0, "rb", closefd=False) as source:
        return source.read(most)


def printable(text: str) -> str:
    """A text in one line, with escapes for characters that aren't to be printed, such as newlines and those that terminals obey."""
    return "".join(letter if letter.isprintable() else letter.encode("unicode_escape").decode() for letter in text)


def end(main: Callable[[], int | str | None]) -> None:
    """Ends with the status of a tool after everything is written, or with a line that says what is wrong, for example with a file that it names
    or with its output."""
    tool = pathlib.Path(sys.argv[0]).name
    if sys.stdout is None:
        sys.exit(f"{tool}: standard output is closed")
    try:
        try:
            status = main()
        except SystemExit as ended:
            status = ended.code
        sys.stdout.flush()
    except KeyboardInterrupt:
        status = 130
    except OSError as error:
        status = f"{error.filename}: {error.strerror}" if error.filename else error.strerror or str(error)
        with contextlib.suppress(OSError):
            sys.stdout.flush()
        os.dup2(os.open(os.devnull, os.O_WRONLY), 1)  # what can't be written isn't tried again
    sys.exit(f"{tool}: {status}" if isinstance(status, str) else status)
