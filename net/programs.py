"""The commands that a cluster runs: a member, the program whose word `play` judges, and the one that judges journals of any length."""

import pathlib
import shlex
import shutil

TOP = pathlib.Path(__file__).resolve().parent.parent
PROGRAM = TOP / "crates" / "am_sim" / "out" / "am_sim"
MEMBER = TOP / "runtime" / "target" / "release" / "muoswyldd"
JUDGE = TOP / "runtime" / "target" / "release" / "judge"


class NoProgram(OSError):
    """Why there is no such command."""


def command_of(words: str | None, built: pathlib.Path, builds: str) -> list[str]:
    """A command: the words as a shell splits them, and where there are none the program that is built here."""
    try:
        command = [str(built)] if words is None else shlex.split(words)
    except ValueError as error:
        raise NoProgram(f"{words}: {error}") from error
    if not command or shutil.which(command[0]) is None:
        hint = f"; `{builds}` builds it" if words is None else ""
        raise NoProgram(f"{command[0] if command else 'the program'!r} isn't there, or can't be run{hint}")
    return command


def judge_of(words: str | None) -> list[str]:
    """The command whose word `play` judges."""
    return command_of(words, PROGRAM, "./muoswyld build")


def member_of(words: str | None) -> list[str]:
    """The command whose word `run` is a member."""
    return command_of(words, MEMBER, "tools/runtime.py")


def long_judge_of(words: str | None) -> list[str]:
    """The command that judges journals of any length."""
    return command_of(words, JUDGE, "tools/runtime.py")
