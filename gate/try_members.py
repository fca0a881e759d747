"""Tries what members of muoswyldd tell of each other, and what comes of a group in which some have stopped: a frozen member, stops beyond the
resilience, who resets and when, sends over a reset, a member that is left out, and a joiner that isn't welcomed.

    python3 gate/try_members.py PROGRAM [MEMBER]

PROGRAM is the command whose word `play` is run, MEMBER the one whose word `run` is a member, if it isn't the one that is built here. Each
part ends by itself, within some seconds. It prints what fails, and how many parts passed.
"""

import re
import signal
import time

from processes import SOON, Process, Tried, letters_of, try_parts
from words import end

from merge import KINDS  # noqa: E402
from relay import Faults, Relay  # noqa: E402

BEYOND = "2 members of a view have stopped, more than its resilience: nothing is claimed of this run from here on"
RESETS = "a member has stopped: this one resets the group"


def ended(members: dict[str, Process], wanted: int = 0) -> list[str]:
    """Ends members' inputs; what is wrong, where one has another status."""
    statuses = {name: member.end() for name, member in members.items()}
    return [] if set(statuses.values()) == {wanted} else [f"they ended with {statuses}"]


def given(members: dict[str, Process], line: str) -> list[str]:
    """Which members aren't given something."""
    return [f"{name} wasn't given {line!r}" for name, member in members.items() if not member.wants(line)]


def sends(tried: Tried, name: str) -> int:
    """How many bodies a member has given its node."""
    return tried.text(name).count("\tsend ")


def window_full(tried: Tried) -> list[str]:
    """Where a frozen member keeps the window full the sequencer tells who isn't heard and who holds it, and who sends tells that it does so; where
    the sequencer is frozen the others tell that. Then all goes on, and nothing is lost."""
    members = tried.group("0", "1", "2", more=("--window", "4"))
    members["1"].tell("send hello")
    wrong = given(members, "2 1: hello")
    for frozen, holds, told in (("2", "0", "nothing is heard of 2"), ("0", "1", "nothing is heard of 0")):
        members[frozen].signal(signal.SIGSTOP)
        for number in range(9):
            sent = sends(tried, "1") + (frozen == "2" and number < 3)
            members["1"].tell(f"send {frozen} {number} {'x' * 900}")
            # each goes out in an entry of its own, as what waits together shares one: three have room in the window, and then one fills it
            ends = time.monotonic() + SOON
            time.sleep(0.1)
            while sends(tried, "1") < sent and time.monotonic() < ends:
                time.sleep(0.01)
        wrong += [] if members[holds].wants(told) else [f"{holds} doesn't tell that {told}"]
        if frozen == "2" and not members["0"].wants("the window is full: 2 has taken less than the others, and holds them"):
            wrong.append("0 doesn't tell who holds the window")
        if frozen == "2" and not members["1"].wants("the window is full, so nothing is sent: 0 tells who holds it"):
            wrong.append("1 doesn't tell that the window is full")
        silent, slow = tried.ask(holds, "status")["silent"], tried.ask(holds, "status")["slow"]
        if silent != [frozen] or slow != ([frozen] if frozen == "2" else []):
            wrong.append(f"its status has {silent} silent, and {slow} slow")
        members[frozen].signal(signal.SIGCONT)
        for name, member in members.items():
            last = f"1: {frozen} 8 {'x' * 900}"
            ends, line = time.monotonic() + SOON, ""
            while not line.endswith(last) and time.monotonic() < ends:
                line = member.lines.get(timeout=SOON)
            wrong += [] if line.endswith(last) else [f"{name} wasn't given the last one"]
    return wrong + ended(members)


def beyond(tried: Tried) -> list[str]:
    """A member tells where more have stopped than the resilience between two resets, and not where a reset stands between them; its run goes on,
    and ends with 76."""
    wrong = []
    for is_apart, views, status in ((True, ["3 view 1,2 r1", "4 view 2 r1"], 0), (False, ["3 view 2 r1"], 76)):
        members = tried.group("0", "1", "2", more=("--least", "1"))
        members["2"].tell("send hello")
        wrong += given(members, "2 2: hello")
        members.pop("0").kill()
        lines = []
        if is_apart:
            for member in members.values():
                member.tell("stopped 0")
            lines = members["2"].until(views[0])
        members.pop("1").kill()
        members["2"].tell("stopped 1" if is_apart else "stopped 0\nstopped 1")
        lines += members["2"].until(views[-1])
        members["2"].tell("send alone")
        wrong += given(members, f"{len(views) + 3} 2: alone")
        if lines.count(BEYOND) != (not is_apart) or [line for line in lines if re.match(r"\d+ view ", line)] != views:
            wrong.append(f"{is_apart}: {lines}")
        wrong += ended(members, status)
        judged = tried.judged("0", "1", "2")
        if (judged == "lawful") != is_apart or not is_apart and not judged.startswith("void from "):
            wrong.append(f"{is_apart}: {judged}")
        for name in "012":
            tried.journal(name).unlink()
    return wrong


def left_out(tried: Tried) -> list[str]:
    """A member that is given up while it runs ends where it gets the view without it, and says so; where the others have no such view for it any
    more, it tells that nothing is heard."""
    members = tried.group("0", "1", "2")
    members["2"].tell("send hello")
    wrong = given(members, "2 2: hello")
    frozen = members.pop("2")
    frozen.signal(signal.SIGSTOP)
    for member in members.values():
        member.tell("stopped 2")
    wrong += given(members, "3 view 0,1 r1")
    frozen.signal(signal.SIGCONT)
    said = "muoswyldd: the member ended: the group goes on without it; its place comes back as its next life"
    ends, line = time.monotonic() + SOON, ""
    while line not in (said, "nothing is heard of 0") and time.monotonic() < ends:
        line = frozen.lines.get(timeout=SOON)
    if line != "nothing is heard of 0" and (line != said or frozen.status() != 69):
        wrong.append("who is left out neither ends with 69 nor tells that nothing is heard")
    return wrong + ended(members)


def too_few(tried: Tried) -> list[str]:
    """A reset that can't have its least size is told once, and comes once the size is smaller; one by hand says why it came to nothing."""
    members = tried.group("0", "1", more=("--founders", "0,1", "--least", "2"))
    members.pop("1").kill()
    members["0"].tell("stopped 1")
    wrong = [] if members["0"].wants("no reset: 1 member runs, and a reset goes on with at least 2") else ["too few aren't told"]
    time.sleep(1)
    answer = tried.ask("0", "reset 2")
    if answer != {"error": "1 member is left, of 2 at least"}:
        wrong.append(f"a reset with two is answered {answer}")
    answer = tried.ask("0", "reset 1")
    lines = members["0"].until("2 view 0 r1")
    if answer != {"reset": 2} or any(line.startswith("no reset") for line in lines) or lines[-1] != "2 view 0 r1":
        wrong.append(f"a reset with one is answered {answer}: {lines}")
    return wrong + ended(members)


def resets(tried: Tried, name: str) -> list[int]:
    """When a member began ballots, in milliseconds."""
    return [int(time) // 1000 for time in re.findall(r"^(\d+)\treset ", tried.text(name), re.MULTILINE)]


def who_resets(tried: Tried) -> list[str]:
    """Where a process has ended, the lowest running member that was told of it resets; where that one doesn't, the next one does a little
    later; and one whose ballot comes to nothing doesn't try again at once."""
    members = tried.group("0", "1", "2", more=("--least", "1"))
    members.pop("2").kill()
    for member in members.values():
        member.tell("stopped 2")
    wrong = given(members, "2 view 0,1 r1")
    if not resets(tried, "0") or resets(tried, "1"):
        wrong.append(f"the lowest is to reset: {resets(tried, '0')}, {resets(tried, '1')}")
    for name in ("2/2", "2/3"):
        members[name] = tried.start(name, "--least", "1")
        for life in ("2", "2/2"):
            if life != name:
                members[name].tell(f"stopped {life}")
        wrong += [] if members[name].wants(f"{3 if name == '2/2' else 5} joined {name}") else [f"{name} hasn't joined"]
        members.pop(name).kill()
        began = time.time_ns() // 1_000_000
        if name == "2/2":
            members["1"].tell("stopped 2/2")
            wrong += given(members, "4 view 0,1 r1")
            if not resets(tried, "1") or resets(tried, "1")[0] < began + 100:
                wrong.append(f"the next one resets at {resets(tried, '1')}, told at {began}")
            for member in members.values():
                member.tell("stopped 2/2")
    # the vote of one that is frozen doesn't come: its ballot waits, and isn't begun again and again
    members["0"].signal(signal.SIGSTOP)
    before = len(resets(tried, "1"))
    members["1"].tell("stopped 2/3")
    time.sleep(2)
    tries = len(resets(tried, "1")) - before
    members["0"].signal(signal.SIGCONT)
    wrong += given(members, "6 view 0,1 r1")
    if not 1 <= tries <= 5:
        wrong.append(f"a ballot was begun {tries} times in two seconds")
    return wrong + ended(members)


def over_a_reset(tried: Tried) -> list[str]:
    """A send whose request was lost is numbered in the view that a reset brings."""
    members = tried.group("0", "1", "2")
    members.pop("0").kill()
    members["1"].tell("send a")
    wrong = tried.lacks("1", "\tsend ")
    for member in members.values():
        member.tell("stopped 0")
    lines = members["2"].until("3 1: a")
    wrong += [] if lines[-2:] == ["2 view 1,2 r1", "3 1: a"] else [f"2 was given {lines}"]
    return wrong + ended(members)


class Cut(Relay):
    """A relay that is told which ways it cuts: of two places, of all kinds of packets or of one."""

    def __init__(self, homes: list[tuple[str, int]]) -> None:
        super().__init__(homes, Faults())
        self.cut: dict[tuple[int, int], int | None] = {}

    def carries(self, sender: int, reader: int, data: bytes) -> bool:
        """Whether the way isn't cut."""
        if (sender, reader) not in self.cut:
            return True
        kind = self.cut[sender, reader]
        return kind is not None and all(packet[3] != kind for packet in letters_of(data))


def fetching(tried: Tried) -> list[str]:
    """A ballot that fetches from a member that then stops gives it up, and goes on."""
    relay = tried.relay = Cut(tried.homes())
    relay.start()
    members = tried.group("0", "1", "2", more=("--key", "", "--least", "1"))
    relay.cut[0, 1] = None
    members["2"].tell("send a")
    wrong = [] if members["2"].wants("2 2: a") else ["nothing was accepted"]
    members.pop("0").kill()
    relay.cut[1, 2] = 1 + KINDS.index("Fetch")
    for member in members.values():
        member.tell("stopped 0")
    wrong += tried.lacks("1", "\tfetching 2 2")
    members.pop("2").kill()
    members["1"].tell("stopped 2")
    wrong += given(members, "2 view 1 r1")
    answers = re.findall(r"\t((?:fetching|decided) [^|\n]*?)(?: \||\n)", tried.text("1"))
    wrong += [] if answers[:1] == ["fetching 2 2"] and answers[-1] == "decided 2 1" else [f"{answers}"]
    return wrong + ended(members, 76)


def joiner_not_welcomed(tried: Tried) -> list[str]:
    """A group that waits for a joiner that it can't welcome goes on: the joiner is welcomed late, or ends by itself, and its place comes back
    (docs/NETWORK.md). The run is lawful."""
    both = "--founders", "0,1", "--least", "1"
    members = tried.group("0", "1", more=both)
    members.pop("1").kill()
    joiner, name = tried.start("2", *both), "2"
    wrong = tried.lacks("0", "\tnumbered 2")
    for member in (members["0"], joiner):
        member.tell("stopped 1")
    ends = time.monotonic() + SOON
    while joiner.child.poll() is None and tried.ask("0", "status")["accepted"] < 2 and time.monotonic() < ends:
        time.sleep(0.1)
    if joiner.child.poll() is not None:
        said = "muoswyldd: the member ended: nobody welcomed it; its place comes back as its next life"
        if joiner.status() != 69 or not joiner.wants(said):
            wrong.append("the joiner ended otherwise")
        members["0"].tell("stopped 2")
        joiner, name = tried.start("2/2", *both), "2/2"
        joiner.tell("stopped 1\nstopped 2")
    members[name] = joiner
    tried.caller(name).close()
    members["0"].tell("send on")
    for each, member in members.items():
        ends, line = time.monotonic() + SOON, ""
        while not line.endswith(" 0: on") and time.monotonic() < ends:
            line = member.lines.get(timeout=SOON)
        wrong += [] if line.endswith(" 0: on") else [f"{each} wasn't given the last one"]
    wrong += ended(members)
    judged = tried.judged("0", "1", "2", *(["2/2"] if name == "2/2" else []))
    return wrong + ([] if judged == "lawful" else [judged])


if __name__ == "__main__":
    parts = (window_full, beyond, left_out, too_few, who_resets, over_a_reset, fetching, joiner_not_welcomed)
    end(lambda: try_parts(__doc__, ((Tried, part) for part in parts)))
