"""One run of a group under faults: what is done, what is measured, and what is checked."""

import pathlib
import random
import shutil
import signal
import subprocess
import tempfile
import time
from collections.abc import Iterable
from dataclasses import dataclass, field

from checks import faults_of
from clients import Clients, Record
from group import GIVEN_UP, PATIENCE, Group, Kind, Life, Wrong, wait_for
from kinds import GONE, KEPT, OF_ANOTHER, OF_ONE, OF_SEQUENCER, Fault, Faults, directed, expected, is_measured_from_end, of_one, seconds_of
from network import Network

# an operator looks so many seconds after all faults are over
OPERATOR = 6.0
# a fault goes on for so many seconds more at most, until whom it hits is given up
LATE = 15.0
KILLED = -9
NOT_WRITTEN = "this place doesn't vote any more: its voter's file can't be written"


@dataclass(frozen=True)
class Plan:
    """What a run is: a group, a kind of fault that comes again and again (None: several at once, at random), a seed, seconds, a load."""

    kind: Kind
    what: str | None
    seed: int
    seconds: float
    senders: int = 2
    pause: float = 0.005
    size: int = 64
    keep: str | None = None


@dataclass
class Result:
    """What came of it. Times are in seconds: of each fault and each member that was to go on, until the next message, and the longest time
    without any."""

    plan: Plan
    first: dict[str, list[float]] = field(default_factory=dict)
    longest: dict[str, list[float]] = field(default_factory=dict)
    back: dict[str, list[float]] = field(default_factory=dict)
    faults: int = 0
    messages: int = 0
    lives: int = 0
    operator: int = 0
    judged: str = ""
    wrong: list[str] = field(default_factory=list)


class Trial:
    """A run."""

    def __init__(self, plan: Plan, network: Network, folder: pathlib.Path) -> None:
        self.plan, self.folder = plan, folder
        self.draw = random.Random(f"{plan.seed} {plan.what} {plan.kind}")
        self.clients = Clients(plan.senders, plan.pause, plan.size)
        self.group = Group(plan.kind, network, folder, self.clients)
        self.faults = Faults(self.group, self.draw)
        self.result = Result(plan)
        self.killed: set[str] = set()

    def run(self) -> Result:
        """Does it all; what is wrong stands in the result."""
        try:
            self.clients.start()
            self.group.found()
            self.recover("the beginning")
            time.sleep(0.5)
            self.directed() if self.plan.what else self.at_random()
            self.settle()
        except (Wrong, OSError, subprocess.SubprocessError) as error:
            self.result.wrong.append(str(error))
        finally:
            running = self.group.names()
            self.judge()
            self.group.close()
            self.clients.close()
        self.check(running)
        return self.result

    # ---- faults

    def directed(self) -> None:
        """One fault after the other, all of the same kind."""
        until = time.monotonic() + self.plan.seconds
        while time.monotonic() < until and self.group.has_lives():
            fault = directed(self.plan.what, self.plan.kind, self.group, self.draw)
            hit = {place: self.group.lives[place] for place in fault.hit}
            self.begin(fault)
            while not self.is_done(fault, hit):
                self.faults.go_on()
                time.sleep(0.01)
            self.look(fault, hit)
            self.faults.end(fault)
            self.became(fault, hit)
            self.recover(fault.what)
            self.result.back.setdefault(fault.what, []).append(time.monotonic() - fault.over)
            self.vote_again(fault, hit)
            time.sleep(0.3)
            self.measure(fault)

    def is_done(self, fault: Fault, hit: dict[int, Life]) -> bool:
        """Whether a fault has gone on for long enough: its time is over, and whoever is to be given up has been, if that comes at all."""
        now, ends = time.monotonic(), fault.at + fault.seconds
        kind = self.plan.kind
        if now < ends or now > ends + LATE:
            return now >= ends
        if expected(fault, kind) != GONE or is_measured_from_end(fault, kind):
            return True
        time.sleep(0.1)
        names = {life.name for life in hit.values()}
        said = (status for place, status in self.group.statuses().items() if status and place not in fault.hit)
        return any(names <= {*status["failures"]["stopped"]} for status in said)

    def vote_again(self, fault: Fault, hit: dict[int, Life]) -> None:
        """A place whose folder couldn't be written votes no more, as its life is told; its next life votes. Where the others are a majority they may
        have given up whom the fault hits before this place had anything to write: then it has refused nobody of them."""
        if fault.folder is None:
            return
        place = fault.folder[0]
        said = (self.group.status(place) or {"failures": {"why-no-vote": "nothing at all", "refused": []}})["failures"]
        others_do = self.plan.kind.voters - len(hit) - 1 > self.plan.kind.voters // 2
        was_spared = others_do and said["why-no-vote"] is None and not {life.name for life in hit.values()} & {*said["refused"]}
        if self.plan.kind.policy in ("echo", "lease") and said["why-no-vote"] != NOT_WRITTEN and not was_spared:
            self.result.wrong.append(f"{fault.what}: {place} says why it doesn't vote: {said}")
        self.killed.add(self.group.lives[place].name)
        self.group.signal(place, signal.SIGKILL)
        self.faults.tell({place})
        self.recover(f"the next life after a {fault.what}")
        if not self.group.status(place)["failures"]["votes"]:
            self.result.wrong.append(f"{fault.what}: the next life of {place} doesn't vote")

    def begin(self, fault: Fault) -> None:
        """Begins a fault."""
        self.killed |= {self.group.lives[place].name for place in fault.killed}
        self.result.faults += 1
        self.faults.begin(fault)

    def look(self, fault: Fault, hit: dict[int, Life]) -> None:
        """At the end of a fault: whether a side that has no majority of the voters is frozen, and was answered nothing."""
        kind = self.plan.kind
        if kind.policy not in ("echo", "lease") or fault.flaps or fault.killed or fault.paused or fault.what == "one link":
            return
        cut_off = hit or dict(self.group.lives)
        for place, life in cut_off.items():
            status = self.group.status(place)
            if life.process.poll() is None and (status is None or status["failures"]["frozen-for-milliseconds"] is None):
                self.result.wrong.append(f"{fault.what}: {life.name} isn't frozen: {status}")
            late = [one for one in answers(life.record) if one > fault.full + 0.2 + kind.thaw()]
            if late:
                self.result.wrong.append(f"{fault.what}: {life.name} answered {len(late)} messages while it was cut off")

    def became(self, fault: Fault, hit: dict[int, Life]) -> None:
        """Whether those that were hit were given up, or weren't, as it should be."""
        wanted = expected(fault, self.plan.kind)
        for life in hit.values():
            if life.name in self.killed:
                continue
            if wanted == GONE and not wait_for(lambda life=life: life.process.poll() is not None, LATE):
                self.result.wrong.append(f"{fault.what}: {life.name} isn't given up")
            if wanted == KEPT and life.process.poll() is not None:
                self.result.wrong.append(f"{fault.what}: {life.name} ended: {self.group.said(life)}")

    def recover(self, what: str) -> None:
        """Starts the next lives of all places that have none, until the group is whole again and all clients are answered."""
        begun = asked = time.monotonic()
        while not self.group.is_whole():
            self.begin_next()
            now = time.monotonic()
            if now > asked + OPERATOR:
                self.operate()
                asked = now
            if now > begun + PATIENCE:
                raise Wrong(f"{what}: not whole again after {PATIENCE:.0f} seconds: {self.group.statuses()}")
            time.sleep(0.05)
        now = time.monotonic()
        waits = [life for life in self.group.lives.values() if life.record is not None]
        if not wait_for(lambda: all(any(one > now for one in last_answers(life.record)) for life in waits), PATIENCE):
            raise Wrong(f"{what}: the group is whole again, and no message is answered: {self.group.statuses()}")

    def begin_next(self) -> None:
        """Starts the next lives of places whose processes have ended, and connects their clients."""
        for place in self.group.reap():
            name, status = self.group.ended[-1]
            if status not in (GIVEN_UP, KILLED):
                self.result.wrong.append(f"{name} ended with {status}: {(self.folder / f'errors-{name.replace(chr(47), chr(45))}').read_text()[-300:]}")
        for place in {*range(self.plan.kind.members)} - self.group.lives.keys():
            self.group.start(place)
        self.group.connect()

    def operate(self) -> None:
        """What an operator does: ends who is blocked, and resets with fewer members where too few are left."""
        for place, status in self.group.statuses().items():
            for blocked in (status or {}).get("failures", {}).get("blocked", []):
                own = int(blocked["name"].split("/")[0])
                if own in self.group.lives and self.group.lives[own].name == blocked["name"]:
                    self.result.operator += 1
                    self.killed.add(blocked["name"])
                    self.group.lives[own].process.kill()
                    return
        for place, status in self.group.statuses().items():
            gone = {*(status or {}).get("stopped", [])} & {*(status or {}).get("members", [])}
            if gone:
                self.result.operator += 1
                left = len(status["members"]) - len(gone)
                words = [self.group.muoswyldd, "reset", "--socket", self.group.lives[place].socket, str(left)]
                subprocess.run(words, check=False, capture_output=True, timeout=PATIENCE)
                return

    # ---- several at once

    def at_random(self) -> None:
        """Several faults at once. No more places are hit than the resilience allows until all are whole again."""
        down: set[int] = set()
        until, looked = time.monotonic() + self.plan.seconds, 0.0
        while time.monotonic() < until and self.group.has_lives():
            self.faults.go_on()
            for fault in [one for one in self.faults.active if time.monotonic() > one.at + one.seconds]:
                self.faults.end(fault)
            hit = set().union(*(fault.hit for fault in self.faults.active))
            self.begin_others(hit)
            if not self.faults.active and time.monotonic() > looked + 0.3:
                looked = time.monotonic()
                down = set() if self.group.is_whole() else down
            if len(self.faults.active) < 3 and self.draw.random() < 0.05 and (fault := self.drawn(down)):
                down |= fault.hit
                self.begin(fault)
            time.sleep(0.03)
        for fault in list(self.faults.active):
            self.faults.end(fault)
        self.recover("the end")

    def begin_others(self, hit: set[int]) -> None:
        """Starts the next lives of places that no fault hits any more."""
        if hit & {*range(self.plan.kind.members)} - self.group.lives.keys():
            self.group.reap()
            for place in {*range(self.plan.kind.members)} - self.group.lives.keys() - hit:
                self.group.start(place)
            self.group.connect()
        else:
            self.begin_next()

    def drawn(self, down: set[int]) -> Fault | None:
        """A fault that may come now, if there is one."""
        kind, draw = self.plan.kind, self.draw
        what = draw.choice([*OF_SEQUENCER, *OF_ANOTHER, *OF_ONE, "whole network"])
        seconds = seconds_of(kind) * draw.choice([0.2, 0.5, 1.0, 1.5])
        if what == "whole network":
            return directed(what, kind, self.group, draw)
        places = [place for place, life in self.group.lives.items() if place not in down and life.record is not None and not life.is_paused]
        if not places or what != "one link" and len(down) >= kind.resilience:
            return None
        sequencer = self.group.sequencer()
        wanted = [place for place in places if place == sequencer] if what in OF_SEQUENCER else places
        return of_one(what, kind, draw.choice(wanted), seconds) if wanted else None

    # ---- in the end

    def measure(self, fault: Fault) -> None:
        """How long those waited that were to go on."""
        kind = self.plan.kind
        is_late = is_measured_from_end(fault, kind)
        since, until = (fault.over, fault.over) if is_late else (fault.at, fault.over)
        goes_on = fault.hit if expected(fault, kind) == GONE or fault.killed else set()
        for record in self.clients.records:
            place = int(record.name.split("/")[0])
            if place in goes_on or not record.log or record.log[0].at > fault.at or record.log[-1].at < since:
                continue
            first, longest = waits(record, since, until)
            self.result.first.setdefault(fault.what, []).append(first)
            self.result.longest.setdefault(fault.what, []).append(longest)

    def settle(self) -> None:
        """Nothing more is sent, and what was sent is delivered to all."""
        self.clients.is_quiet = True
        if not wait_for(lambda: self.clients.waiting() == 0, PATIENCE):
            raise Wrong(f"{self.clients.waiting()} messages aren't answered in the end")
        records = [life.record for life in self.group.lives.values()]
        if not wait_for(lambda: len({(one.log[-1].number, one.log[-1].index) for one in records}) == 1, PATIENCE):
            raise Wrong("not all members were given all of the list in the end")

    def check(self, running: list[str]) -> None:
        """Checks what all clients saw, and has the journals judged."""
        records = self.clients.records
        self.result.lives = len(records)
        self.result.messages = sum(one.answered is not None for record in records for sender in record.sent for one in sender)
        self.result.wrong += self.clients.wrong
        self.result.wrong += faults_of(records, [] if self.result.wrong else running)

    def judge(self) -> None:
        """Has the journals judged while the members that run stand still: so none of them has stopped, and no journal goes on."""
        for life in self.group.lives.values():
            life.process.send_signal(signal.SIGSTOP)
        if not wait_for(lambda: all(stands(life) for life in self.group.lives.values()), PATIENCE):
            self.result.wrong.append("not all members stand still to be judged")
        words = [self.group.judge, "--follow", self.folder / "journals"]
        judge = subprocess.Popen(words, stdout=subprocess.PIPE, stderr=subprocess.PIPE, text=True)
        told = judge.stderr.readline()
        judge.send_signal(signal.SIGTERM)
        out, rest = judge.communicate(timeout=600)
        lines = [line for line in (out + told + rest).splitlines() if "so far" not in line]
        self.result.judged = lines[0] if lines else "judge says nothing"
        went_on = [life.name for life in self.group.lives.values() if not stands(life)]
        if went_on:
            self.result.wrong.append(f"{', '.join(went_on)} went on while journals were judged: somebody else continued them")
        if judge.returncode or not self.result.judged.endswith("lawful"):
            self.result.wrong.append(f"judge: {self.result.judged}")


def stands(life: Life) -> bool:
    """Whether a life's process is stopped by a signal, or has ended."""
    try:
        stat = pathlib.Path(f"/proc/{life.process.pid}/stat").read_text(encoding="ascii", errors="replace")
    except OSError:
        return True
    return stat.rsplit(")", 1)[1].split()[0] in "TtZX"


def answers(record: Record | None) -> Iterable[float]:
    """When messages of a life were answered."""
    senders = record.sent if record else []
    return (one.answered for sender in senders for one in sender if one.answered is not None)


def last_answers(record: Record) -> Iterable[float]:
    """When each sender of a life was answered last, or 0."""
    return (max((one.answered or 0 for one in sender[-2:]), default=0) for sender in record.sent)


def waits(record: Record, since: float, until: float) -> tuple[float, float]:
    """From a time on, how long a member waited for the next message, and the longest time without one that began up to another time."""
    before, first, longest = since, None, 0.0
    for one in record.log:
        if one.at < since or not one.what.startswith("message "):
            continue
        first = one.at - since if first is None else first
        longest = max(longest, one.at - before)
        if one.at > until:
            break
        before = one.at
    return first or 0.0, longest


def tried(plan: Plan) -> Result:
    """A run, in namespaces and a folder of its own. The folder is kept where that is wanted and something is wrong."""
    network = Network(plan.kind.members)
    if plan.keep:
        pathlib.Path(plan.keep).mkdir(parents=True, exist_ok=True)
    folder = pathlib.Path(tempfile.mkdtemp(prefix="muoswyld-faults-", dir=plan.keep))
    result = Result(plan)
    try:
        if not network.has_namespaces:
            result.wrong.append("network namespaces can't be made")
            return result
        if plan.what == "full disk":
            small_disks(plan.kind, folder)
        result = Trial(plan, network, folder).run()
        return result
    finally:
        network.close()
        for place in range(plan.kind.members):
            while subprocess.run(["umount", folder / f"state-{place}"], check=False, capture_output=True).returncode == 0:
                pass
        if not (plan.keep and result.wrong):
            shutil.rmtree(folder, ignore_errors=True)


def small_disks(kind: Kind, folder: pathlib.Path) -> None:
    """Gives each place a small file system for its state."""
    for place in range(kind.members):
        (folder / f"state-{place}").mkdir(mode=0o700)
        subprocess.run(["mount", "-t", "tmpfs", "-o", "size=64k,mode=700", "tmpfs", folder / f"state-{place}"], check=True)
