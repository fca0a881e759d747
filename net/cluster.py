#!/usr/bin/env python3
"""A group of processes on this machine, with losses and crashes, and the proved program as the judge of what happened.

    net/cluster.py --nodes 4 --resilience 1 --seconds 10 --rate 300 --loss 5 --repeat 2 --delay 5 --kill 2 --seed 1

Members are processes of muoswyldd, and a relay between them makes the faults. All members together send `--rate` messages a second. `--loss`,
`--repeat` and `--reorder` say how many of a hundred datagrams are lost, repeated and overtaken by the next one. `--delay` says by how many
milliseconds a datagram is late at most. `--kill` times a member is killed by SIGKILL. After it has ended, the others are told, and its place
comes back as its next life. `--freeze` times a member is stopped by SIGSTOP for a while. `--succeed` times the list ends and another one
follows it. At the end the members' inputs end. A member that hasn't ended `--patience` seconds later is killed. Then the journals of each
list are merged into one script, `play` runs it, and each answer of each process is compared with the line for it. The program `judge` judges
the journals too, of any length and of all lists. What the members printed is compared with each other, with what was sent and answered, and
with the journals. It ends with 1 if something differs, or if a member ended by itself.
"""

import argparse
import contextlib
import os
import pathlib
import random
import subprocess
import sys
import tempfile
import threading
import time
from collections.abc import Callable, Iterator

from members import START_SECONDS, Failed, Members
from merge import Life, Merged, Unmerged, write_out
from programs import judge_of, long_judge_of
from seen import Claims

MOST_EVENTS = 100_000
# the windows with which lists begin, and after how long a refused end is tried again
WINDOWS = (64, 128, 256, 500)
AGAIN_SECONDS = 0.1


def moments(wanted: argparse.Namespace) -> list[tuple[float, str, int]]:
    """When which member is killed, and comes back: seconds from the start, what, and the place. Nobody is killed in the first tenth
    and the last third, and where nothing else is asked for one at a time, so that a reset can be done before the next."""
    draw = random.Random(wanted.seed)
    first, last = wanted.seconds * 0.1, wanted.seconds * 0.65
    step = (last - first) / max(wanted.kill, 1)
    plan = []
    for k in range(wanted.kill):
        place = draw.randrange(wanted.nodes)
        when = first + step * (k + draw.random() * 0.3) if not wanted.at_once else first
        if wanted.at_once:
            place = k % wanted.nodes
        plan.append((when, "kill", place))
        plan.append((when + (step * 0.4 if not wanted.at_once else (last - first) * 0.5), "back", place))
    return sorted(plan + freezes(wanted, first, last))


def freezes(wanted: argparse.Namespace, first: float, last: float) -> list[tuple[float, str, int]]:
    """When which member is frozen, and goes on; it may be killed meanwhile."""
    draw = random.Random(f"{wanted.seed} freeze")
    step, plan = (last - first) / max(wanted.freeze, 1), []
    for k in range(wanted.freeze):
        place, when = draw.randrange(wanted.nodes), first + step * (k + draw.random() * 0.3)
        plan += [(when, "freeze", place), (when + step * (0.2 + draw.random() * 0.4), "thaw", place)]
    return plan


def do(cluster: Members, what: str, place: int) -> None:
    """Does one thing of the plan to a place, where it can be done."""
    member = cluster.running.get(place)
    if what == "kill" and member:
        cluster.kill(place)
    elif what == "back" and not member:
        cluster.back(place)
    elif what == "freeze" and member and not member.is_frozen and cluster.is_in(place):
        cluster.freeze(place)
    elif what == "thaw" and member and member.is_frozen:
        cluster.thaw(place)


class Enders(threading.Thread):
    """Ends the list so many times, at moments of a seed, each time with another window. What is refused is tried again soon."""

    def __init__(self, cluster: Members) -> None:
        super().__init__(daemon=True)
        wanted = cluster.wanted
        draw = random.Random(f"{wanted.seed} succeed")
        first, last = wanted.seconds * 0.15, wanted.seconds * 0.75
        step = (last - first) / max(wanted.succeed, 1)
        self.cluster, self.done = cluster, 0
        self.plan = [(first + step * (k + draw.random() * 0.8), draw.choice(WINDOWS)) for k in range(wanted.succeed)]
        self.is_over = threading.Event()
        self.began = time.monotonic()

    def run(self) -> None:
        """Ends lists until all is done, or it is over."""
        for when, window in self.plan:
            self.is_over.wait(max(0.0, self.began + when - time.monotonic()))
            while not self.is_over.is_set():
                if self.cluster.end_list(window):
                    self.done += 1
                    break
                self.is_over.wait(AGAIN_SECONDS)


def act(cluster: Members) -> None:
    """Runs the cluster for its time."""
    wanted = cluster.wanted
    for place in range(wanted.nodes):
        cluster.start(place)
    for place in range(wanted.nodes):
        if not cluster.has_begun(place):
            raise Failed(f"member {cluster.name(place)} hasn't begun within {START_SECONDS} seconds")
    began, plan = time.monotonic(), moments(wanted)
    enders = Enders(cluster)
    enders.start()
    sending_ends = began + wanted.seconds * 0.85
    while (now := time.monotonic()) < began + wanted.seconds:
        while plan and began + plan[0][0] <= now:
            do(cluster, *plan.pop(0)[1:])
        if now < sending_ends:
            for _ in range(int((now - began) * wanted.rate) - cluster.sent):
                cluster.send()
        cluster.look()
        time.sleep(0.002)
    for place, member in cluster.running.items():
        if member.is_frozen:
            cluster.thaw(place)
    enders.join(wanted.patience / 2)
    enders.is_over.set()
    cluster.ends = enders.done
    cluster.end()


def hundredths(values: list[int], share: int) -> str:
    """A value that so many of a hundred don't exceed, in milliseconds."""
    if not values:
        return "-"
    return f"{sorted(values)[min(len(values) - 1, len(values) * share // 100)] / 1000:.1f}"


def times_of(lives: list[Life]) -> tuple[list[int], list[int], int]:
    """Microseconds from each send to its answer `sent`, and to the last take of it, and how many entries were taken."""
    begun: dict[tuple[str, str], int] = {}
    answered: list[int] = []
    last_take: dict[tuple[str, str], int] = {}
    taken = 0
    for life in lives:
        for step in life.steps:
            if step.answer.startswith("queued "):
                begun[life.name, step.answer.split(" ")[1]] = step.time
            elif step.answer.startswith("sent "):
                answered.append(step.time - begun[life.name, step.answer.split(" ")[1]])
            elif step.answer.startswith("took "):
                taken += 1
                words = step.answer.split(" ")
                if words[2] == "data":
                    key = words[3], words[4]
                    last_take[key] = max(last_take.get(key, 0), step.time)
    return answered, [last_take[key] - begun[key] for key in last_take if key in begun], taken


def told(merged: Merged, cluster: Members, is_last: bool) -> Iterator[str]:
    """The lines that tell what happened in a list, and with the last one in all."""
    wanted = cluster.wanted
    answered, delivered, taken = times_of(merged.lives)
    datagrams, *more = cluster.told()
    words = [step.line.split(" ")[0] for _, step in merged.steps]
    joined = {step.answer.split(" ")[1] for _, step in merged.steps if step.answer.startswith("took ") and " join " in step.answer}
    letters = sum(len(step.letters) for _, step in merged.steps)
    yield f"events {len(words)}, letters {letters}" + (f", {datagrams}" if is_last else "")
    yield from more if is_last else ()
    # a member that asks how its ballot stands is told of its view again
    decided = len({step.answer for _, step in merged.steps if step.answer.startswith("decided")})
    yield f"kills {words.count('stop')}, resets decided {decided}, joins {len(joined)}"
    yield f"entries taken {taken}, {taken / wanted.seconds / wanted.nodes:.0f} a second and member; sends answered {len(answered)}"
    yield f"from a send to its answer {hundredths(answered, 50)} ms, 99 of 100 within {hundredths(answered, 99)} ms"
    yield f"from a send to its last take {hundredths(delivered, 50)} ms, 99 of 100 within {hundredths(delivered, 99)} ms"


def judged(merged: Merged, wanted: argparse.Namespace, text: str) -> tuple[list[str], int]:
    """Compares the lines of the script's text with what the processes answered: what to say of it, and 1 where one differs, or where the
    run isn't lawful from another event on than a stop, or with no more stops than the resilience."""
    lines = text.splitlines()
    play = "the proved play" if wanted.program is None else "play"
    events = merged.events[:MOST_EVENTS]
    stops = [number for number, event in enumerate(events, 1) if event["do"] == "stop"]
    void = int(lines[-1].split(" ")[-1]) if lines[-1].startswith("void") else 0
    said = [lines[-1] + (f": the stop of {merged.steps[void - 1][0].name}, beyond the resilience" if void in stops else "")]
    if len(events) < len(merged.events):
        said.insert(0, f"a run has {MOST_EVENTS} events at most: the first of them are judged")
    if (void and void not in stops) or (not void and not stops and lines[-1] != "lawful") or (void and len(stops) <= wanted.resilience):
        return [*said, f"{len(stops)} stopped, with a resilience of {wanted.resilience}"], 1
    if len(lines) <= len(events):
        return [*said, f"the text of play has {len(lines)} lines, for {len(events)} events"], 1
    for mine, proved in zip(merged.lines[:MOST_EVENTS], lines):
        if mine != proved:
            return [*said, f"a process answered: {mine}", f"{f'{play}:':<20}{proved}"], 1
    return [*said, f"{play} gives all {len(events)} answers again"], 0


def claimed_of(lists: dict[int, Merged], lasts: dict[int, str]) -> Claims | None:
    """The last number of each list that each name took before the event from which on nothing is claimed; None where all is. Of lists after one of
    which not all is claimed nothing is."""
    if not any(last.startswith("void") for last in lasts.values()):
        return None
    claims: Claims = {}
    for generation, merged in sorted(lists.items()):
        last = lasts[generation]
        before = merged.steps[: int(last.split(" ")[-1]) - 1] if last.startswith("void") else merged.steps
        took = [(life.name, step.answer.split(" ")[1]) for life, step in before if step.answer.startswith("took ")]
        claims |= {(generation, name): int(number) for name, number in took}
        if last.startswith("void"):
            break
    return claims


def generation_of(path: pathlib.Path) -> int:
    """How many lists came before the one of a journal, by the end of its name."""
    suffix = path.suffix.removeprefix(".")
    return int(suffix) if suffix.isdigit() else 0


def merged_lists(journals: pathlib.Path) -> dict[int, Merged]:
    """The journals of each list as one script."""
    by_list: dict[int, list[str]] = {}
    for path in sorted(journals.glob("journal-*")):
        by_list.setdefault(generation_of(path), []).append(str(path))
    return {generation: Merged(paths) for generation, paths in sorted(by_list.items())}


def number_of(kind: Callable[[str], float], least: float, most: float) -> Callable[[str], float]:
    """What reads a word of the command that is a number, of a kind and in a range."""

    def read(text: str) -> float:
        """The number of a word."""
        with contextlib.suppress(ValueError):
            if least <= (value := kind(text)) <= most:
                return value
        raise argparse.ArgumentTypeError(f"{text[:40]!r} is no number from {least} to {most}")

    return read


def options() -> argparse.Namespace:
    """The words of the command."""
    parser = argparse.ArgumentParser(description=__doc__, formatter_class=argparse.RawDescriptionHelpFormatter)
    parser.add_argument("--nodes", type=number_of(int, 1, 16), default=4, help="how many members (4)")
    parser.add_argument("--seconds", type=number_of(float, 0.1, 86_400), default=10, help="how long they run (10)")
    parser.add_argument("--rate", type=number_of(float, 0, 100_000), default=500, help="messages a second, of all members together (500)")
    parser.add_argument("--loss", type=number_of(float, 0, 100), default=0, help="of a hundred datagrams (0)")
    parser.add_argument("--repeat", type=number_of(float, 0, 100), default=0, help="of a hundred datagrams (0)")
    parser.add_argument("--reorder", type=number_of(float, 0, 100), default=0, help="of a hundred datagrams, overtaken by the next (0)")
    parser.add_argument("--delay", type=number_of(float, 0, 10_000), default=0, help="milliseconds at most (0)")
    parser.add_argument("--kill", type=number_of(int, 0, 15), default=0, help="how many kills (0)")
    parser.add_argument("--succeed", type=number_of(int, 0, 100), default=0, help="how often the list ends, and another one follows it (0)")
    parser.add_argument("--freeze", type=number_of(int, 0, 15), default=0, help="how often a member is stopped for a while (0)")
    parser.add_argument("--at-once", action="store_true", help="all kills at one moment, of different members")
    parser.add_argument("--resilience", type=number_of(int, 0, 15), default=1, help="how many stops between two resets keep it lawful (1)")
    parser.add_argument("--tick", type=number_of(float, 1, 10_000), default=20, help="milliseconds (20)")
    parser.add_argument("--patience", type=number_of(float, 0, 86_400), default=20, help="seconds until who hasn't ended is killed (20)")
    parser.add_argument("--seed", type=int, default=1, help="whom is killed when, and what is lost (1)")
    parser.add_argument("--keep", help="a new or empty folder, in which journals, script.json and its text script.txt stay")
    parser.add_argument("--program", help="the command whose word play judges; else the one that is built here")
    parser.add_argument("--judge", help="the command that judges journals of any length; else the one that is built here")
    parser.add_argument("--member", help="the command whose word run is a member; else the one that is built here")
    parser.add_argument("--least", type=number_of(int, 1, 16), help="the fewest members of a reset (a majority)")
    parser.add_argument("--leave", action="store_true", help="the members leave at the end, all at once")
    wanted = parser.parse_args()
    if wanted.at_once and wanted.kill > wanted.nodes:
        parser.error(f"--at-once: there are no {wanted.kill} members to kill")
    try:
        if wanted.keep and os.listdir(wanted.keep):
            parser.error(f"--keep: {wanted.keep} isn't empty")
    except FileNotFoundError:
        pass  # it is made
    except OSError as error:
        parser.error(f"--keep: {wanted.keep}: {error.strerror}")
    return wanted


def judged_whole(judge: list[str], journals: pathlib.Path) -> tuple[list[str], int]:
    """What `judge` says of the journals, and 1 if it found something."""
    done = subprocess.run([*judge, str(journals)], capture_output=True, text=True, errors="replace", check=False)
    said = [*done.stdout.splitlines(), *done.stderr.splitlines()]
    if done.returncode not in (0, 1):
        raise Failed(f"judge ended with {done.returncode}: {' '.join(said)}")
    return [f"judge: {line}" for line in said], done.returncode


def ran(wanted: argparse.Namespace, made: pathlib.Path) -> int:
    """Runs, merges and judges."""
    judge, long_judge = judge_of(wanted.program), long_judge_of(wanted.judge)
    journals = pathlib.Path(wanted.keep) if wanted.keep else made / "journals"
    journals.mkdir(parents=True, exist_ok=True)
    cluster = Members(wanted, journals, made)
    try:
        act(cluster)
    finally:
        cluster.stop()
    lists = merged_lists(journals)
    write_out("".join(f"{line}\n" for line in told_of_all(lists, cluster)))
    if cluster.late:
        write_out(f"killed, as they weren't done {wanted.patience:g} seconds after their inputs' end: {', '.join(cluster.late)}\n")
    status, lasts = 0, {}
    for generation, merged in lists.items():
        said, wrong, lasts[generation] = played(judge, merged, wanted, journals if wanted.keep else None, generation)
        status = max(status, wrong)
        write_out("".join(f"{line}\n" for line in said))
    more, is_judged_wrong = judged_whole(long_judge, journals)
    lives = {(generation, life.name): life for generation, merged in lists.items() for life in merged.lives}
    seen, is_seen_wrong = cluster.compared(lives, claimed_of(lists, lasts))
    write_out("".join(f"{line}\n" for line in [*more, *seen]))
    if len(lists) - 1 < cluster.ends:
        write_out(f"{cluster.ends} ends of lists were answered, and there are {len(lists)} lists\n")
        status = 1
    return max(status, is_judged_wrong, is_seen_wrong)


def told_of_all(lists: dict[int, Merged], cluster: Members) -> Iterator[str]:
    """What happened, list by list where there are more than one."""
    for generation, merged in lists.items():
        if len(lists) > 1:
            yield f"list of generation {generation}: founders {','.join(map(str, merged.founding['founders']))}, window {merged.founding['window']}"
        yield from told(merged, cluster, generation == max(lists))
    if cluster.wanted.succeed:
        yield f"ends of lists {len(lists) - 1} of {cluster.wanted.succeed}; refused {len(cluster.refusals)} times"


def played(
    judge: list[str], merged: Merged, wanted: argparse.Namespace, folder: pathlib.Path | None, generation: int
) -> tuple[list[str], int, str]:
    """Has `play` run a list's script, and compares: what to say of it, 1 where something is wrong, and the text's last line. In a folder the script
    and its text stay."""
    end = f".{generation}" if generation else ""
    script = merged.script(MOST_EVENTS)
    if folder:
        (folder / f"script{end}.json").write_text(script)
    done = subprocess.run([*judge, "play"], input=script.encode(), capture_output=True, check=False)
    text = done.stdout.decode(errors="replace")
    if done.returncode != 0 or not text:
        raise Failed(f"play ended with {done.returncode}: {done.stderr.decode(errors='replace').strip()}")
    if folder:
        (folder / f"script{end}.txt").write_text(text)
    said, status = judged(merged, wanted, text)
    return said, status, text.splitlines()[-1]


def main() -> int:
    """Runs a cluster in a folder of its own."""
    wanted = options()
    try:
        with tempfile.TemporaryDirectory() as made:
            return ran(wanted, pathlib.Path(made))
    except (Failed, Unmerged) as error:
        cause = str(error)
    except OSError as error:
        cause = f"{error.filename or 'standard output'}: {error.strerror}" if error.strerror else str(error)
    except KeyboardInterrupt:
        cause = "interrupted"
    print(f"cluster.py: {cause}", file=sys.stderr)
    return 130 if cause == "interrupted" else 1


if __name__ == "__main__":
    sys.exit(main())
