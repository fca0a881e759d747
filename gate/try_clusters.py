"""Tries net/cluster.py and net/merge.py: clusters with kills, losses and frozen members whose runs are judged; members and plays whose text is
changed; what can't begin or be done in time; the relay; what is compared of the deliveries that members print; journals that can't be merged.

    python3 gate/try_clusters.py [PROGRAM [MEMBER]]

PROGRAM is the command whose word `play` judges, MEMBER the one whose word `run` is a member; else those that are built here. Each part
ends by itself, within some seconds. It prints what fails, and how many parts passed.
"""

import contextlib
import copy
import json
import pathlib
import re
import shlex
import socket
import subprocess
import sys
import tempfile
import zlib
from typing import Any

from member import Position
from merge import Life, Step
from programs import judge_of, long_judge_of, member_of
from relay import HOST, Counts, Faults, Relay
from seen import Seen, differences
from words import end, words

TOP = pathlib.Path(__file__).resolve().parent.parent
# how many seconds something may take at most, also where the machine has much else to do
SOON = 30

# a command whose word `play` writes a text that is changed
FILTER = """\
import subprocess, sys
change, *words = sys.argv[1:]
done = subprocess.run(words, stdin=sys.stdin, stdout=subprocess.PIPE, text=True, check=True)
lines = done.stdout.splitlines()
stop = next(number for number, line in enumerate(lines, 1) if line.split(" ")[1:2] == ["stop"])
match change:
    case "line 3":
        lines[2] += " 1"
    case "void from 1":
        lines[-1] = "void from 1"
    case "void from the stop":
        lines[-1] = f"void from {stop}"
    case "cut":
        del lines[stop + 1 :]
print("\\n".join(lines))
"""
# a command whose member 1 prints a text that is changed, and whose members are else the program's
CHANGED = """\
import os, sys
change, *words = sys.argv[1:]
if change != "none" and words[words.index("--name") + 1] == "1":
    reader, writer = os.pipe()
    if os.fork() == 0:
        os.close(0)
        os.close(writer)
        with os.fdopen(reader) as lines:
            for line in lines:
                if '"message 9"' in line:
                    line = {"text": line.replace("message 9", "message 6"), "gap": "", "twice": line * 2}[change]
                sys.stdout.write(line)
                sys.stdout.flush()
        os._exit(0)
    os.dup2(writer, 1)
    os.close(reader)
    os.close(writer)
os.execvp(words[0], words)
"""
# members have long enough where the machine has much else to do
QUICK = "--nodes 3 --seconds 1 --rate 60 --patience 60 --seed 1".split()
MOST_SECONDS = 200


def ran(tool: str, *given: object, out: int = subprocess.PIPE) -> tuple[int, str, str]:
    """The status of a tool of net/, what it wrote and what it told."""
    command = [str(TOP / "net" / tool), *map(str, given)]
    done = subprocess.run(command, stdout=out, stderr=subprocess.PIPE, text=True, timeout=MOST_SECONDS, check=False)
    return done.returncode, done.stdout or "", done.stderr


class Tried:
    """A folder, the judge, and the member."""

    def __init__(self, folder: pathlib.Path, program: str, member: str) -> None:
        self.folder, self.program, self.member = folder, program, member

    def python(self, name: str, text: str, change: str, program: str) -> str:
        """The command of a text in Python, which is told of a change and of a program."""
        (self.folder / name).write_text(text)
        return shlex.join([sys.executable, str(self.folder / name), change, *shlex.split(program)])

    def ran(self, *more: object) -> tuple[int, str, str]:
        """What becomes of a small cluster, with these words more."""
        return ran("cluster.py", *QUICK, "--program", self.program, "--member", self.member, *more)


def clusters(tried: Tried) -> list[str]:
    """Clusters in which one is killed and comes back, or is frozen, are lawful, and all answers and deliveries are as they should be."""
    wrong = []
    faults = "--seconds 2 --rate 150 --loss 5 --repeat 2 --delay 5".split()
    for more, wanted in (
        (["--nodes", 4, *faults, "--kill", 1], r"[1-9]\d* lost, [1-9]\d* repeated, 0 reordered\n(?:.*\n)*kills 1, resets decided [1-9].*, joins [1-9]"),
        (["--nodes", 4, *faults, "--kill", 1, "--reorder", 5, "--freeze", 2, "--seed", 2], r" [1-9]\d* reordered\n.*members frozen: [12]"),
        (["--least", 1, "--leave"], "messages "),
    ):
        status, said, told = tried.ran(*more)
        whole = re.search(r"\njudge: \d+ lives, \d+ events, \d+ letters, a list of \d+ entries: lawful\n", said)
        judged = "\nlawful\n" in said and "answers again\n" in said and whole and "are pieces of one list\n" in said
        if (status, told) != (0, "") or not re.search(wanted, said) or not judged or "killed" in said:
            wrong.append(f"{more}: {status}, {said}{told}")
    return wrong


def changes(tried: Tried) -> list[str]:
    """A member that prints another text, leaves one out or prints one twice is found. So is a play with another answer, one that is void without
    more stops than the resilience, and one that is cut. What the judge finds is told, and so is a judge that can't judge."""
    wrong = []
    for change, said in (("text", "\nprinted: 1 was given "), ("gap", "\nprinted: 1 wasn't given "), ("twice", "\nprinted: 1 was given ")):
        found = tried.ran("--member", tried.python("member.py", CHANGED, change, tried.member))
        if found[0] != 1 or said not in found[1] or "answers again\n" not in found[1]:
            wrong.append(f"with the change {change!r} of a member: {found}")
    for change, status, said in (
        ("none", 0, "answers again"),
        ("line 3", 1, "a process answered: 3 "),
        ("void from 1", 1, "1 stopped, with a resilience of 1"),
        ("void from the stop", 1, "1 stopped, with a resilience of 1"),
        ("cut", 1, "lines"),
    ):
        found = tried.ran("--kill", 1, "--program", tried.python("judge.py", FILTER, change, tried.program))
        if found[0] != status or said not in found[1] or found[2]:
            wrong.append(f"with the change {change!r} of the text: {found}")
    for ended, status, said in ((1, 1, "\njudge: a finding\n"), (66, 1, "judge ended with 66")):
        found = tried.ran("--judge", shlex.join(["sh", "-c", f"echo a finding; exit {ended}"]))
        if found[0] != status or said not in found[1] + found[2]:
            wrong.append(f"with a judge that ends with {ended}: {found}")
    return wrong


def refusals(tried: Tried) -> list[str]:
    """A cluster that can't begin or go on says why, in a line of its own."""
    kept = tried.folder / "kept"
    kept.mkdir()
    (kept / "journal-0").write_text("")
    wrong = []
    for given, status, said in (
        (["--seconds", "0"], 2, "'0' is no number from 0.1"),
        (["--loss", "200"], 2, "'200' is no number from 0 to 100"),
        (["--reorder", "200"], 2, "'200' is no number from 0 to 100"),
        (["--kill", "-1"], 2, "'-1' is no number from 0 to 15"),
        (["--freeze", "16"], 2, "'16' is no number from 0 to 15"),
        (["--least", "17"], 2, "'17' is no number from 1 to 16"),
        (["--keep", kept], 2, "kept isn't empty"),
        (["--keep", "/dev/null"], 2, "/dev/null: Not a directory"),
        (["--program", tried.folder / "none"], 1, "isn't there, or can't be run"),
        (["--program", "x '"], 1, "No closing quotation"),
        (["--member", tried.folder / "none"], 1, "isn't there, or can't be run"),
        (["--judge", tried.folder / "none"], 1, "isn't there, or can't be run"),
        (["--member", "/bin/false"], 1, "ended by itself with status 1: "),
    ):
        found = tried.ran(*given)
        if found[0] != status or said not in found[2] or "Traceback" in found[2]:
            wrong.append(f"{given}: {found}")
    for of, builds in ((member_of, "tools/runtime.py"), (long_judge_of, "tools/runtime.py"), (judge_of, "./muoswyld build")):
        try:
            of(None)
        except OSError as error:
            wrong += [] if f"`{builds}` builds it" in str(error) else [str(error)]
    return wrong


def late(tried: Tried) -> list[str]:
    """Who isn't done in time is killed, and told, and what is there is judged."""
    status, said, told = tried.ran("--nodes", 2, "--seconds", 0.5, "--rate", 2000, "--delay", 2000, "--patience", 0.2)
    is_told = re.search(r"killed, as they weren't done 0.2 seconds after their inputs' end: .*", said)
    return [] if status == 0 and is_told and "answers again" in said else [f"{status}, {said}{told}"]


def journals(tried: Tried) -> list[str]:
    """What a cluster keeps is what it judged; cut and spoilt journals are refused for their cause."""
    kept = tried.folder / "kept"
    status, _, told = tried.ran("--seconds", 1.5, "--kill", 1, "--keep", kept)
    script, text = (kept / "script.json").read_bytes(), (kept / "script.txt").read_bytes()
    played = subprocess.run([*shlex.split(tried.program), "play"], input=script, capture_output=True, check=False).stdout
    wrong = [] if status == 0 and text and played == text else [f"the cluster ended with {status}: {told}; or its text isn't its script's"]
    paths = sorted(kept.glob("journal-*"))
    back = next(path for path in paths if path.name.endswith("-2"))
    other = next(path for path in paths if back.name[:9] != path.name[:9])
    whole = other.read_text()
    lines = whole.splitlines(keepends=True)
    name = other.name.removeprefix("journal-")
    cases = (
        (whole[: len(whole) // 2], f" of {name}, whose journal has "),
        ("".join(lines[:5] + ["torn\n"] + lines[5:]), f"{other}, line 6 is no line of a journal: 'torn'"),
        ("".join(lines[:5] + [lines[5].replace("\t", " ", 1)] + lines[6:]), f"{other}, line 6 is no line of a journal"),
        ("".join(["node\t0\n", *lines[1:]]), "is no journal"),
    )
    for journal, said in cases:
        other.write_text(journal)
        found = ran("merge.py", *paths)
        if found[:2] != (1, "") or said not in found[2] or found[2].count("\n") != 1:
            wrong.append(f"{said!r}: {found}")
    other.write_text(whole + "1\ttick\t\tticked | 1")
    if json.loads(ran("merge.py", *paths)[1] or "0") != json.loads(script):
        wrong.append("a last line that is cut isn't passed over")
    with open("/dev/full", "w", encoding="utf-8") as full:
        found = ran("merge.py", *paths, out=full.fileno())
    return wrong + ([] if found[0] == 1 and found[2].count("\n") == 1 else [f"merge.py > /dev/full: {found}"])


def merging(tried: Tried) -> list[str]:
    """Journals that can't be merged are refused for their cause, and a torn line isn't there. One that has ended and was given up stopped."""
    head = "node\t{}\t0,1\t0\t64\t256\n"
    one = head.format(0) + "1\tsend 61\t\tqueued 1 | 1 " + "41470303" + "00" * 26 + "\nend\n"
    two = head.format(1) + "2\thear 1 4147\t0 1\tstored 2\n"
    up = head.format(0) + "2\tgiveup 1\t\tnot-coordinator\n"
    cases = [
        ([one, two + "3\ttak"], 0, '"do":"hear","node":1,"packet":1},{"do":"stop","node":1}'),
        ([two + "end\n"], 1, "whose journal isn't there"),
        ([one, two.replace("0 1\t", "0 2\t") + "end\n"], 1, "1 wants letter 2 of 0"),
        ([one, one], 1, "a name has two journals"),
        ([one, two.replace("\t64\t", "\t32\t")], 1, "has another founding"),
        ([one.replace("node\t0\t", "node\t0/2\t")], 1, "0 stopped, and its journal isn't there"),
        ([one.replace("node\t0\t", "node\t0/2\t"), ""], 0, '[{"do":"stop","node":0},{"do":"return","node":0},{"do":"send"'),
        ([one.replace("node\t0\t", "node\t0/3\t"), "nod"], 1, "0/2 stopped, and its journal isn't there"),
        ([up], 1, "1 stopped, and its journal isn't there"),
        ([up + "end\n", ""], 0, '[{"do":"stop","node":1},{"do":"giveup","node":0,"name":1}]'),
        ([up + "end\n", head.format(1) + "1\ttick\t\tidle\nend\n"], 0, '[{"do":"tick","node":1},{"do":"stop","node":1},{"do":"giveup","node":0,"name":1}]'),
        (["", ""], 1, "no journal has a whole line"),
        (["x\n"], 1, "is no journal"),
    ]
    wrong = []
    for texts, status, said in cases:
        paths = [tried.folder / f"merged-{number}" for number in range(len(texts))]
        for path, text in zip(paths, texts):
            path.write_text(text)
        found = ran("merge.py", *paths)
        if found[0] != status or said not in found[1] + found[2]:
            wrong.append(f"{said!r}: {found}")
    return wrong


def in_order(tried: Tried) -> list[str]:
    """Lines that want nothing of each other are in the order of their times, a stop stands at the last line of its life, and a return at
    the first of the life that it begins."""
    texts = {"0": "1\ttake\t\ttook 1 view 1.0 0,1", "0/2": "5\ttick\t\tidle", "1": "3\ttake\t\ttook 1 view 1.0 0,1"}
    paths = [tried.folder / f"journal-{name.replace('/', '-')}" for name in texts]
    for path, (name, line) in zip(paths, texts.items()):
        path.write_text(f"node\t{name}\t0,1\t0\t64\t256\n{line}\nend\n")
    status, script, told = ran("merge.py", *paths)
    events = [(event["do"], event["node"]) for event in json.loads(script or '{"play": {"events": []}}')["play"]["events"]]
    wanted = [("take", 0), ("stop", 0), ("take", 1), ("return", 0), ("tick", 0)]
    return [] if (status, events) == (0, wanted) else [f"{status}, {events}, {told}"]


def relays(_: Tried) -> list[str]:
    """A relay carries what comes of a place, from where its reader knows that place; it loses, repeats and reorders as many as is said."""
    wrong = []
    for faults, turns, counts in (
        (Faults(), [(b"12", b"12")], Counts(2)),
        (Faults(repeat=100), [(b"1", b"11")], Counts(1, repeated=1)),
        (Faults(loss=100), [(b"1", b"")], Counts(1, lost=1)),
        # 3 is sent once nothing is held any more
        (Faults(reorder=100), [(b"12", b"21"), (b"3", b"3")], Counts(3, reordered=2)),
        (Faults(reorder=100), [(b"1", b"1")], Counts(1, reordered=1)),
    ):
        homes = [socket.socket(socket.AF_INET, socket.SOCK_DGRAM) for _ in range(3)]
        for home in homes:
            home.bind((HOST, 0))
        relay = Relay([home.getsockname() for home in homes], faults)
        relay.start()
        homes[2].sendto(b"a stranger", (HOST, relay.port(0, 1)))
        came = []
        for sent, wanted in turns:
            for data in sent:
                homes[0].sendto(bytes([data]), (HOST, relay.port(0, 1)))
            homes[1].settimeout(SOON)
            came += [homes[1].recvfrom(100) for _ in wanted]
        homes[1].settimeout(0.5)
        with contextlib.suppress(TimeoutError):
            came.append(homes[1].recvfrom(100))
        wanted = [(bytes([data]), (HOST, relay.port(1, 0))) for _, given in turns for data in given]
        if came != wanted or relay.counts() != counts:
            wrong.append(f"with {faults} there came {came}, and counted were {relay.counts()}")
        relay.close()
        for home in homes:
            home.close()
    return wrong


def message(number: int, index: int, sender: str, text: str) -> dict[str, Any]:
    """A delivery of a message."""
    return {"generation": 0, "number": number, "index": index, "kind": "message", "from": sender, "text": text}


def three() -> tuple[list[Seen], dict[tuple[int, str], Life]]:
    """What was printed and journaled in a small run: two founders, one of whom comes back, a message in parts, and contents beside the list."""
    view = {"generation": 0, "number": 1, "index": 0, "kind": "view", "members": ["0", "1"], "resilience": 1}
    long = "c" * 1100
    log = [view, message(2, 0, "0", "a"), message(2, 1, "0", "b"), message(4, 0, "0", long)]
    joined = [{"generation": 0, "number": 5, "index": 0, "kind": "joined", "name": "1/2"}, message(6, 0, "1/2", "d")]
    joined += [message(7, 0, "0", "e" * 300), message(7, 1, "0", "f")]
    lives = [
        Seen("0", {0: "0"}, [["a", long, "e" * 300, "f"], ["b"]], {"b": Position(0, 2, 1)}, [*log, *joined], True),
        Seen("1", {0: "1"}, [], {}, log[:3], False),
        Seen("1/2", {0: "1/2"}, [["d"]], {}, list(joined), True),
    ]
    share = long.encode()
    bodies = [b"P\0\1a\0\1b", b"S\0\0\0\2" + share[:1019], b"S\0\1\0\2" + share[1019:]]
    took = ["took 1 view 1.0 0,1", *(f"took {number} data 0 1 {body.hex()}" for number, body in enumerate(bodies, 2))]
    contents = b"\1\x2c" + b"e" * 300 + b"\0\1f"
    reference = b"R" + bytes(8) + len(contents).to_bytes(4, "big") + zlib.crc32(contents).to_bytes(4, "big")
    rest = ["took 5 join 1/2", f"took 6 data 1/2 1 {b'P'.hex()}000164", f"took 7 data 0 4 {reference.hex()}"]
    journals = {"0": took + rest, "1": took, "1/2": rest}
    made = {(0, name): Life(name, [], [Step(0, "take", answer=answer) for answer in said], True, []) for name, said in journals.items()}
    return lives, made


def two_lists() -> tuple[list[Seen], dict[tuple[int, str], Life]]:
    """What was printed and journaled of two lists: a founder that came back as a later life is its place's first life in the second one."""
    founding = {"founders": ["0", "1"], "resilience": 0, "window": 9, "pb-up-to": 7}
    end = {"generation": 0, "number": 4, "index": 0, "kind": "succeeded", "members": ["0", "1/2"], **founding, "voters": []}
    view = {"generation": 1, "number": 1, "index": 0, "kind": "view", "members": ["0", "1"], "resilience": 0}
    first = [{**view, "generation": 0, "members": ["0"]}, {"generation": 0, "number": 2, "index": 0, "kind": "joined", "name": "1/2"}]
    rest = [message(3, 0, "1/2", "a"), end, view, {**message(2, 0, "1", "b"), "generation": 1}]
    lives = [
        Seen("0", {0: "0", 1: "0"}, [], {}, [*first, *rest], True),
        Seen("1/2", {0: "1/2", 1: "1"}, [["a", "b"]], {"b": Position(1, 2, 0)}, [*first[1:], *rest], True),
    ]
    ends = ["took 3 data 1/2 1 61", "took 4 data 0 1 4381", "took 5 data 1/2 2 62"]
    later = ["took 1 view 1.0 0,1", "took 2 data 1 1 62"]
    journals = {
        (0, "0"): ["took 1 view 1.0 0", "took 2 join 1/2", *ends],
        (0, "1/2"): ["took 2 join 1/2", *ends],
        (1, "0"): later,
        (1, "1"): later,
    }
    said = ["4", "f" * 16, "0,1", "0", "9", "7"]
    made = {
        (generation, name): Life(name, [], [Step(0, "take", answer=answer) for answer in answers], True, [], next=[] if generation else said)
        for (generation, name), answers in journals.items()
    }
    return lives, made


def comparing_lists(_: Tried) -> list[str]:
    """Two lists that follow one another are taken as one, and each thing that can be wrong at the end of the first is found."""
    lives, journals = two_lists()
    wrong = [f"{line}, in what is right" for line in differences(lives, journals)]
    after_end = message(5, 0, "1/2", "b")

    def narrow(life: Seen, place: int) -> None:
        """Has a life be told another window."""
        life.log[place] = {**life.log[place], "window": 8}

    for what, change, said in (
        ("what stands after the end", lambda seen, _: seen[0].log.insert(4, after_end), "isn't what 1/2 sent"),
        ("an end that isn't told", lambda seen, _: seen[1].log.pop(2), "1/2 wasn't given "),
        ("another window", lambda seen, _: narrow(seen[1], 2), "1/2 was given "),
        ("another window everywhere", lambda seen, _: [narrow(seen[0], 3), narrow(seen[1], 2)], "its journal has"),
        ("an end that the journal hasn't", lambda _, journals: journals[0, "0"].next.clear(), "its journal has"),
        ("a message of another name", lambda seen, _: seen[1].names.update({1: "2"}), "stands nowhere"),
        ("an answer in another list", lambda seen, _: seen[1].answers.update(b=Position(0, 2, 0)), "stands at"),
    ):
        lives, journals = copy.deepcopy(two_lists())
        change(lives, journals)
        found = differences(lives, journals)
        if not any(said in line for line in found):
            wrong.append(f"{what}: {found}")
    return wrong


def comparing(_: Tried) -> list[str]:
    """What is right is taken, and each thing that can be wrong with what members print is found."""
    lives, journals = three()
    wrong = [f"{line}, in what is right" for line in differences(lives, journals)]
    other_text, other_member = message(2, 0, "0", "x"), message(2, 0, "1", "a")
    for what, change, said in (
        ("another text", lambda seen: seen[1].log.__setitem__(1, other_text), "1 was given "),
        ("another sender", lambda seen: seen[1].log.__setitem__(1, other_member), "1 was given "),
        ("the same other text everywhere", lambda seen: [life.log.__setitem__(1, other_text) for life in seen[:2]], "isn't what 0 sent"),
        ("a gap", lambda seen: seen[1].log.pop(1), "1 wasn't given "),
        ("another order", lambda seen: seen[1].log.reverse(), "behind what stands later"),
        ("no view first", lambda seen: seen[1].log.pop(0), " first"),
        ("no join first", lambda seen: seen[2].log.pop(0), " first"),
        ("more than the journal", lambda seen: seen[1].log.extend(seen[0].log[3:]), "and its journal has []"),
        ("less than the journal", lambda seen: seen[2].log.__delitem__(slice(1, None)), "1/2 printed 1 deliveries"),
        ("other contents", lambda seen: [seen[life].log.__setitem__(-1, message(7, 1, "0", "g")) for life in (0, 2)], "its journal has"),
        ("fewer contents", lambda seen: [seen[life].log.pop() for life in (0, 2)], "its journal has"),
        ("contents of another name", lambda seen: [seen[life].log.__setitem__(-1, message(7, 1, "1", "f")) for life in (0, 2)], "its journal has"),
        ("an answer elsewhere", lambda seen: seen[0].answers.update(b=Position(0, 2, 0)), "stands at"),
        ("an answer of what stands nowhere", lambda seen: seen[1].answers.update(z=Position(0, 2, 0)), "stands at None"),
        ("a message that stands nowhere", lambda seen: seen[0].channels[0].append("e"), "stands nowhere"),
        ("what wasn't sent", lambda seen: seen[2].channels[0].clear(), "isn't what 1/2 sent"),
        ("another order of sends", lambda seen: seen[0].channels[0].reverse(), "in the order in which it was given them"),
    ):
        lives, journals = three()
        lives = copy.deepcopy(lives)
        change(lives)
        found = differences(lives, journals)
        if not any(said in line for line in found):
            wrong.append(f"{what}: {found}")
    lives, journals = three()
    lives[2].log.pop()
    lives[2].has_ended = False
    wrong += [f"{line}, of what was killed amid contents" for line in differences(lives, journals)]
    lives, journals = three()
    lives[1].log[2] = message(2, 1, "0", "x")
    claimed = {(0, "0"): 6, (0, "1"): 2}, {(0, "0"): 6, (0, "1"): 1}
    of_lists = [[line for line in differences(lives, journals, each) if "its journal has" not in line] for each in claimed]
    if not of_lists[0] or of_lists[1]:
        wrong.append("what isn't claimed is compared, or what is isn't")
    lives, journals = three()
    lives[0].log.append(message(8, 0, "0", "a"))
    journals[0, "0"].steps.append(Step(0, "take", answer="took 8 data 0 9 50000161"))
    if not any("stands there twice" in line for line in differences(lives, journals)):
        wrong.append("a message that stands there twice isn't found")
    lives, journals = three()
    journals[0, "1"].steps[1] = Step(0, "take", answer="took 2 data 0 1 50000178000162")
    if not any("1 was given " in line and "its journal has" in line for line in differences(lives, journals)):
        wrong.append("a journal with another body isn't found")
    return wrong


def main() -> int:
    """Tries each part in a folder of its own."""
    given = words(__doc__, 0, 2)
    program, member = (shlex.join(judge_of(given[0] if given else None)), shlex.join(member_of(given[1] if given[1:] else None)))
    passed = failed = 0
    for part in (comparing, comparing_lists, relays, merging, in_order, refusals, journals, late, clusters, changes):
        with tempfile.TemporaryDirectory() as folder:
            wrong = part(Tried(pathlib.Path(folder), program, member))
        passed, failed = passed + (not wrong), failed + bool(wrong)
        for line in wrong:
            print(f"refused: {part.__name__}: {line}")
    print(f"gate/try_clusters.py: {passed} passed, {failed} failed")
    return 1 if failed else 0


if __name__ == "__main__":
    end(main)
