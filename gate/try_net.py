"""Tries members as processes of muoswyldd, on two addresses of this machine: they drop what isn't theirs and tell it on
both sides, take inputs and messages of all sorts, and keep journals; and the loop of docs/NETWORK.md.

    python3 gate/try_net.py PROGRAM [MEMBER]

PROGRAM is the command whose words `node` and `play` are run, MEMBER the one whose word `run` is a member, if it isn't the one that is built
here. Each part ends by itself, within some seconds. It prints what fails, and how many parts passed.
"""

import pathlib
import queue
import re
import shlex
import signal
import socket
import subprocess
import textwrap
import threading
import time
import urllib.request

from processes import SOON, TOP, Tried, letters_of, try_parts
from words import end

from member import Ended, Refused  # noqa: E402
from members import own_host  # noqa: E402
from relay import Faults, Relay  # noqa: E402

# what a member tells of what it drops
NOT_SEALED = "it isn't sealed by this member's key"
OTHER_GROUP = "it is of another group, of an earlier run, of other settings, or of another version of this program"
OTHER_PROCESS = "another process has this name already; a place comes back as its next life"


def bound(address: tuple[str, int]) -> socket.socket:
    """A socket at an address, which waits some seconds for what comes."""
    there = socket.socket(socket.AF_INET, socket.SOCK_DGRAM)
    there.bind(address)
    there.settimeout(SOON)
    return there


def metric(address: str, name: str) -> int:
    """A metric of a member."""
    with urllib.request.urlopen(f"http://{address}/metrics", timeout=SOON) as answer:
        (value,) = re.findall(rf"^muoswyld_{name} (\d+)$", answer.read().decode(), re.MULTILINE)
    return int(value)


def sealed(tried: Tried) -> list[str]:
    """What comes from elsewhere, or isn't sealed, is dropped and counted, each changed datagram too; what is sealed is heard."""
    serves = f"{own_host()}:9100"
    wrong = []
    with bound(tried.address(2)) as place_2, socket.socket(socket.AF_INET, socket.SOCK_DGRAM) as other:
        members = {"0": tried.start("0", "--metrics", serves), "1": tried.start("1")}
        letter = place_2.recv(65536)
        wrong += [] if letter[0] == 0xA1 else [f"a datagram begins with {letter[0]:02x}"]
        changed = [letter[:at] + bytes([letter[at] ^ 1]) + letter[at + 1 :] for at in (0, 1, 16, 17, 24, 25, len(letter) - 1)]
        cut = [letter[:size] for size in (0, 1, 24, 25, len(letter) - 1)]
        for data in [*changed, *cut, b"1 1 0\nAG", bytes(2000)]:
            place_2.sendto(data, tried.address(0))
        for data in (letter, b"", b"AG", bytes(1400)):
            other.sendto(data, tried.address(0))
        tried.caller("1").close()
        members["1"].tell("send hello")
        wrong += [f"{name} wasn't given it" for name, member in members.items() if not member.wants("2 1: hello")]
        told = members["0"].wants("no line is this", 0.1)
    counted, wanted = metric(serves, "datagrams_dropped_total"), len(changed) + len(cut) + 2 + 4
    if told or counted != wanted:
        wrong.append(f"dropped are {counted}, of {wanted}")
    statuses = [member.end() for member in members.values()]
    return wrong + ([] if statuses == [0, 0] else [f"they ended with {statuses}"])


def unsealed(tried: Tried) -> list[str]:
    """Without a key a letter of an address that isn't its sender's is dropped, and nonsense, too; one of the group is heard."""
    wrong = []
    with bound(tried.address(2)) as place_2, socket.socket(socket.AF_INET, socket.SOCK_DGRAM) as other:
        member = tried.start("0", "--key", "")
        while (datagram := place_2.recv(65536))[:2] != b"\xa0\x01":
            pass
        head = datagram[:10]

        def letter(name: int, packet: bytes, places: int = 1, flags: int = 0) -> bytes:
            """A name's letter to some places."""
            fields = name, b"process!", (1).to_bytes(4, "big"), flags, places.to_bytes(2, "big"), len(packet).to_bytes(2, "big")
            return b"".join(bytes([field]) if isinstance(field, int) else field for field in fields) + packet

        good, packet = letter(2, b"A" * 20), b"B" * 20
        for data in (head + good, head + letter(0x12, packet), b"", b"\xa0"):
            other.sendto(data, tried.address(0))
        nonsense = [letter(0, packet), letter(0x10, packet), letter(2, b"B" * 11), letter(2, b"B" * 1153), letter(2, packet, flags=4), letter(2, packet)[:-1]]
        for data in [*(head + each for each in nonsense), b"\xa0\x09", head, b"\xa0\x01" + bytes(8) + letter(2, packet), bytes(40)]:
            place_2.sendto(data, tried.address(0))
        place_2.sendto(head + good, tried.address(0))
        wrong += tried.lacks("0", "\thear 0 " + "41" * 20)
    if "42" * 11 in tried.text("0") or tried.text("0").count("\thear ") != 1:
        wrong.append("nonsense was heard, or a letter of another address")
    if not member.wants(f"what comes of 2 is dropped: {OTHER_GROUP}"):
        wrong.append("another group isn't told")
    return wrong + ([] if member.end() == 0 else ["an end"])


class Recording(Relay):
    """A relay that keeps what it carries to place 0."""

    def __init__(self, homes: list[tuple[str, int]]) -> None:
        super().__init__(homes, Faults())
        self.kept: list[bytes] = []

    def carries(self, sender: int, reader: int, data: bytes) -> bool:
        """Keeps what goes to place 0."""
        self.kept += [data] if reader == 0 else []
        return True


def begun_anew(tried: Tried) -> list[str]:
    """Letters of a run aren't taken by the group that begins anew with the same names and the same key."""
    tried.relay = Recording(tried.homes())
    tried.relay.start()
    two = "--founders", "0,1"
    old = tried.group("0", "1", more=two)
    old["1"].tell("send OLD")
    wrong = [] if old["0"].wants("2 1: OLD") else ["nothing was sent"]
    for name, member in old.items():
        member.kill()
        tried.journal(name).unlink()
    kept = list(tried.relay.kept)
    new = tried.start("0", *two)
    for data in kept:
        tried.relay.pairs[0, 1].socket.sendto(data, tried.address(0))
    wrong += [] if new.wants(f"what comes of 1 is dropped: {OTHER_GROUP}") else ["an earlier run isn't told"]
    statuses = new.end(), "\thear " in tried.text("0")
    return wrong + ([] if statuses == (0, False) else [f"{statuses}"])


def second_process(tried: Tried) -> list[str]:
    """A name that runs again in a second process is dropped and told, once, by who heard the first one; its place's next life isn't."""
    members, wrong = tried.group("0", "1", "2", more=("--pb-up-to", "0")), []
    members["1"].tell("send hello")
    wrong += [f"{name} wasn't given it" for name, member in members.items() if not member.wants("2 1: hello")]
    for place in ("0", "1"):
        members[place].kill()
        tried.journal(place).unlink()
        tried.socket(place).unlink()
    again = tried.start("1", "--pb-up-to", "0")
    wrong += [] if members["2"].wants(f"what comes of 1 is dropped: {OTHER_PROCESS}") else ["2 doesn't tell of it"]
    again.kill()
    members["2"].child.kill()
    return wrong


def next_life(tried: Tried) -> list[str]:
    """A founder that runs again as the same name is of another group; its place's next life joins, and is heard."""
    members, wrong = tried.group("0", "1", "2"), []
    members["0"].tell("send hello")
    wrong += [f"{name} wasn't given it" for name, member in members.items() if not member.wants("2 0: hello")]
    members["0"].kill()
    tried.journal("0").unlink()
    again = tried.start("0")
    wrong += [f"{name} doesn't tell of it" for name in ("1", "2") if not members[name].wants(f"what comes of 0 is dropped: {OTHER_GROUP}")]
    again.kill()
    for name in ("1", "2"):
        members[name].tell("stopped 0")
    lines = members["2"].until("3 view 1,2 r1")
    members["0/2"] = tried.start("0/2")
    lines += members["2"].until("4 joined 0/2")
    members["1"].tell("send on")
    lines += members["2"].until("5 1: on")
    if lines[-1:] != ["5 1: on"] or any("dropped" in line for line in lines) or not members["0/2"].wants("5 1: on"):
        wrong.append(f"its next life: {lines}")
    statuses = [members[name].end() for name in ("1", "2", "0/2")]
    return wrong + ([] if statuses == [0, 0, 0] else [f"they ended with {statuses}"])


def wrong_keys(tried: Tried) -> list[str]:
    """Of a key that isn't the same, of one that isn't there, and of another founding both sides tell, also who is sent nothing else."""
    subprocess.run([*shlex.split(tried.member), "keygen", tried.folder / "other"], check=True)
    keyed, wrong = tried.start("0", "--founders", "0"), []
    cases = (
        ("1", ["--key", str(tried.folder / "other")], f"what comes of place 1 is dropped: {NOT_SEALED}", f"what comes of place 0 is dropped: {NOT_SEALED}"),
        ("2", ["--key", ""], f"what comes of place 2 is dropped: {NOT_SEALED}", f"what comes of place 0 is dropped: {NOT_SEALED}"),
        ("1/2", ["--window", "9"], f"what comes of 1/2 is dropped: {OTHER_GROUP}", f"what comes of 0 is dropped: {OTHER_GROUP}"),
    )
    for name, more, told, tells in cases:
        member = tried.start(name, "--founders", "0", *more)
        if not keyed.wants(told):
            wrong.append(f"0 doesn't tell of {name}")
        if not member.wants(tells):
            wrong.append(f"{name} doesn't tell of 0")
        member.kill()
    return wrong + ([] if keyed.end() == 0 else ["an end"])


def inputs(tried: Tried) -> list[str]:
    """A group of one: all of its input goes out, of each sort, and it ends with what it should."""
    (tried.folder / "file").write_bytes(b"".join(b"%d\n" % k for k in range(300)))
    nothing, view, commands = pathlib.Path("/dev/null"), "1 view 0 r0\n", ["--input", "commands"]
    cases = [
        ("of a pipe", [], b"x\n\xff\xfe\x1b", 0, ["x", "\ufffd\ufffd\ufffd"], ""),
        ("of a file", [], tried.folder / "file", 0, [str(k) for k in range(300)], ""),
        ("of nothing", [], nothing, 0, [], ""),
        ("leaving", commands, b"send hello\nleave\n", 0, ["hello"], ""),
        ("of the most bytes", [], b"a" * 65535 + b"\n" + b"b" * 65536 + b"\nc\n", 0, ["a" * 65535, "c"], "a message has at most 65,535 bytes"),
        ("of no command", commands, b"stopped\nstopped 00\nsned x\n", 0, [], "a command is send MESSAGE"),
        ("of no name", commands, b"stopped 00\n", 0, [], "stopped wants a name, PLACE or PLACE/LIFE"),
        ("of its own name", commands, b"stopped 0\n", 0, [], "the member itself hasn't stopped"),
        ("of nobody", commands, b"stopped 3\nsend x\n", 0, ["x"], ""),
    ]
    wrong = []
    for (what, _, _, status, messages, told), got in zip(cases, tried.alone([(more, given) for _, more, given, *_ in cases])):
        said = [line.partition(": ")[2] for line in got[1].splitlines()[1:]]
        if got[0] != status or said != messages or not got[1].startswith(view) or told not in got[2]:
            wrong.append(f"input {what}: {[text[:300] for text in map(str, got)]}")
    return wrong


def not_read(tried: Tried) -> list[str]:
    """With an input that isn't read a member runs until a signal; who can't leave alone says so, and ends in time."""
    waits = "leaving waits for messages on their way, for a reset, or for another member that leaves"
    alone = tried.start("0", "--founders", "0", "--input", "nothing")
    tried.caller("0").close()
    alone.child.stdin.close()
    alone.signal(signal.SIGTERM)
    wrong = [] if alone.status() == 0 else ["a signal doesn't end a member that is alone"]
    tried.journal("0").unlink()
    pair = tried.start("0", "--founders", "0,1", "--leave-within", "1")
    tried.caller("0").close()
    pair.tell("send x")
    # a message that it was given before the signal
    wrong += tried.lacks("0", "\tsend ")
    pair.signal(signal.SIGTERM)
    if not pair.wants(waits) or not pair.wants("the member hasn't left within 1 seconds") or pair.status() != 75:
        wrong.append("who can't leave doesn't say so, or doesn't end with 75")
    return wrong


def refused(tried: Tried) -> list[str]:
    """A start that is refused says its cause in a line, and uses up no name."""
    (tried.folder / "empty").write_bytes(b"")
    (tried.folder / "empty").chmod(0o600)
    key = str(tried.folder / "key")
    cases = [
        (["--window", "0"], 78, "a window is 1 to 1,008"),
        (["--least", "17"], 78, "a reset goes on with 1 to 16 members"),
        (["--tick", "nan"], 64, "Invalid value 'nan'"),
        (["--founders", "0,0"], 64, "Invalid value '0,0'"),
        (["--founders", "0,3"], 78, "place 3 has no address"),
        (["--address", "3=127.0.0.1:99999"], 78, "127.0.0.1:99999: invalid port value"),
        (["--address", "3=127.0.0.1"], 78, "127.0.0.1: invalid socket address"),
        (["--address", "3=[::1]:4000"], 78, "[::1]:4000 is of another kind than the addresses before it"),
        (["--address", "3=%s:%d" % tried.address(0)], 78, "is the address of two places"),
        (["--address", "0=127.0.0.1:4000"], 78, "place 0 has two addresses"),
        (["--address", "3=no.such.host.invalid:4000"], 78, "no.such.host.invalid:4000: "),
        (["--output", "socket"], 78, "--output socket wants --socket"),
        (["--key", str(tried.folder / "empty")], 78, "is no key"),
        (["--key", "/no/such"], 66, "No such file"),
        (["--journal", key], 71, "it is there, and a name never runs twice"),
        (["--journal", "/no/such/journal"], 71, "No such file"),
    ]
    wrong = []
    for number, (more, status, said) in enumerate(cases):
        journal = tried.journal(str(number))
        done = subprocess.run(tried.words("0", "--founders", "0", "--journal", str(journal), *more), stdin=subprocess.DEVNULL, capture_output=True, text=True, timeout=SOON)
        if done.returncode != status or said not in done.stderr or journal.exists():
            wrong.append(f"{more}: {done.returncode}, {done.stderr}, {journal.exists()}")
    return wrong


def full_journal(tried: Tried) -> list[str]:
    """Where a journal takes no more, the member ends before a letter goes out that isn't in it, and what is there can be merged."""
    journal = tried.journal("0")
    words = tried.words("0", "--founders", "0,1", "--key", "", "--input", "messages", "--journal", str(journal))
    with bound(tried.address(1)) as place_1:
        # Python ignores the signal of a file that is too long, and so does what it starts
        ran = subprocess.run(
            ["prlimit", "--fsize=1500", *words], input=b"x\n" * 40, capture_output=True, timeout=SOON, check=False, restore_signals=False
        )
        place_1.setblocking(False)
        heard = [packet.hex() for data in iter(lambda: received(place_1), None) for packet in letters_of(data)]
    *lines, cut = journal.read_text().split("\n")
    missing = [packet for packet in heard if packet not in "\n".join(lines)]
    wrong = [] if (ran.returncode, cut != "", missing) == (74, True, []) and heard else [f"it ended with {ran.returncode}; {heard}; {missing}"]
    if b"the journal can't be written: File too large" not in ran.stderr:
        wrong.append(f"{ran.stderr!r}")
    merged = subprocess.run([TOP / "net" / "merge.py", journal], capture_output=True, check=False)
    return wrong + ([] if merged.returncode == 0 and b'"do":"stop"' in merged.stdout else [f"it is merged with {merged}"])


def received(there: socket.socket) -> bytes | None:
    """The next datagram that is there."""
    try:
        return there.recv(65536)
    except BlockingIOError:
        return None


def lengths(tried: Tried) -> list[str]:
    """Messages of each length at which something changes come whole, at the socket and in the order in which they were sent."""
    members = tried.group("0", "1", more=("--founders", "0,1"))
    caller = tried.caller("1")
    heard: list[str] = []
    sizes = [0, 1, 1020, 1021, 1022, 1024, 2038, 2039, 65534, 65535]
    positions = [caller.send(b"%d" % (size % 10) * size) for size in sizes]
    wrong = [] if positions == sorted(positions) else [f"they stand at {positions}"]
    for size in sizes:
        heard += members["0"].until(f"{positions[len(heard)].number} 1: {str(size % 10) * size}")[-1:]
    if [len(line.partition(": ")[2]) for line in heard] != sizes:
        wrong.append(f"lengths {[len(line) for line in heard]}")
    for size, said in ((65536, "a message has at most 65,535 bytes"), (100_001, "the command is too long")):
        try:
            caller.send(bytes(size))
            wrong.append(f"a message of {size} bytes was sent")
        except Refused as error:
            wrong += [] if said in str(error) else [f"{size} bytes: {error}"]
        except Ended:
            wrong.append(f"a message of {size} bytes isn't answered")
    statuses = [member.end() for member in members.values()]
    return wrong + ([] if statuses == [0, 0] else [f"they ended with {statuses}"])


class Slow(Tried):
    """A network that takes its time."""

    faults = Faults(delay=40, reorder=20, repeat=10)


def last_sent(tried: Tried) -> list[str]:
    """After the end of its input a member goes on until all of that is sent, also on a slow network."""
    two = "--founders", "0,1"
    other = tried.start("0", *two)
    words = tried.words("1", *two, "--input", "messages")
    given = "".join(f"{number}\n" for number in range(200))
    ran = subprocess.run(words, input=given, capture_output=True, text=True, timeout=2 * SOON, check=False)
    count = ran.stdout.count(" 1: ")
    return [] if ran.returncode == 0 and count == 200 and other.end() == 0 else [f"{ran.returncode}, {count} sent: {ran.stderr}"]


class Looped:
    """A member whose loop is that of docs/NETWORK.md: its lines are a queue, and its network those of the others."""

    def __init__(self, name: str) -> None:
        self.lines: queue.Queue[str | None] = queue.Queue()
        self.name = name
        self.took_bodies: list[str] = []
        self.all: dict[str, Looped] = {}

    def send(self, names: list[str], line: str) -> None:
        """As the loop's network, gives a line to whom it names."""
        for name in names:
            self.all[name].lines.put(line)

    def took(self, answer: str) -> None:
        """As the loop's application, takes an entry."""
        if " data " in answer:
            self.took_bodies.append(answer.split(" ")[-1])

    def write(self, _: str) -> None:
        """As the loop's journal, keeps nothing."""

    def loop(self, code: str, program: str) -> None:
        """Does what the page says, until there are no more lines."""
        names = {"program": program, "name": self.name, "founders": "0,1,2", "lines": iter(self.lines.get, None)}
        bodies = [f"{self.name}{k}".encode().hex() for k in range(10)]
        exec(code, {**names, "network": self, "application": self, "journal": self, "bodies": bodies})


def loop(tried: Tried) -> list[str]:
    """The loop of docs/NETWORK.md, as it stands there: three members send ten messages each, and take all thirty in the same order."""
    found = re.search(r"\n(    import subprocess\n(?:    .*\n|\n)*    for line in lines:\n(?:    .*\n)+)", (TOP / "docs" / "NETWORK.md").read_text())
    if not found:
        return ["docs/NETWORK.md has no loop"]
    program = tried.folder / "program"
    program.write_text(f'#!/bin/sh\nexec {tried.program} "$@"\n')
    program.chmod(0o700)
    members = {name: Looped(name) for name in "012"}
    threads = [threading.Thread(target=member.loop, args=(textwrap.dedent(found[1]), str(program)), daemon=True) for member in members.values()]
    for member in members.values():
        member.all = members
    for thread in threads:
        thread.start()
    ends = time.monotonic() + 2 * SOON
    while min(len(member.took_bodies) for member in members.values()) < 30 and time.monotonic() < ends:
        for member in members.values():
            member.lines.put("tick")
        time.sleep(0.01)
    for member, thread in zip(members.values(), threads):
        member.lines.put(None)
        thread.join(SOON)
    taken = [member.took_bodies for member in members.values()]
    return [] if taken[0] == taken[1] == taken[2] and len(set(taken[0])) == 30 else [f"they took {taken}"]


if __name__ == "__main__":
    plain = (sealed, unsealed, begun_anew, second_process, next_life, wrong_keys, inputs, not_read, refused, full_journal, lengths, loop)
    end(lambda: try_parts(__doc__, [*((Tried, part) for part in plain), (Slow, last_sent)]))
