"""Events of a node as bytes, and answers as text, written from docs/EMBEDDING.md ("The binary call") and not from the program."""

import dataclasses

ALONE = {"tick": 1, "take": 2, "join": 3, "leave": 4, "state": 5, "info": 6}
NUMBERED = {"done": 17, "ask": 18}
ROLES = "stranger", "asking", "member", "sequencer", "coordinator", "departed"
BARE = {
    5: "unknown", 7: "empty", 8: "asked", 10: "leaving", 11: "departed", 12: "stranger", 13: "not-member", 14: "ticked", 15: "idle",
    18: "again", 21: "kept", 22: "known", 26: "behind", 27: "unfit", 29: "noted", 34: "elsewhere", 36: "voted", 46: "not-coordinator",
    49: "not-addressed", 254: "no numbers left",
}
FIELDS = {
    1: "queued n", 2: "busy n", 3: "pending n", 9: "joined n", 17: "numbered n", 19: "early n", 23: "stored n", 24: "gap n", 28: "advanced n",
    30: "accepted n", 31: "served n", 32: "welcomed n", 33: "let-go n", 35: "refused n", 38: "catching n", 4: "sent n n", 20: "held n n",
    41: "too-few n n", 42: "crowded n n", 16: "put-off n n n", 6: "took n entry", 25: "no-body name n", 40: "fetching name n", 37: "newer stamp",
    43: "overtaken stamp", 44: "not-in stamp", 39: "waiting set", 45: "decided n set",
}


def name_of(word: str) -> int:
    """The byte of a name."""
    place, _, life = word.partition("/")
    return int(place) + 16 * (int(life or 1) - 1)


def set_of(text: str) -> bytes:
    """The bytes of a set of names."""
    names = [name_of(word) for word in text.split(",") if word != "-"]
    places = sum(1 << name % 16 for name in names)
    lives = sum(name // 16 << 4 * (name % 16) for name in names)
    return places.to_bytes(2, "big") + lives.to_bytes(8, "big")


def event_of(line: str, resilience: int) -> bytes:
    """The event that asks what a line says, which is one; the resilience is the founding's."""
    word, *words = line.split(" ")
    if word in ALONE:
        return bytes([ALONE[word]])
    if word in NUMBERED:
        return bytes([NUMBERED[word]]) + int(words[0]).to_bytes(4, "big")
    if word == "giveup":
        return bytes([19, name_of(words[0])])
    if word == "reset":
        return bytes([20, int(words[0]), int(words[1][1:]) if len(words) > 1 else resilience])
    body = bytes.fromhex(words[-1].replace("-", ""))
    if word == "send":
        return bytes([16]) + body
    return bytes([21, words[0].startswith("*")]) + set_of(words[0].lstrip("*")) + body


@dataclasses.dataclass
class Reader:
    """An answer that is read from its front, and the resilience of the founding."""

    rest: bytes
    resilience: int

    def take(self, count: int) -> bytes:
        """So many bytes."""
        if len(self.rest) < count:
            raise ValueError("the answer is too short")
        taken, self.rest = self.rest[:count], self.rest[count:]
        return taken

    def number(self, count: int) -> int:
        """A number of so many bytes."""
        return int.from_bytes(self.take(count), "big")

    def n(self) -> str:
        """A number."""
        return str(self.number(4))

    def name(self) -> str:
        """A name."""
        life, place = divmod(self.number(1), 16)
        return f"{place}/{life + 1}" if life else str(place)

    def stamp(self) -> str:
        """A stamp."""
        return f"{self.n()}.{self.name()}"

    def set(self) -> str:
        """A set of names."""
        places, lives = self.number(2), self.number(8)
        words = []
        for place in range(16):
            life = (lives >> 4 * place) % 16
            if places >> place & 1:
                words.append(f"{place}/{life + 1}" if life else str(place))
            elif life:
                raise ValueError("a life outside the set")
        return ",".join(words) or "-"

    def entry(self) -> str:
        """An entry."""
        kind = self.number(1)
        if kind == 1:
            start = f"data {self.name()} {self.n()} "
            return start + (self.take(self.number(2)).hex() or "-")
        if kind == 4:
            text, resilience = f"view {self.stamp()} {self.set()}", self.number(1)
            return text if resilience == self.resilience else f"{text} r{resilience}"
        return f"{('join', 'leave')[kind - 2]} {self.name()}"

    def outcome(self) -> str:
        """What came of an event."""
        kind = self.number(1)
        if kind == 255:
            return f"bad line {self.number(1)}"
        if kind in BARE:
            return BARE[kind]
        word, *fields = FIELDS[kind].split(" ")
        return " ".join([word, *(getattr(self, field)() for field in fields)])

    def letter(self) -> str:
        """A letter."""
        star = "*" if self.number(1) else ""
        return f" | {star}{self.set()} {self.take(self.number(2)).hex()}"


def answer_of(answer: bytes, resilience: int) -> tuple[str, str, int]:
    """What an answer says: the text that the line has, that of `info` behind it, and the flags."""
    reader = Reader(answer, resilience)
    role, flags = ROLES[reader.number(1)], reader.number(1)
    info = " ".join([role, reader.stamp(), reader.n(), reader.set(), str(reader.number(1)), *(reader.n() for _ in range(4)), reader.set()])
    if reader.rest[:1] == b"\0":
        reader.take(1)
        text = info
    else:
        text = reader.outcome()
    text += "".join(reader.letter() for _ in range(reader.number(1)))
    if reader.rest:
        raise ValueError("something stands behind the answer")
    return text, info, flags

