"""Where the members of a group run: each in a network namespace of its own, all on one bridge; or, where those can't be made, all on
loopback."""

import os
import pathlib
import shutil
import socket
import subprocess

PORT = 7700


def can(*words: str) -> bool:
    """Whether a command succeeds."""
    if shutil.which(words[0]) is None:
        return False
    return subprocess.run(words, stdout=subprocess.DEVNULL, stderr=subprocess.DEVNULL, check=False).returncode == 0


def free_ports(many: int) -> list[int]:
    """So many ports of loopback that are free now."""
    sockets = [socket.socket(socket.AF_INET, socket.SOCK_DGRAM) for _ in range(many)]
    for one in sockets:
        one.bind(("127.0.0.1", 0))
    ports = [one.getsockname()[1] for one in sockets]
    for one in sockets:
        one.close()
    return ports


class Network:
    """A network of so many places, which `close` removes."""

    def __init__(self, places: int) -> None:
        self.places = places
        self.wire: subprocess.Popen[str] | None = None
        # the places that have the rules of `deafen`
        self.can_deafen: set[int] = set()
        self.prefix = f"mw{os.getpid()}-"
        self.has_namespaces = can("ip", "netns", "add", self.prefix + "bridge")
        if self.has_namespaces:
            try:
                self.connect()
            except subprocess.CalledProcessError:
                self.close()
                self.has_namespaces = False
        self.ports = [PORT] * places if self.has_namespaces else free_ports(places)

    def ip(self, place: int | str, *words: str) -> None:
        """Runs `ip` in the namespace of a place."""
        subprocess.run(["ip", "-n", f"{self.prefix}{place}", *words], check=True, stderr=subprocess.DEVNULL)

    def connect(self) -> None:
        """Makes the namespaces, and joins them by a bridge."""
        self.ip("bridge", "link", "add", "bridge", "type", "bridge")
        self.ip("bridge", "link", "set", "bridge", "up")
        for place in range(self.places):
            subprocess.run(["ip", "netns", "add", f"{self.prefix}{place}"], check=True, stderr=subprocess.DEVNULL)
            peer = ["peer", "name", "eth0", "netns", f"{self.prefix}{place}"]
            self.ip("bridge", "link", "add", f"v{place}", "address", self.hardware(place, 1), "type", "veth", *peer)
            self.ip("bridge", "link", "set", f"v{place}", "master", "bridge", "up")
            self.ip(place, "link", "set", "lo", "up")
            self.ip(place, "link", "set", "eth0", "address", self.hardware(place, 0), "up")
            self.ip(place, "addr", "add", f"{self.host(place)}/24", "dev", "eth0")
        for place in range(self.places):
            for other in {*range(self.places)} - {place}:
                self.ip(place, "neigh", "replace", self.host(other), "lladdr", self.hardware(other, 0), "dev", "eth0")

    def hardware(self, place: int, end: int) -> str:
        """The hardware address of one end of a place's wire."""
        return f"02:00:00:00:{end:02x}:{place:02x}"

    def host(self, place: int) -> str:
        """The address of a place."""
        return f"10.77.0.{place + 1}" if self.has_namespaces else "127.0.0.1"

    def address(self, place: int) -> str:
        """The address of a place, with a port."""
        return f"{self.host(place)}:{self.ports[place]}"

    def within(self, place: int) -> list[str]:
        """The words by which a command runs at a place."""
        return ["ip", "netns", "exec", f"{self.prefix}{place}"] if self.has_namespaces else []

    def lose(self, percent: float) -> bool:
        """From now on so many of a hundred packets that come to a place are lost; False where that can't be had."""
        if not self.has_namespaces or shutil.which("nft") is None:
            return False
        chance = f"meta protocol ip numgen random mod 100000 < {round(percent * 1000)} drop"
        rule = f"table netdev loss {{ chain loss {{ type filter hook ingress device eth0 priority 0; {chance}; }}; }}"
        for place in range(self.places):
            can(*self.within(place), "nft", "delete table netdev loss")
            if percent and not can(*self.within(place), "nft", rule):
                return False
        return True

    def deafen(self, deaf: dict[int, set[int]]) -> None:
        """From now on each place hears nothing of those that are named beside it, and all of the others."""
        rules = "table netdev deaf { set from { type ether_addr; }; chain deaf { type filter hook ingress device eth0 priority 0; ether saddr @from drop; }; }"
        begun = []
        for place in range(self.places):
            elements = ", ".join(self.hardware(other, 0) for other in sorted(deaf.get(place, set())))
            added = f"add element netdev deaf from {{ {elements} }}\n" if elements else ""
            script = f"{'' if place in self.can_deafen else rules}\nflush set netdev deaf from\n{added}"
            self.can_deafen.add(place)
            child = subprocess.Popen([*self.within(place), "nft", "-f", "-"], stdin=subprocess.PIPE, text=True)
            begun.append((child, script))
        for child, script in begun:
            child.communicate(script)
            if child.returncode:
                raise OSError("nft refuses the rules by which packets are lost")

    def delay(self, wire: pathlib.Path, microseconds: int) -> bool:
        """From now on each packet takes so long more; False where that can't be had. 0 takes it back."""
        if not self.has_namespaces or (microseconds and shutil.which("ethtool") is None):
            return False
        if self.wire is not None:
            self.wire.kill()
            self.wire.wait()
            self.wire = None
        ends = [f"v{place}" for place in range(self.places)]
        for place, end in enumerate(ends):
            self.ip("bridge", "link", "set", end, *(["nomaster"] if microseconds else ["master", "bridge"]))
            if microseconds:
                # frames are whole, and have their checksums, where a program reads them
                can(*self.within(place), "ethtool", "-K", "eth0", "tx", "off", "tso", "off", "gso", "off")
        if microseconds:
            words = ["ip", "netns", "exec", f"{self.prefix}bridge", "chrt", "-r", "2", str(wire), str(microseconds), *ends]
            self.wire = subprocess.Popen(words, stdout=subprocess.PIPE, text=True)
            return self.wire.stdout is not None and self.wire.stdout.readline() == "ready\n"
        return True

    def close(self) -> None:
        """Removes it."""
        if self.wire is not None:
            self.wire.kill()
            self.wire.wait()
        if self.has_namespaces:
            for place in ["bridge", *range(self.places)]:
                can("ip", "netns", "del", f"{self.prefix}{place}")

    def __str__(self) -> str:
        return "network namespaces on one bridge" if self.has_namespaces else "loopback, as network namespaces can't be made"
