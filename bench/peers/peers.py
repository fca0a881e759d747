"""Groups of other systems under load: Corosync's closed process groups, etcd, and processes that only pass datagrams on."""

import os
import pathlib
import signal
import subprocess

from groups import Group, Kind, Native, Place, Process, clock

TUNED = "  token: 200\n  token_coefficient: 0\n  consensus: 240\n"
QUICK = ["--heartbeat-interval", "10", "--election-timeout", "100"]


class Bare(Group):
    """Processes that only pass datagrams on: what the machine itself takes."""

    def start(self) -> None:
        """Starts a process for each place."""
        places = range(self.kind.members)
        addresses = [self.place.network.address(place) for place in places]
        for place in places:
            self.members[place] = Process(self.place.command(place, str(self.place.folder / "bare"), str(place), *addresses), self.errors)


class Corosync(Group):
    """A closed process group: a daemon of Corosync and a client for each member."""

    def start(self) -> None:
        """Starts the daemons, and then the clients."""
        key = self.place.folder / "authkey"
        if not key.exists():
            key.touch(0o600)
            key.write_bytes(os.urandom(256))
        for place in range(self.kind.members):
            file = self.place.folder / f"corosync-{place}.conf"
            file.write_text(self.configuration(key), encoding="utf-8")
            # a file system of its own for what each daemon keeps
            own = "mount -t tmpfs tmpfs /run && mount -t tmpfs tmpfs /var/lib/corosync"
            words = ["unshare", "--mount", "sh", "-c", f'{own} && exec corosync -f -c "$0"', str(file)]
            self.daemons[place] = subprocess.Popen(self.place.command(place, *words), stdout=self.errors, stderr=self.errors)
        for place in range(self.kind.members):
            words = [str(self.place.folder / "cpg"), str(self.kind.members)]
            self.members[place] = Process(self.place.command(place, *words), self.errors)

    def configuration(self, key: pathlib.Path) -> str:
        """The configuration of each daemon."""
        sealed = f"  crypto_cipher: aes256\n  crypto_hash: sha256\n  keyfile: {key}\n"
        totem = sealed if self.kind.is_sealed else "  crypto_cipher: none\n  crypto_hash: none\n"
        totem += TUNED if self.kind.is_tuned else ""
        priority = "" if self.place.is_realtime else "  sched_rr: no\n  priority: 0\n"
        nodes = "".join(
            f"  node {{\n    name: n{place}\n    nodeid: {place + 1}\n    ring0_addr: {self.place.network.host(place)}\n  }}\n"
            for place in range(self.kind.members)
        )
        return (
            f"totem {{\n  version: 2\n  cluster_name: load\n{totem}}}\n"
            "logging {\n  to_stderr: yes\n  to_syslog: no\n  to_logfile: no\n}\n"
            f"quorum {{\n  provider: corosync_votequorum\n}}\nsystem {{\n  move_to_root_cgroup: no\n{priority}}}\nnodelist {{\n{nodes}}}\n"
        )

    def kill(self) -> tuple[int, int]:
        """Kills the daemon of the lowest node; the others find out by themselves."""
        victim, client = self.daemons.pop(0), self.members.pop(0)
        at = clock()
        victim.send_signal(signal.SIGKILL)
        victim.wait()
        client.close()
        return 0, at


class Etcd(Group):
    """A daemon of etcd for each member, with its data in memory, and a client of each."""

    def start(self) -> None:
        """Starts the daemons, and then the clients."""
        certificate = self.certified() if self.kind.is_sealed else []
        way = "https" if self.kind.is_sealed else "http"
        hosts = [f"{way}://{self.place.network.host(place)}" for place in range(self.kind.members)]
        every = ",".join(f"n{place}={host}:2380" for place, host in enumerate(hosts))
        for place, host in enumerate(hosts):
            # a file system of its own for what each daemon keeps
            own = "mount -t tmpfs tmpfs /mnt && exec etcd --data-dir /mnt/data \"$@\""
            words = ["--name", f"n{place}", "--initial-cluster", every, "--logger", "zap", "--log-level", "error"]
            words += ["--listen-client-urls", f"{host}:2379", "--advertise-client-urls", f"{host}:2379"]
            words += ["--listen-peer-urls", f"{host}:2380", "--initial-advertise-peer-urls", f"{host}:2380"]
            words += [*(f"--{name}={file}" for name, file in certificate), *(QUICK if self.kind.is_tuned else [])]
            command = self.place.command(place, "unshare", "--mount", "sh", "-c", own, "etcd", *words)
            self.daemons[place] = subprocess.Popen(command, stdout=self.errors, stderr=self.errors)
        for place, host in enumerate(hosts):
            words = [str(self.place.folder / "etcd"), str(place), f"{host}:2379", *(str(file) for name, file in certificate if name == "cert-file")]
            self.members[place] = Process(self.place.command(place, *words), self.errors)

    def certified(self) -> list[tuple[str, pathlib.Path]]:
        """A certificate of all members, which is made if it isn't there, as etcd's options."""
        key, certificate = self.place.folder / "key.pem", self.place.folder / "certificate.pem"
        if not certificate.exists():
            names = ",".join(f"IP:{self.place.network.host(place)}" for place in range(16))
            words = ["openssl", "req", "-x509", "-nodes", "-newkey", "ec", "-pkeyopt", "ec_paramgen_curve:prime256v1", "-days", "2", "-subj", "/CN=load"]
            words += ["-addext", f"subjectAltName={names}", "-keyout", str(key), "-out", str(certificate)]
            subprocess.run(words, check=True, stdout=self.errors, stderr=self.errors)
        own = [("cert-file", certificate), ("key-file", key)]
        return [*own, *((f"peer-{name}", file) for name, file in own), ("peer-trusted-ca-file", certificate)]

    def kill(self) -> tuple[int, int]:
        """Kills the leader's daemon; the others find out by themselves."""
        leader = self.sequencer()
        victim, client = self.daemons.pop(leader), self.members.pop(leader)
        at = clock()
        victim.send_signal(signal.SIGKILL)
        victim.wait()
        client.close()
        self.ask(f"stopped {leader}")
        return leader, at


def started(kind: Kind, place: Place) -> Group:
    """A group of a kind, once it runs."""
    systems: dict[str, type[Group]] = {"Corosync": Corosync, "etcd": Etcd, "bare": Bare, "Muoswyld": Native}
    return systems[kind.system](kind, place)
