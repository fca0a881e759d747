"""Tests of the package muoswyld as it is installed: groups. gate/try_python.py runs them."""

import argparse
import asyncio
import dataclasses
import inspect
import itertools
import os
import pathlib
import select
import signal
import subprocess
import sys
import tempfile
import threading
import time
import unittest
from collections.abc import Callable

import muoswyld
from muoswyld import Config, Delivery, End, Ended, Group, Joined, Left, Message, Name, Position, Succeeded, View

# seconds in which something must come, also where the machine has much else to do
SOON = 60.0
_ports = itertools.count(22_000, 5)


def addresses() -> dict[int, str]:
    """Addresses of this machine that no other test uses."""
    port, number = next(_ports), os.getpid()
    return {place: f"127.{1 + number // 256 % 254}.{number % 256}.4:{port + place}" for place in range(4)}


def config(name: str, where: dict[int, str], **more: object) -> Config:
    """The settings of a member in a group of three."""
    settings: dict[str, object] = {"founders": "0,1,2", "addresses": where, "key": b"k" * 32, "resilience": 1, "start_within": SOON}
    return Config(name, **{**settings, **more})  # type: ignore[arg-type]


def together(calls: list[Callable[[], object]]) -> list[object]:
    """What calls give that are made at the same time."""
    given: list[object] = [None] * len(calls)

    def run(k: int) -> None:
        """Makes one of them."""
        try:
            given[k] = calls[k]()
        except Exception as error:
            given[k] = error

    threads = [threading.Thread(target=run, args=(k,)) for k in range(len(calls))]
    for thread in threads:
        thread.start()
    for thread in threads:
        thread.join()
    return given


def three(where: dict[int, str], **more: object) -> list[Group]:
    """Three members of a group."""
    made = together([lambda name=name: Group.create(config(name, where, **more)) for name in "012"])
    assert all(isinstance(group, Group) for group in made), made
    return made  # type: ignore[return-value]


def one(where: dict[int, str], **more: object) -> Group:
    """The only member of a group."""
    return Group.create(config("0", where, founders="0", resilience=0, **more))


def until(group: Group, kind: type) -> list[Delivery]:
    """A member's deliveries up to the first of a kind."""
    found: list[Delivery] = []
    while not found or not isinstance(found[-1], kind):
        found.append(group.receive(SOON))
    return found


def messages(group: Group, many: int) -> list[Message]:
    """So many messages of a member."""
    found: list[Message] = []
    while len(found) < many:
        delivery = group.receive(SOON)
        found += [delivery] if isinstance(delivery, Message) else []
    return found


def succeed(group: Group, **change: int) -> Position:
    """Ends the list, and asks again as long as that can't be now: a member may be silent for a moment."""
    ends = time.monotonic() + SOON
    while time.monotonic() < ends:
        try:
            return group.succeed(timeout=SOON, **change)
        except (muoswyld.NotNow, muoswyld.NotSucceeded):
            time.sleep(0.05)
    raise AssertionError("the list doesn't end")


class Groups(unittest.TestCase):
    """Groups of members in this process."""

    def test_one_order(self) -> None:
        """All are given the same, each sender's messages in its order; a message's bytes come through, whatever they are."""
        groups = three(addresses())
        bodies = [b"", b"\0", b"a\0b", bytes(range(256)), b"x" * 65_535]

        def send(group: Group) -> list[Position]:
            """Sends all of them; where they stand."""
            return [group.send(body) for body in bodies for _ in range(5)]

        sent = together([lambda group=group: send(group) for group in groups])
        given = [[group.receive(SOON) for _ in range(76)] for group in groups]
        self.assertEqual(given[0], given[1])
        self.assertEqual(given[0], given[2])
        names = (Name(0), Name(1), Name(2))
        self.assertEqual(given[0][0], View(Position(0, 1, 0), names, 1))
        for name, positions in zip(names, sent, strict=True):
            own = [delivery for delivery in given[0] if isinstance(delivery, Message) and delivery.sender == name]
            self.assertEqual([delivery.at for delivery in own], positions)
            self.assertEqual([delivery.message for delivery in own], [body for body in bodies for _ in range(5)])
        for group in groups:
            group.close()

    def test_a_list_ends_and_the_next_one_goes_on(self) -> None:
        """A list is ended with another window: what is sent goes on over it, all are told, and the next one has the window."""
        groups = three(addresses())
        try:
            tickets = [groups[0].submit(b"%d" % k) for k in range(50)]
            end = succeed(groups[1], window=99)
            self.assertEqual(end.generation, 0)
            tickets += [groups[2].submit(b"after %d" % k) for k in range(10)]
            positions = [ticket.wait(SOON) for ticket in tickets]
            self.assertEqual(positions[:50], sorted(positions[:50]))
            self.assertTrue(all(at.generation == 1 for at in positions[50:]))
            logs = []
            for group in groups:
                log = until(group, Succeeded)
                while sum(isinstance(delivery, Message) for delivery in log) < 60:
                    log.append(group.receive(SOON))
                logs.append(log)
                self.assertEqual((group.info().generation, group.info().window), (1, 99))
            self.assertEqual(logs[0], logs[1])
            self.assertEqual(logs[0], logs[2])
            said = next(delivery for delivery in logs[0] if isinstance(delivery, Succeeded))
            self.assertEqual((said.at, said.window, said.resilience), (end, 99, 1))
            self.assertEqual(said.founders, (Name(0), Name(1), Name(2)))
            self.assertEqual([delivery.at for delivery in logs[0]], sorted(delivery.at for delivery in logs[0]))
            for wrong in ({"window": 0}, {"window": 1009}, {"resilience": 16}, {"pb_up_to": -1}, {"pb_up_to": 70_000}):
                with self.assertRaises(muoswyld.BadValue):
                    succeed(groups[0], **wrong)
        finally:
            for group in groups:
                group.close()

    def test_a_place_comes_back_by_its_folder(self) -> None:
        """With voters and folders of state the others find out by themselves that a member has stopped, and it comes back in the list that follows."""
        where = addresses()
        with tempfile.TemporaryDirectory() as folder:
            more = [{"state": pathlib.Path(folder) / name, "voters": "0,1,2"} for name in "012"]
            for name, settings in zip("012", more, strict=True):
                Group.found(config(name, where, **settings))
                with self.assertRaisesRegex(muoswyld.BadState, "has the state of a place already"):
                    Group.found(config(name, where, **settings))
            made = together([lambda name=name: Group.start(config(name, where, **more[int(name)])) for name in "012"])
            assert all(isinstance(group, Group) for group in made), made
            groups: list[Group] = made  # type: ignore[assignment]
            try:
                with self.assertRaisesRegex(muoswyld.BadState, "another process of the place runs"):
                    Group.start(config("2", where, **more[2]))
                groups[2].stop()
                groups[2].wait(SOON)
                while until(groups[0], View)[-1].members != (Name(0), Name(1)):
                    pass
                with self.assertRaisesRegex(muoswyld.BadState, "2 was begun already"):
                    Group.start(config("2", where, **more[2]))
                with Group.start(config("2", where, next_life=True, **more[2])) as back:
                    self.assertEqual(back.name, Name(2, 2))
                    back.send(b"back", SOON)
                    self.assertEqual(messages(groups[0], 1)[0].message, b"back")
                succeed(groups[0])
                with Group.start(config("2", where, next_life=True, **more[2])) as again:
                    self.assertEqual((again.name, again.info().generation), (Name(2), 1))
                    again.send(b"again", SOON)
            finally:
                for group in groups:
                    group.close()

    def test_a_list_ends_by_itself(self) -> None:
        """A list ends once as few numbers are left as the config says; a config says that within its limits."""
        with one(addresses(), succeed_at_numbers=2_000_000_000 - 5) as group:
            for k in range(20):
                group.send(b"%d" % k, SOON)
            self.assertIsInstance(until(group, Succeeded)[-1], Succeeded)
            self.assertGreater(group.info().generation, 0)
        for wrong in ({"succeed_at_lives": 16}, {"succeed_at_numbers": -1}, {"policy": "guess"}, {"policy": "command"}, {"voters": "5", "policy": "echo"}):
            with self.assertRaises(muoswyld.BadValue):
                one(addresses(), **wrong)
        with self.assertRaises(muoswyld.BadName):
            one(addresses(), voters="x")

    def test_stop_reset_return_leave(self) -> None:
        """A member stops, the others are told and reset; its place comes back, and leaves."""
        where = addresses()
        groups = three(where)
        groups[2].stop()
        self.assertEqual(groups[2].wait(SOON), End.STOPPED)
        self.assertEqual((groups[2].end_text, groups[1].end_text), ("it was stopped, and hasn't left", None))
        with self.assertRaisesRegex(Ended, "the member has ended: it was stopped, and hasn't left"):
            groups[2].reset()
        groups[2].close()
        for group in groups[:2]:
            group.stopped("2")
            self.assertEqual(until(group, View)[-1].at.number, 1)
            self.assertEqual(until(group, View)[-1], View(Position(0, 2, 0), (Name(0), Name(1)), 1))
        self.assertEqual(groups[0].reset(2, SOON), 3)
        with Group.join(config("2/2", where)) as back:
            self.assertEqual(back.receive(SOON), until(groups[0], Joined)[-1])
            self.assertEqual(back.name, Name(2, 2))
            self.assertEqual([str(name) for name in back.info().members], ["0", "1", "2/2"])
            with self.assertRaises(muoswyld.TooFew):
                back.reset(4, SOON)
            back.reset(timeout=SOON)
            back.send(b"bye", SOON)
        self.assertEqual((back.ended, back.end_text), (End.LEFT, "it left the group"))
        self.assertEqual(messages(groups[0], 1)[0].message, b"bye")
        self.assertEqual(until(groups[0], Left)[-1].name, Name(2, 2))
        for group in groups[:2]:
            group.close()

    def test_errors(self) -> None:
        """Each error is an exception of its own, and an error of Python where there is one."""
        where = addresses()
        refused: list[tuple[type[Exception], type[Exception], dict[str, object]]] = [
            (muoswyld.BadName, ValueError, {"name": "16"}),
            (muoswyld.BadName, ValueError, {"founders": "1,0"}),
            (muoswyld.NoFounder, ValueError, {"name": "3"}),
            (muoswyld.BadAddress, ValueError, {"addresses": {0: "somewhere"}}),
            (muoswyld.BadAddress, ValueError, {"addresses": {0: "127.0.0.1:1", 1: "127.0.0.1:1"}}),
            (muoswyld.NoAddress, ValueError, {"addresses": {0: "127.0.0.1:1"}}),
            (muoswyld.NoKey, ValueError, {"key": None}),
            (muoswyld.BadValue, ValueError, {"key": b"short"}),
            (muoswyld.BadValue, ValueError, {"resilience": 16}),
            (muoswyld.BadValue, ValueError, {"resilience": 256}),
            (muoswyld.BadValue, ValueError, {"window": 65_536 + 9}),
            (muoswyld.BadValue, ValueError, {"least": -1}),
            (muoswyld.BadValue, ValueError, {"addresses": {256: "127.0.0.1:1"}}),
            (muoswyld.SystemRefused, OSError, {"journal": "/nowhere/journal"}),
            (muoswyld.Timeout, TimeoutError, {"name": "1", "start_within": 0.05}),
        ]
        for kind, python, change in refused:
            with self.subTest(change), self.assertRaises(kind) as raised:
                Group.create(config(**{"name": "0", "where": where, **change}))  # type: ignore[arg-type]
            self.assertIsInstance(raised.exception, python)
            self.assertIsInstance(raised.exception, muoswyld.MuoswyldError)
        with self.assertRaisesRegex(muoswyld.IsFounder, "0 is one of the founders"):
            Group.join(config("0", where))

    def test_errors_of_a_member(self) -> None:
        """The same of the calls of a member, and after its end."""
        where = addresses()
        with one(where, most_waiting=131_072) as group:
            for kind, call in (
                (muoswyld.TooLong, lambda: group.send(b"x" * 65_536)),
                (muoswyld.Itself, lambda: group.stopped("0")),
                (muoswyld.BadName, lambda: group.stopped("0/17")),
                (muoswyld.BadValue, lambda: group.reset(17)),
                (muoswyld.BadValue, lambda: group.reset(0)),
                (TypeError, lambda: group.send("text")),  # type: ignore[arg-type]
                (muoswyld.Timeout, lambda: group.wait(0)),
            ):
                self.assertRaises(kind, call)
            self.assertRaises(muoswyld.SystemRefused, Group.create, config("0", where, founders="0"))
        self.assertEqual(group.ended, End.CLOSED)
        self.assertRaises(Ended, group.send, b"late")
        self.assertRaises(Ended, group.receive, 0)

    def test_full(self) -> None:
        """Where nobody receives, sends wait, and then there is no room."""
        with one(addresses(), most_waiting=131_072, most_unreceived=1, window=8) as group:
            with self.assertRaises(muoswyld.Full):
                for _ in range(1_000):
                    ticket = group.submit(b"x" * 60_000, 1.0)
            self.assertIsNone(ticket.look())
            self.assertRaises(muoswyld.Timeout, ticket.wait, 0.01)
            self.assertRaises((muoswyld.Full, muoswyld.Timeout), group.send, b"x" * 60_000, 0.3)
            while ticket.look() is None:
                group.receive(SOON)
            self.assertEqual(ticket.wait(), ticket.look())

    def test_iteration_and_close(self) -> None:
        """An iteration ends with its member, also in another thread; what was delivered comes before the end."""
        group = one(addresses())
        group.send(b"a")
        group.leave(SOON)
        self.assertEqual([type(delivery) for delivery in group], [View, Message])
        self.assertRaises(Ended, group.receive)
        group.close()
        group.close()
        other = one(addresses())
        given: list[list[Delivery]] = []
        thread = threading.Thread(target=lambda: given.append(list(other)))
        thread.start()
        time.sleep(0.1)
        other.close()
        thread.join(SOON)
        self.assertEqual([len(each) for each in given], [1])
        self.assertEqual(other.ended, End.STOPPED)
        with self.assertRaises(KeyError), one(addresses()) as group:
            raise KeyError
        self.assertEqual(group.ended, End.STOPPED)

    def test_descriptor(self) -> None:
        """The descriptor tells of what is there to be received, and of the end."""
        with one(addresses()) as group:
            def is_rung(seconds: float = 0) -> bool:
                """Whether it can be read in time."""
                return bool(select.select([group], [], [], seconds)[0])

            self.assertIsInstance(group.receive(), View)
            self.assertRaises(muoswyld.Timeout, group.receive, 0)
            self.assertFalse(is_rung())
            group.send(b"a")
            self.assertTrue(is_rung(SOON))
            self.assertEqual(messages(group, 1)[0].message, b"a")
            self.assertRaises(muoswyld.Timeout, group.receive, 0.01)
            self.assertFalse(is_rung())
            group.stop()
            self.assertTrue(is_rung(SOON))
            for _ in range(2):
                self.assertRaises(Ended, group.receive)
                self.assertTrue(is_rung())

    def test_ctrl_c(self) -> None:
        """Ctrl-C ends what waits: a founder that waits for the lowest one, one that receives, and a reset that isn't decided."""
        # whoever runs these tests may ignore the signal
        begin = "import muoswyld, signal\nsignal.signal(signal.SIGINT, signal.default_int_handler)\n"
        begin += f"where = {addresses()}\n"
        begin += "config = lambda name, founders: muoswyld.Config(name, founders=founders, addresses=where, key=b'k' * 32)\n"
        lone = "group = muoswyld.Group.create(config('0', '0'))\n"
        waits = ["muoswyld.Group.create(config('1', '0,1'))", f"{lone}list(group)", f"{lone}group.wait()"]
        waits += [f"import asyncio\n{each}" for each in (
            "asyncio.run(muoswyld.Group.create_async(config('1', '0,1')))",
            f"{lone}async def take():\n    async with group:\n        [0 async for _ in group]\nasyncio.run(take())",
        )]
        for code in waits:
            child = subprocess.Popen([sys.executable, "-c", f"{begin}print('ready', flush=True)\n{code}"], stdout=subprocess.PIPE, stderr=subprocess.PIPE)
            assert child.stdout is not None
            child.stdout.readline()
            time.sleep(0.5)
            child.send_signal(signal.SIGINT)
            _, said = child.communicate(timeout=SOON)
            self.assertTrue(said.rstrip().endswith(b"KeyboardInterrupt"), said)
            self.assertEqual(child.returncode, -signal.SIGINT)


class Loops(unittest.IsolatedAsyncioTestCase):
    """Groups in an event loop."""

    async def test_many_sends(self) -> None:
        """Sends under way at the same time, and `async for`, of three members."""
        where = addresses()
        groups = await asyncio.gather(*(Group.create_async(config(name, where)) for name in "012"))

        async def take(group: Group) -> list[Delivery]:
            """The deliveries of a member."""
            found: list[Delivery] = []
            async for delivery in group:
                found.append(delivery)
                if len(found) == 301:
                    break
            return found

        takers = [asyncio.create_task(take(group)) for group in groups]
        sent = await asyncio.gather(*(group.send_async(b"%d" % k) for group in groups for k in range(100)))
        given = [await taker for taker in takers]
        self.assertTrue(given[0] == given[1] == given[2])
        self.assertEqual(sorted(sent), [delivery.at for delivery in given[0][1:]])
        for k in range(3):
            self.assertEqual(sent[100 * k : 100 * (k + 1)], sorted(sent[100 * k : 100 * (k + 1)]))
        self.assertGreater(await groups[1].reset_async(timeout=SOON), 1)
        for group in groups:
            group.close()

    async def test_a_place_comes_back(self) -> None:
        """A place comes back as its next life, whichever call starts it, and has that life's name; a life that was begun is refused."""
        where = addresses()
        with tempfile.TemporaryDirectory() as folder:
            settings = [config(name, where, state=pathlib.Path(folder) / name) for name in "012"]
            for each in settings:
                Group.found(each)
            groups = list(await asyncio.gather(*map(Group.start_async, settings)))
            try:
                for life, start in ((2, Group.start_async), (3, Group.join_async)):
                    groups[2].close()
                    with self.assertRaisesRegex(muoswyld.BadState, "2 was begun already"):
                        await Group.start_async(settings[2])
                    for group in groups[:2]:
                        group.stopped(groups[2].name)
                    groups[2] = await start(dataclasses.replace(settings[2], next_life=True))
                    self.assertEqual((groups[2].name, groups[2].info().name), (Name(2, life), Name(2, life)))
                    await groups[2].send_async(b"back %d" % life)
                    self.assertEqual(messages(groups[0], 1)[0].message, b"back %d" % life)
            finally:
                for group in groups:
                    group.close()

    async def test_sends_alone(self) -> None:
        """Sends go on though nobody receives meanwhile, and what they hold is received after."""
        async with await Group.start_async(config("0", addresses(), founders="0", resilience=0)) as group:
            for k in range(300):
                await group.send_async(b"%d" % k)
            self.assertIsInstance(await group.receive_async(), View)
            self.assertEqual([(await group.receive_async()).message for _ in range(300)], [b"%d" % k for k in range(300)])
            with self.assertRaises(TimeoutError):
                async with asyncio.timeout(0.05):
                    await group.receive_async()
            await group.send_async(b"last")
            self.assertEqual((await group.receive_async()).message, b"last")
        self.assertEqual(group.ended, End.CLOSED)

    async def test_rest(self) -> None:
        """A loop that waits for a group rests."""
        async with await Group.start_async(config("0", addresses(), founders="0", resilience=0)) as group:
            await group.receive_async()
            waits = asyncio.create_task(group.receive_async())
            used = time.process_time()
            await asyncio.sleep(0.5)
            self.assertLess(time.process_time() - used, 0.2)
            group.stop()
            with self.assertRaises(Ended):
                await waits
            self.assertEqual([delivery async for delivery in group], [])

    async def test_close(self) -> None:
        """Closing wakes who waits."""
        group = await Group.start_async(config("0", addresses(), founders="0", resilience=0))
        taken = asyncio.create_task(anext(aiter(group)))
        self.assertIsInstance(await taken, View)
        waits = asyncio.create_task(group.receive_async())
        await asyncio.sleep(0.05)
        group.close()
        with self.assertRaises(Ended):
            await asyncio.wait_for(waits, SOON)


class Values(unittest.TestCase):
    """Names, keys, options, and what the package says of itself."""

    def test_names(self) -> None:
        """Names are read and written alike."""
        for text in ("0", "15", "3/2", "15/16"):
            self.assertEqual(str(Name.of(text)), text)
        self.assertEqual(Name.of("3/2"), Name(3, 1).next_life())
        self.assertEqual(Name.of(4), Name(4))
        self.assertLess(Name(1, 2), Name(2, 1))
        for bad in ("", "16", "-1", "01", "1/1", "1/", "1/17", "/2", "a", "1/2/3", " 1", "\u0661"):
            with self.subTest(bad):
                self.assertRaises(muoswyld.BadName, Name.of, bad)
        self.assertRaises(muoswyld.BadName, Name(0, 16).next_life)

    def test_keys(self) -> None:
        """A key's file is read only if nobody else can read it."""
        with tempfile.TemporaryDirectory() as folder:
            path = pathlib.Path(folder) / "key"
            key = muoswyld.new_key()
            muoswyld.write_key(path, key)
            self.assertEqual((muoswyld.read_key(path), len(key)), (key, 32))
            self.assertRaises(FileExistsError, muoswyld.write_key, path, key)
            path.chmod(0o640)
            self.assertRaises(PermissionError, muoswyld.read_key, path)
            path.chmod(0o600)
            path.write_text("0f" * 31)
            self.assertRaises(muoswyld.BadValue, muoswyld.read_key, path)

    def test_options(self) -> None:
        """A program's options name a member."""
        parser = argparse.ArgumentParser()
        muoswyld.add_options(parser)
        given = "--name 1/2 --founders 0,1 --address 0=127.0.0.1:1 --address 1=127.0.0.1:2 --insecure --resilience 1 --pb-up-to 9".split()
        wanted = Config("1/2", "0,1", {0: "127.0.0.1:1", 1: "127.0.0.1:2"}, insecure=True, resilience=1, pb_up_to=9)
        self.assertEqual(muoswyld.config_of(parser.parse_args(given)), wanted)
        for more in ("1=127.0.0.1:3", "x=127.0.0.1:3"):
            options = parser.parse_args([*given, "--address", more])
            self.assertRaises(muoswyld.BadAddress, muoswyld.config_of, options)

    def test_version(self) -> None:
        """The package says whether the node that is linked is proved."""
        self.assertRegex(muoswyld.node_version(), r"^(un)?proved \w+ \S+")

    def test_documentation(self) -> None:
        """Everything that is public has a page, and the package has types."""
        for name in muoswyld.__all__:
            value = getattr(muoswyld, name)
            if inspect.isclass(value) or inspect.isfunction(value):
                self.assertTrue(value.__doc__, name)
            if inspect.isclass(value):
                for own, member in vars(value).items():
                    is_public = not own.startswith("_") and (callable(member) or isinstance(member, (property, classmethod)))
                    self.assertTrue(not is_public or inspect.getdoc(getattr(value, own)), f"{name}.{own}")
        self.assertTrue(pathlib.Path(muoswyld.__file__).with_name("py.typed").exists())


if __name__ == "__main__":
    unittest.main()
