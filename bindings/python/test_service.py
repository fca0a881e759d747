"""Tests of the package muoswyld as it is installed: replicated state machines. gate/try_python.py runs them."""

import asyncio
import contextlib
import os
import resource
import unittest
from collections.abc import Iterator

import muoswyld
from muoswyld import Ended, Group, Name, Position, Service, View
from test_group import SOON, addresses, config, one, succeed, three


class Counter:
    """A machine that adds numbers."""

    def __init__(self) -> None:
        self.total = 0

    def apply(self, at: Position, command: bytes) -> bytes:
        """Adds a number; some other commands go wrong."""
        if command == b"raise":
            raise KeyError("as asked")
        if command.isdigit():
            self.total += int(command)
        return b"%d" % self.total

    def snapshot(self) -> Iterator[bytes]:
        """The total."""
        yield b"%d" % self.total

    def restore(self, record: bytes) -> None:
        """The total."""
        self.total = int(record)


class Misreading(Counter):
    """A machine that can't read what it is sent."""

    def restore(self, record: bytes) -> None:
        """Refuses it."""
        raise LookupError("as asked")


def total(machine: Counter) -> int:
    """A counter's total."""
    return machine.total


class Services(unittest.IsolatedAsyncioTestCase):
    """Replicated state machines."""

    def test_stop_and_return(self) -> None:
        """All count alike; one stops, its place comes back and is sent the total."""
        where = addresses()
        groups = three(where)
        services = [Service(group, Counter()) for group in groups]
        self.assertEqual(services[0].call(b"5"), b"5")
        self.assertEqual(services[1].call(b"10", SOON), b"15")
        self.assertEqual(services[2].read(total), 15)
        given = [service.submit(b"1") for service in services for _ in range(1_000)]
        self.assertEqual({int(future.result(SOON)) for future in given}, set(range(16, 3_016)))
        self.assertEqual(services[1].call(b"x" * (1 << 20), SOON), b"3015")
        with self.assertRaises(muoswyld.TooLong):
            services[1].submit(b"x" * ((1 << 20) + 1))
        groups[0].close()
        for call in (lambda: services[0].call(b"1"), lambda: services[0].read(total), services[0].info):
            self.assertRaises(Ended, call)
        for group in groups[1:]:
            group.stopped("0")
        self.assertEqual(services[1].call(b"100", SOON), b"3115")
        with Group.join(config("0/2", where)) as group, Service(group, Counter()) as service:
            self.assertEqual(service.read_local(total), 3_115)
            self.assertEqual(service.call(b"1", SOON), b"3116")
            self.assertEqual(services[2].read(total), 3_116)
            info = service.info()
            self.assertEqual((info.is_ready, info.holders), (True, (Name(0, 2), Name(1), Name(2))))
            self.assertIsNotNone(info.applied)
            self.assertRaises(ZeroDivisionError, service.read, lambda _: 1 // 0)
        with self.assertRaisesRegex(Ended, "the service is closed"):
            service.call(b"1")
        for each in (*services, *groups):
            each.close()
            each.close()

    def test_ends_of_lists(self) -> None:
        """Commands that are under way when lists end are applied once each, and all counters go on."""
        groups = three(addresses())
        services = [Service(group, Counter()) for group in groups]
        given = []
        for group in groups:
            given += [service.submit(b"1") for service in services for _ in range(100)]
            succeed(group)
            given += [service.submit(b"1") for service in services for _ in range(100)]
        self.assertEqual(sorted(int(future.result(SOON)) for future in given), [*range(1, 1_801)])
        for service in services:
            self.assertEqual(service.read(total), 1_800)
            applied = service.info().applied
            self.assertEqual(applied and applied.generation, 3)
        for each in (*services, *groups):
            each.close()

    def test_failures(self) -> None:
        """A machine that raises something ends its service, with that as the cause; so does one that calls its own service."""

        class Calling(Counter):
            """It calls its service, which can't be."""

            def apply(self, at: Position, command: bytes) -> bytes:
                """Calls its service."""
                return service.call(b"1")

        for machine, kind in ((Counter(), KeyError), (Calling(), RuntimeError)):
            with one(addresses()) as group, Service(group, machine) as service, self.assertLogs("muoswyld", "ERROR") as logs:
                with self.assertRaises(muoswyld.MachineFailed) as raised:
                    service.call(b"raise", SOON)
                self.assertIsInstance(raised.exception.__cause__, kind)
                self.assertRaises(muoswyld.MachineFailed, service.submit, b"1")
            self.assertEqual(len(logs.records), 1)

    def test_lost(self) -> None:
        """A joiner waits for the state; after all that had it have stopped it is lost. One that can't read what it is sent ends."""
        where = addresses()
        with one(where) as founder, Group.join(config("1", where, founders="0", resilience=0, least=1)) as group, Service(group, Counter()) as service:
            self.assertRaises(muoswyld.Timeout, service.wait_ready, 0.1)
            with Group.join(config("2", where, founders="0", resilience=0)) as other, Service(founder, Counter()) as first:
                first.call(b"7", SOON)
                with self.assertLogs("muoswyld", "ERROR"), Service(other, Misreading()) as misreading, self.assertRaises(muoswyld.ServiceEnded) as spoilt:
                    misreading.wait_ready(SOON)
                self.assertIsInstance(spoilt.exception.__cause__, LookupError)
                self.assertEqual(service.read(total, SOON), 7)
                self.assertEqual(service.read_local(total), 7)
        where = addresses()
        with one(where) as founder, Group.join(config("1", where, founders="0", resilience=0, least=1)) as group, Service(group, Counter()) as service:
            asked = service.submit(b"1")
            founder.stop()
            group.stopped("0")
            with self.assertRaisesRegex(muoswyld.ServiceEnded, "all replicas that had the state have stopped or left"):
                service.wait_ready(SOON)
            self.assertIsInstance(asked.exception(SOON), muoswyld.ServiceEnded)

    def test_many_descriptors(self) -> None:
        """A process may have more descriptors than select takes."""
        least, most = resource.getrlimit(resource.RLIMIT_NOFILE)
        if most < 1_200:
            self.skipTest("the system allows fewer")
        resource.setrlimit(resource.RLIMIT_NOFILE, (max(least, 1_200), most))
        with contextlib.ExitStack() as files:
            for _ in range(1_100):
                files.enter_context(open(os.devnull, "rb"))
            with one(addresses()) as group, Service(group, Counter()) as service:
                self.assertGreater(group.fileno(), 1_023)
                self.assertEqual(service.call(b"1", SOON), b"1")
            with one(addresses()) as group:
                self.assertIsInstance(group.receive(SOON), View)
                self.assertRaises(muoswyld.Timeout, group.receive, 0.01)

    async def test_in_a_loop(self) -> None:
        """Commands and reads in an event loop; one that is given up changes nothing for the others."""
        async with await Group.start_async(config("0", addresses(), founders="0", resilience=0)) as group:
            with Service(group, Counter()) as service:
                self.assertEqual(await service.call_async(b"1"), b"1")
                dropped = asyncio.create_task(service.call_async(b"1"))
                await asyncio.sleep(0)
                dropped.cancel()
                given = await asyncio.gather(*(service.call_async(b"1") for _ in range(100)))
                self.assertEqual(given, [b"%d" % k for k in range(3, 103)])
                self.assertEqual(await service.read_async(total), 102)


if __name__ == "__main__":
    unittest.main()
