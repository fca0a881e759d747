#!/usr/bin/env python3
"""Tries stores (docs/KV.md) while the network between them fails: three stores in network namespaces, with a policy that finds out who has
stopped, and eight clients on all sides. One store is cut off, or hears nobody, or is heard by nobody, or none hears another. The group's list
is ended as one store is cut off, and in the end. A store without a majority of the voters must answer nothing; what clients were answered
must be linearizable; and the stores are the same in the end.

    gate/try_kv_splits.py [PROGRAM [SECONDS [SEED [POLICIES [READS]]]]]

PROGRAM is muoswyld-kv, with muoswyldd beside it: else those that are built here. SECONDS, 6, is how long the network fails for each policy of
POLICIES (echo,lease). READS is how stores read (ordered); with `local` they may read an earlier state, and the search for an order must say
so. Where network namespaces can't be made it says so, and tries nothing.
"""

import pathlib
import subprocess
import sys
import tempfile

from apart import Apart, Splits
from kv import histories
from kv.resp import Cut
from kv.stores import Failed, differences
from network import Network
from words import end, words

TOP = pathlib.Path(__file__).resolve().parent.parent
PATIENCE = 60.0


def tried(program: pathlib.Path, policy: str, reads: str, given: tuple[float, int]) -> list[str]:
    """What is wrong with stores of a policy in so many seconds, by a seed."""
    seconds, seed = given
    with tempfile.TemporaryDirectory(prefix="muoswyld-kv-") as folder, Apart(pathlib.Path(folder), program, PATIENCE, policy, reads) as stores:
        splits = Splits(stores, seconds, seed)
        kept = histories.kept(stores, seed, splits)
        print(f"{policy}: the network failed {len(splits.apart)} times, {splits.ended} stores were given up and came back, {stores.generation} lists ended")
        wrong = histories.faults(kept)
        if reads == "local":
            found = [line for line in wrong if "isn't linearizable" in line]
            print(*found, sep="\n", end="\n" if found else "")
            return [] if found else ["local reads aren't found out"]
        return [*wrong, *splits.late(kept.answers), *differences(stores)]


def main() -> int:
    """Tries each policy."""
    given = words(__doc__, 0, 5)
    program = pathlib.Path(given[0]).resolve() if given else TOP / "runtime" / "target" / "release" / "muoswyld-kv"
    seconds = float(given[1]) if len(given) > 1 else 6.0
    seed = int(given[2]) if len(given) > 2 else 1
    policies = given[3].split(",") if len(given) > 3 else ["echo", "lease"]
    reads = given[4] if len(given) > 4 else "ordered"
    network = Network(2)
    network.close()
    if not network.has_namespaces:
        print("gate/try_kv_splits.py: skipped: network namespaces can't be made here, so no network fails")
        return 0
    failed = 0
    for policy in policies:
        try:
            wrong = tried(program, policy, reads, (seconds, seed))
        except (Failed, Cut, OSError, subprocess.SubprocessError) as error:
            wrong = [str(error)]
        print(*(f"refused: {policy}: {line}" for line in wrong), sep="\n", end="\n" if wrong else "", flush=True)
        failed += bool(wrong)
    print(f"gate/try_kv_splits.py: {len(policies) - failed} passed, {failed} failed")
    return 1 if failed else 0


if __name__ == "__main__":
    end(main)
    sys.exit(0)
