#!/usr/bin/env python3
"""Runs random scripts of 64 workers on threads, for as long as it is told.

usage: long_run.py PROGRAM SECONDS SEED

Run N of a seed has the same scripts each time; which worker comes first is open. A script has more calls than the worker has
turns, of which each call takes one: so each worker makes as many calls as it has turns, and which of them are waits its script
tells. Each run has to settle: what each worker was told is what the kernel holds, the workers' accepted signals add up to the
kernel's, and each of these has one fate. Stops at the first that doesn't, and leaves its scenario as SEED-N.json. The last line but
one has the figures, the last is 'N passed, M failed'.
"""

import json
import re
import resource
import subprocess
import sys
import time

from generate_scenarios import Maker

WORKERS = 64
TURNS = 1_400
SIGNALS = [10, 12, 18, 19, 20, 21, 28, 34, 40, 64]
WORKER = re.compile(r"^worker (\d+) entries (\d+) accepted (\d+) refused (\d+) turns$", re.M)
TOTALS = re.compile(r"^totals accepted (\d+) pending (\d+) merged (\d+) delivered (\d+) suppressed (\d+) flushed (\d+)$", re.M)


class Lasting(Maker):
    """Makes scripts after which the threads are still there: no signal ends one, and none exits."""

    def signal(self):
        return self.chance.choice(SIGNALS)

    def signals(self):
        return self.chance.sample(SIGNALS, self.chance.randrange(4))

    def options(self):
        return self.chance.sample(["clone", "exec", "exit"], self.chance.randrange(4))

    def start(self):
        groups = super().start()
        for group in groups:
            group["actions"] = [{"sig": sig, "how": "catch"} for sig in SIGNALS if sig not in (19, 20)]
        return groups

    def op(self, tid):
        kind = self.chance.choice(["mask", "pause", "clone"])
        return {"do": kind, "tid": tid, "set": self.signals()} if kind == "mask" else {"do": kind, "tid": tid}


def items(maker, makers):
    """Calls of these kinds, more than there are turns."""
    calls, count = [], 0
    while count <= TURNS:
        calls.append({**maker.chance.choice(makers)(), "times": maker.chance.choice([1, 2, 10, 100])})
        count += calls[-1]["times"]
    return calls


def scripts(maker):
    """One starter, and for the rest machines, tracers, senders, and workers that do a little of everything."""
    kinds = [
        [maker.request, maker.request, maker.request, maker.send],
        [maker.send],
        [maker.serve, maker.serve, maker.send],
        [maker.send, maker.request, maker.serve, lambda: maker.op(maker.thread())],
    ]
    workers = [{"actor": 1, "items": items(maker, [maker.starter_wait])}]
    for actor in range(900, 899 + WORKERS):
        if maker.one_in(4):
            workers.append({"actor": actor, "machine": maker.machine()})
        else:
            workers.append({"actor": actor, "items": items(maker, maker.chance.choice(kinds))})
    return workers


def waits(workers):
    """How many of the calls that these workers make in their turns are waits."""
    calls = [[item["do"] for item in worker.get("items", []) for _ in range(item["times"])] for worker in workers]
    return sum(made[:TURNS].count("wait") + made[:TURNS].count("starter_wait") for made in calls)


def scenario(name):
    maker = Lasting(name)
    return {"version": 2, "limit": 1000, "entries": 1_000_000, "groups": maker.start(), "workers": scripts(maker)}


def sums(text):
    """The entries, accepted and refused of all workers, where the text settles and adds up."""
    workers = [[int(number) for number in found[1:]] for found in WORKER.findall(text)]
    totals = [int(number) for number in TOTALS.search(text).groups()]
    entries, accepted, refused = (sum(column) for column in zip(*workers))
    settles = text.endswith("\nsettled\n") and len(workers) == WORKERS
    return (entries, accepted, refused) if settles and accepted == totals[0] == sum(totals[1:]) else None


def main(program, seconds, seed):
    begun, runs, all_sums = time.monotonic(), 0, [0, 0, 0, 0]
    while time.monotonic() - begun < seconds:
        name = f"{seed}-{runs}"
        made = scenario(name)
        given = json.dumps(made)
        ran = subprocess.run([program, "threads", "--turns", str(TURNS)], input=given, capture_output=True, text=True)
        found = sums(ran.stdout) if ran.returncode == 0 else None
        if not found:
            with open(f"{name}.json", "w", encoding="utf-8") as file:
                file.write(given)
            print(f"{name}: status {ran.returncode}, {ran.stderr!r}\n{runs} passed, 1 failed")
            return 1
        runs += 1
        all_sums = [a + b for a, b in zip(all_sums, (waits(made["workers"]), *found))]
    most = resource.getrusage(resource.RUSAGE_CHILDREN).ru_maxrss
    figures = "{} waits, {} entries, {} signals accepted, {} calls refused".format(*all_sums)
    print(f"{runs * WORKERS * TURNS} calls, {figures}; at most {most} KiB in a run")
    print(f"{runs} passed, 0 failed")
    return 0


if __name__ == "__main__":
    if len(sys.argv) != 4:
        sys.exit(__doc__)
    sys.exit(main(sys.argv[1], float(sys.argv[2]), sys.argv[3]))
