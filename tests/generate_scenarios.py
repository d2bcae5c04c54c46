#!/usr/bin/env python3
"""Writes random scenarios of version 2, of which some are refused.

usage: generate_scenarios.py SEED COUNT FOLDER

Scenario N of a seed is the same each time: FOLDER/SEED-N.json.
"""
import json
import os
import random
import sys

OPTIONS = ["clone", "exec", "exit", "exitkill"]
SIGNALS = [1, 2, 9, 10, 12, 15, 17, 18, 19, 20, 21, 28, 34, 64]


class Maker:
    """Makes one scenario from one source of chance."""

    def __init__(self, name):
        self.chance = random.Random(name)
        self.groups = []
        self.threads = []

    def one_in(self, n):
        return self.chance.randrange(n) == 0

    def signal(self):
        return self.chance.choice(SIGNALS)

    def signals(self):
        return self.chance.sample(SIGNALS, self.chance.randrange(4))

    def options(self):
        return self.chance.sample(OPTIONS, self.chance.randrange(5))

    def thread(self):
        if self.one_in(20):
            return self.chance.choice([0, 9, 4294967295])
        return self.chance.choice(self.threads)

    def group(self):
        if self.one_in(20):
            return self.chance.choice([0, 9, 11])
        return self.chance.choice(self.groups)

    def start(self):
        """The groups, with ids in steps so that clones find room between them."""
        groups = []
        for number in range(self.chance.choice([1, 1, 1, 2, 2, 3])):
            leader = 10 + 100 * number
            ids = [leader + k for k in range(self.chance.choice([1, 1, 2, 3, 4]))]
            actions = self.chance.sample([s for s in SIGNALS if s not in (9, 19)], self.chance.randrange(4))
            groups.append({
                "tgid": leader,
                "name": self.chance.choice(["demo", "a b", "fifteen letters"]),
                "threads": [{"tid": tid, "blocked": self.signals()} for tid in ids],
                "actions": [{"sig": s, "how": self.chance.choice(["default", "ignore", "catch"])} for s in actions],
            })
            self.groups.append(leader)
            self.threads += ids
        return groups

    def op(self, tid):
        """What a thread does by itself."""
        kind = self.chance.choice(["mask", "action", "pause", "clone", "exec", "exit", "exit_group"])
        op = {"do": kind, "tid": self.thread() if self.one_in(10) else tid}
        if kind == "mask":
            op["set"] = self.signals()
        elif kind == "action":
            op["sig"] = self.signal()
            op["how"] = self.chance.choice(["default", "ignore", "catch"])
        elif kind in ("exit", "exit_group"):
            op["code"] = self.chance.choice([0, 1, 255, 256])
        return op

    def send(self):
        kind = self.chance.choice(["kill", "tgkill", "sigqueue"])
        event = {"do": kind, "tgid": self.group(), "sig": 0 if self.one_in(10) else self.signal()}
        if kind == "tgkill":
            event["tid"] = self.thread()
        elif kind == "sigqueue":
            event["value"] = self.chance.choice([-2147483648, -1, 0, 7, 2147483647])
        return event

    def request(self):
        """What a tracer asks for."""
        kind = self.chance.choice([
            "attach", "seize", "interrupt", "cont", "cont", "cont", "listen", "detach", "options", "message", "siginfo",
            "tracer_exit", "wait", "wait", "wait",
        ])
        if kind == "tracer_exit":
            return {"do": kind}
        event = {"do": kind, "tid": 0 if kind == "wait" and self.one_in(2) else self.thread()}
        if kind in ("seize", "options"):
            event["options"] = self.options()
        elif kind in ("cont", "detach"):
            event["sig"] = 0 if self.one_in(2) else self.signal()
        return event

    def starter_wait(self):
        return {
            "do": "starter_wait",
            "tgid": 0 if self.one_in(2) else self.group(),
            "untraced": self.one_in(2),
            "continued": self.one_in(2),
        }

    def serve(self):
        kind = self.chance.choice(["take", "take", "take_any", "halt", "trap", "die", "finish"])
        if kind == "take_any":
            return {"do": kind, "tgid": self.group()}
        return {"do": kind, "tid": self.thread()}

    def item(self, makers):
        item = self.chance.choice(makers)()
        if self.one_in(8):
            item["until"] = True
        elif self.one_in(4):
            item["times"] = self.chance.choice([1, 2, 3, 10])
        return item

    def items(self, makers):
        return [self.item(makers) for _ in range(self.chance.randrange(12))]

    def machine(self):
        served = self.threads if self.one_in(2) else self.chance.sample(self.threads, self.chance.randint(1, len(self.threads)))
        served = served + [tid + 1000 for tid in ([] if self.one_in(2) else served[:1])]
        return [{"tid": tid, "ops": [self.op(tid) for _ in range(self.chance.randrange(5))]} for tid in served]

    def workers(self):
        actors = self.chance.sample([2, 3, 10, 11, 110, 900, 901, 902, 4294967295], self.chance.randint(1, 5))
        workers = []
        for actor in actors:
            kind = self.chance.randrange(5)
            if kind == 0 or kind == 1:
                workers.append({"actor": actor, "machine": self.machine()})
            elif kind == 2:
                workers.append({"actor": actor, "items": self.items([self.request, self.request, self.send])})
            elif kind == 3:
                workers.append({"actor": 1 if not workers else actor, "items": self.items([self.starter_wait, self.send])})
            else:
                makers = [self.send, self.request, self.serve, self.starter_wait, lambda: self.op(self.thread())]
                workers.append({"actor": actor, "items": self.items(makers)})
        return workers

    def ended(self, workers):
        """Lets the tracers end, kills all groups and waits for them, so that most machines come to an end."""
        for worker in workers:
            if worker["actor"] == 1:
                worker["actor"] = 5
            if "items" in worker:
                worker["items"].append({"do": "tracer_exit"})
        sends = {"do": "kill", "tgid": 10, "sig": 0, "times": 30}
        kills = [{"do": "kill", "tgid": tgid, "sig": 9} for tgid in self.groups]
        wait = {"do": "starter_wait", "tgid": 0, "untraced": False, "continued": False, "until": True}
        workers.append({"actor": 1, "items": [sends] + kills + [wait] * len(kills)})
        last = max(self.threads) + 1
        workers.append({"actor": 4, "machine": [{"tid": tid, "ops": []} for tid in self.threads + list(range(last, last + 8))]})

    def spoil(self, scenario):
        """Makes one change after which most scenarios are refused."""
        worker = self.chance.choice(scenario["workers"])
        members = worker.get("items") or [op for served in worker.get("machine", []) for op in served["ops"]]
        member = self.chance.choice(members) if members else worker
        change = self.chance.randrange(16)
        if change == 0:
            scenario["version"] = self.chance.choice([0, 1, 3, "2"])
        elif change == 1:
            scenario["steps"] = []
        elif change == 2:
            scenario["workers"] = self.chance.choice([[], {}, None, scenario["workers"] * 30])
        elif change == 3:
            worker["actor"] = self.chance.choice([0, 4294967296, "1", scenario["workers"][0]["actor"]])
        elif change == 4:
            worker["items"] = []
        elif change == 5:
            worker["machine"] = []
        elif change == 6:
            worker.pop("items", None)
        elif change == 7:
            member["times"] = self.chance.choice([0, 1, 100001, 100000, None])
        elif change == 8:
            member["until"] = self.chance.choice([False, True, 1, None])
        elif change == 9:
            member["times"], member["until"] = 1, True
        elif change == 10:
            member["do"] = self.chance.choice(["kill", "take", "exec", "Exec", 7])
        elif change == 11:
            member["set"] = [65]
        elif change == 12:
            member["note"] = 0
        elif change == 13:
            worker["note"] = 0
        elif change == 14:
            scenario["workers"] = scenario["workers"] * 2
        else:
            group = self.chance.choice(scenario["groups"])
            group["threads"] = group["threads"] * 2

    def scenario(self):
        scenario = {
            "version": 2,
            "limit": self.chance.choice([0, 1, 4, 100]),
            "entries": self.chance.choice([1, 10, 1000, 100000]) if self.one_in(4) else 100000,
            "groups": self.start(),
            "workers": self.workers(),
        }
        if not self.one_in(4):
            self.ended(scenario["workers"])
        if self.one_in(5):
            self.spoil(scenario)
        return scenario


def main():
    if len(sys.argv) != 4:
        sys.exit(__doc__)
    seed, count, folder = sys.argv[1], int(sys.argv[2]), sys.argv[3]
    os.makedirs(folder, exist_ok=True)
    for number in range(count):
        with open(os.path.join(folder, f"{seed}-{number}.json"), "w") as file:
            json.dump(Maker(f"{seed}-{number}").scenario(), file)


if __name__ == "__main__":
    main()
