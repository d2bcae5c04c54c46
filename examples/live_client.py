#!/usr/bin/env python3
"""Holds a kernel at the other end of a pipe: `tracebox live`, asked line by line.

    live_client.py PROGRAM

Prints a dialogue: a debugger attaches to a process that somebody sent SIGSTOP, and waits for its first stop.
"""
import json
import subprocess
import sys


class Kernel:
    """A kernel that is asked one thing after the other."""

    def __init__(self, program, groups, limit=4, entries=100):
        pipe = subprocess.PIPE
        self.live = subprocess.Popen([program, "live"], stdin=pipe, stdout=pipe, text=True)
        start = {"version": 1, "limit": limit, "entries": entries, "groups": groups}
        assert self.ask(start) == ["started"]

    def ask(self, what):
        """Asks for something, and returns the lines of the answer. An empty line ends it."""
        print(json.dumps(what), file=self.live.stdin, flush=True)
        return list(iter(lambda: self.live.stdout.readline().rstrip("\n"), ""))

    def call(self, actor, do, **fields):
        return self.ask({"actor": actor, "do": do, **fields})


def main():
    thread = {"tid": 10, "blocked": []}
    kernel = Kernel(sys.argv[1], [{"tgid": 10, "name": "demo", "threads": [thread], "actions": []}])
    answers = kernel.call(901, "kill", tgid=10, sig=19) + kernel.call(900, "attach", tid=10)
    while not any("waited" in answer for answer in answers):
        answers += kernel.call(10, "take", tid=10) + kernel.call(900, "wait", tid=10)
    print(*answers, *kernel.ask({"show": "status", "tid": 10})[:2], sep="\n")


if __name__ == "__main__":
    main()
