#!/usr/bin/env python3
"""Counts how often the built program asks for memory in runs of many equal steps.

usage: count_memory.py PROGRAM

Each cycle of calls is made 1,000 times, and then with ids that nobody has, so that the same text is read and each call is refused.
The first may ask for memory more often by MORE: the lists of the kernel grow, each time to twice their size. A step that asks for
memory again each time it is made is far beyond that. The last line is 'N passed, M failed'.
"""

import json
import pathlib
import subprocess
import sys
import tempfile

from run_programs import SECONDS, TOP

CYCLES, MORE = 1000, 100
BEFORE = {
    "a send that merges": [{"actor": 10, "do": "mask", "tid": 10, "set": [10]}],
    "a ptrace-stop": [{"actor": 900, "do": "seize", "tid": 10, "options": []}],
}
CYCLE = {
    "a send that merges": [{"actor": 901, "do": "kill", "tgid": 10, "sig": 10}],
    "a send and a take": [
        {"actor": 901, "do": "sigqueue", "tgid": 10, "sig": 34, "value": 7},
        {"actor": 10, "do": "take", "tid": 10},
    ],
    "a ptrace-stop": [
        {"actor": 900, "do": "interrupt", "tid": 10},
        {"actor": 10, "do": "trap", "tid": 10},
        {"actor": 900, "do": "wait", "tid": 10},
        {"actor": 900, "do": "cont", "tid": 10, "sig": 0},
    ],
    "a group-stop": [
        {"actor": 901, "do": "kill", "tgid": 10, "sig": 19},
        {"actor": 10, "do": "take", "tid": 10},
        {"actor": 10, "do": "halt", "tid": 10},
        {"actor": 901, "do": "kill", "tgid": 10, "sig": 18},
        {"actor": 1, "do": "starter_wait", "tgid": 10, "untraced": False, "continued": True},
    ],
    "a thread that comes and goes": [
        {"actor": 10, "do": "clone", "tid": 10},
        {"actor": 11, "do": "exit", "tid": 11, "code": 0},
        {"actor": 11, "do": "die", "tid": 11},
    ],
}


def scenario(name, is_refused):
    """The scenario of a cycle, its calls on ids of the start, or on ids that nobody has."""
    actions = [{"sig": sig, "how": "catch"} for sig in (10, 34)]
    group = {"tgid": 10, "name": "demo", "threads": [{"tid": 10, "blocked": []}], "actions": actions}
    cycle = [{key: value + 10 * is_refused if key in ("tid", "tgid") else value for key, value in call.items()} for call in CYCLE[name]]
    steps = BEFORE.get(name, []) + CYCLES * cycle
    whole = {"version": 1, "limit": 9, "entries": 100000, "groups": [group], "steps": steps}
    return json.dumps(whole, separators=(",", ":")).encode()


def run(program, library, given):
    """Runs the program, and returns how many entries it made, and how often it asked for memory."""
    with tempfile.TemporaryFile() as asked:
        told = {"LD_PRELOAD": library, "REFUSE_NONE": "1", "REFUSE_TELL": str(asked.fileno())}
        ran = subprocess.run([program, "serial"], input=given, capture_output=True, timeout=SECONDS, pass_fds=[asked.fileno()], env=told)
        return ran.stdout.count(b"\n#") + ran.stdout.startswith(b"#"), asked.seek(0, 2)


def fault(program, library, name):
    """Says what is wrong with a cycle, if anything is."""
    entries, asked = run(program, library, scenario(name, False))
    none, asked_without = run(program, library, scenario(name, True))
    print(f"{name}: {entries} entries asked for memory {asked - asked_without} times")
    if entries < CYCLES * len(CYCLE[name]) or none > 1:
        return f"it made {entries} entries, and {none} where nobody has the ids"
    return "" if 0 < asked_without <= asked <= asked_without + MORE else "its steps ask for memory again"


def main(program):
    failed = 0
    with tempfile.TemporaryDirectory() as room:
        library = f"{room}/refusing.so"
        source = str(TOP / "tests" / "refusing.c")
        subprocess.run(["cc", "-shared", "-fPIC", "-O1", "-o", library, source, "-ldl"], check=True)
        for name in CYCLE:
            why = fault(program, library, name)
            failed += bool(why)
            if why:
                print(f"{name}: {why}")
    print(f"{len(CYCLE) - failed} passed, {failed} failed")
    return 1 if failed else 0


if __name__ == "__main__":
    if len(sys.argv) != 2:
        sys.exit(__doc__)
    sys.exit(main(str(pathlib.Path(sys.argv[1]).resolve())))
