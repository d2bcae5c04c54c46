#!/usr/bin/env python3
"""Looks for tables in which a call takes long.

usage: slow_tables.py PROGRAM [WORD]

The table has 1,024 groups of a thread. All but the last, or the first alone, are brought into a state by their own calls; then each
kind of call of step_costs.py is made by `serial` in the last group, as often as a scenario may. A line tells each kind that takes half
a second of processor time more than twice what it takes in a table of one group: there it asks for more than it should. With WORD,
only states that have it in their name. By hand, on an idle machine. The last line is 'N passed, M failed'.
"""

import sys

from step_costs import TRACER, kinds, run, start, step

GROUPS, CALLS, STEPS = 1024, 100_000, 10_000


def lives(tgid):
    """What brings a group into each state."""
    seize = step(TRACER, "seize", tid=tgid, options=[])
    stopping = [step(901, "kill", tgid=tgid, sig=19), step(tgid, "take", tid=tgid)]
    stopped = [*stopping, step(tgid, "halt", tid=tgid)]
    leaving = [step(tgid, "exit", tid=tgid, code=0)]
    dead = [*leaving, step(tgid, "die", tid=tgid)]
    trapped = [seize, step(TRACER, "interrupt", tid=tgid), step(tgid, "trap", tid=tgid)]
    wait = step(TRACER, "wait", tid=tgid)
    return {
        "as it starts": [],
        "pausing": [step(tgid, "pause", tid=tgid)],
        "stopping": stopping,
        "stopped": stopped,
        "stopped and continued": [*stopped, step(901, "kill", tgid=tgid, sig=18)],
        "stopped, and then traced": [*stopped, seize],
        "leaving": leaving,
        "dead": dead,
        "traced": [seize],
        "traced by its own tracer": [step(10_000 + tgid, "seize", tid=tgid, options=[])],
        "traced, and then stopped": [seize, *stopping, step(TRACER, "cont", tid=tgid, sig=19), step(tgid, "halt", tid=tgid)],
        "trapped": trapped,
        "trapped and waited for": [*trapped, wait],
        "listening": [*trapped, step(TRACER, "listen", tid=tgid)],
        "traced and dead": [seize, *dead],
        "traced, dead and waited for": [seize, *dead, wait],
    }


def states():
    """Each state of the table, and the calls that bring it there."""
    for name in lives(0):
        yield f"each is {name}", [call for group in range(1, GROUPS) for call in lives(1000 * group)[name]]
    for name in lives(0):
        yield f"one is {name}", lives(1000)[name]


def often(before, kind):
    """The steps of a kind of call, as many as may come after others."""
    first, calls = kind
    steps = [*before, *first]
    if len(calls) == 1:
        return [*steps, calls[0] | {"times": CALLS - len(steps)}]
    return steps + calls * ((STEPS - len(steps)) // len(calls))


def seconds(program, groups, steps):
    scenario = {"version": 1, "limit": 100_000, "entries": 100_000, "groups": start(groups, 1), "steps": steps}
    return run(program, scenario)[1]


def main(program, word):
    alone = {name: seconds(program, 1, often([], kind)) for name, kind in kinds(program, (1, 1, False, 0)).items()}
    all_kinds = kinds(program, (GROUPS, 1, False, 0))
    passed = failed = 0
    for state, before in states():
        for name, kind in all_kinds.items() if word in state else []:
            took = seconds(program, GROUPS, often(before, kind))
            is_slow = took > 2 * alone[name] + 0.5
            passed, failed = passed + (not is_slow), failed + is_slow
            if is_slow:
                print(f"{state}: {name}: {took:.2f} seconds, and {alone[name]:.2f} in a table of one group", flush=True)
    print(f"{passed} passed, {failed} failed")
    return 1 if failed or not passed else 0


if __name__ == "__main__":
    if len(sys.argv) not in (2, 3):
        sys.exit(__doc__)
    sys.exit(main(sys.argv[1], sys.argv[2] if len(sys.argv) == 3 else ""))
