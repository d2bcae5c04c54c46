#!/usr/bin/env python3
"""Tells what a call of each kind costs in tables of several sizes.

usage: step_costs.py [--instructions] PROGRAM [WORD]

Each call is made 60,000 times by `serial`, in a group that comes last in its table; calls that can't be made twice in a row are made
in turn with others, 10,000 in all. The figures are nanoseconds for a call, its line included, and where calls are made in turn the
reading of their steps: the processor time of the run less that of the same run with each call made once, best of 5. The columns say
how many groups there are, how many threads each has, how many tracees the tracer has besides, and how many instances wait for the
group, or for the first group where that is another; a dash is where the call can't be made there. The last figure of a row is the
greatest by the least. With WORD, only rows that have it in their name. By hand, on an idle machine.

With --instructions the figures are instructions for a call, as valgrind's callgrind counts them: the same on a busy machine. Each call
is made 2,000 times then, and calls in turn are 2,000 in all.
"""

import json
import re
import resource
import subprocess
import sys
from concurrent.futures import ThreadPoolExecutor

TIMES, CALLS = 60_000, 8_900
RUNS = 5
COUNTED = 2_000
SENDER, TRACER, OTHER = 901, 900, 902
# Groups, threads of each, whether all other groups are traced, and how many instances wait for the first group.
SIZES = [
    (1, 1, False, 0), (1, 64, False, 0), (16, 64, False, 0), (64, 1, False, 0), (1024, 1, False, 0), (64, 1, True, 0),
    (1024, 1, True, 0), (1, 1, False, 64), (1, 1, False, 1024), (2, 1, False, 10_000),
]  # fmt: skip


def step(actor, event, **fields):
    return {"actor": actor, "do": event, **fields}


def sends(group, thread):
    """Sends, and what a thread does by itself."""
    kill, take = step(SENDER, "kill", tgid=group, sig=12), step(thread, "take", tid=thread)
    return {
        "kill, merged": ([], [step(SENDER, "kill", tgid=group, sig=10)]),
        "kill, ignored": ([], [step(SENDER, "kill", tgid=group, sig=28)]),
        "kill of SIGCONT": ([], [step(SENDER, "kill", tgid=group, sig=18)]),
        "kill of SIGTSTP, merged": ([], [step(SENDER, "kill", tgid=group, sig=20)]),
        "kill of 0": ([], [step(SENDER, "kill", tgid=group, sig=0)]),
        "tgkill, merged": ([], [step(SENDER, "tgkill", tgid=group, tid=thread, sig=10)]),
        "sigqueue": ([], [step(SENDER, "sigqueue", tgid=group, sig=34, value=1)]),
        "kill, take": ([], [kill, take]),
        "kill, take_any": ([], [kill, step(SENDER, "take_any", tgid=group)]),
        "mask": ([], [step(thread, "mask", tid=thread, set=[10, 20, 34])]),
        "action": ([], [step(thread, "action", tid=thread, sig=10, how="catch")]),
        "pause, kill, take": ([], [step(thread, "pause", tid=thread), kill, take]),
        "take, nothing": ([], [take]),
        "take_any, nothing": ([], [step(SENDER, "take_any", tgid=group)]),
    }


def requests(thread):
    """What tracers ask for, and what their tracee does."""
    seize = step(TRACER, "seize", tid=thread, options=["exit"])
    stop = [seize, step(SENDER, "tgkill", tgid=thread, tid=thread, sig=12), step(thread, "take", tid=thread)]
    exit_stop = [seize, step(thread, "exit", tid=thread, code=0)]
    interrupt, trap = step(TRACER, "interrupt", tid=thread), step(thread, "trap", tid=thread)
    cont, wait = step(TRACER, "cont", tid=thread, sig=0), step(TRACER, "wait", tid=0)
    attach, take = step(TRACER, "attach", tid=thread), step(thread, "take", tid=thread)
    detach = step(TRACER, "detach", tid=thread, sig=0)
    return {
        "attach, refused": ([seize], [attach]),
        "interrupt": ([seize], [interrupt]),
        "cont, refused": ([seize], [cont]),
        "options": (stop, [step(TRACER, "options", tid=thread, options=["exit"])]),
        "siginfo": (stop, [step(TRACER, "siginfo", tid=thread)]),
        "message": (exit_stop, [step(TRACER, "message", tid=thread)]),
        "wait, nothing": ([seize], [wait]),
        "wait, refused": ([], [step(OTHER, "wait", tid=0)]),
        "interrupt, trap, wait, cont": ([seize], [interrupt, trap, wait, cont]),
        "interrupt, trap, listen": ([seize], [interrupt, trap, step(TRACER, "listen", tid=thread)]),
        "attach, take, wait, detach": ([], [attach, take, wait, detach]),
        "seize, tracer_exit": ([], [step(OTHER, "seize", tid=thread, options=[]), step(OTHER, "tracer_exit")]),
    }


def ends(group, thread, child):
    """Stops of a group, threads that come and go, and waits for them."""
    starter_wait = step(1, "starter_wait", tgid=0, untraced=True, continued=True)
    stop, go_on = step(SENDER, "kill", tgid=group, sig=19), step(SENDER, "kill", tgid=group, sig=18)
    take, halt = step(thread, "take", tid=thread), step(thread, "halt", tid=thread)
    clone, exits, dies = step(thread, "clone", tid=thread), step(child, "exit", tid=child, code=0), step(child, "die", tid=child)
    execs, finish = step(thread, "exec", tid=thread), step(thread, "finish", tid=thread)
    everywhere = {
        "halt, refused": ([], [halt]),
        "finish, refused": ([], [finish]),
        "die, refused": ([], [step(thread, "die", tid=thread)]),
        "starter_wait, nothing": ([], [starter_wait]),
        "kill of SIGSTOP, take, halt, SIGCONT": ([], [stop, take, halt, go_on]),
    }
    alone = {
        "the same, and each starter_wait": ([], [stop, take, halt, starter_wait, go_on, starter_wait]),
        "exec": ([], [execs]),
    }
    cloning = {"clone, exit, die": ([], [clone, exits, dies]), "clone, exec, die, finish": ([], [clone, execs, dies, finish])}
    return everywhere, alone, cloning


def start(groups, members):
    """Groups that catch USR2, and whose threads block what else is sent."""
    threads = lambda first: [{"tid": first + i, "blocked": [10, 20, 34]} for i in range(members)]
    catch = [{"sig": 12, "how": "catch"}]
    return [{"tgid": 1000 * g, "name": "demo", "threads": threads(1000 * g), "actions": catch} for g in range(1, groups + 1)]


def whole(size, steps):
    """The scenario of these steps, after those that make the table what its column says."""
    groups, members, are_traced, waiting = size
    before = [step(TRACER, "seize", tid=1000 * g, options=[]) for g in range(1, groups)] if are_traced else []
    if waiting:
        before.append(step(SENDER, "sigqueue", tgid=1000, sig=34, value=0) | {"times": waiting})
    return {"version": 1, "limit": 100_000, "entries": 100_000, "groups": start(groups, members), "steps": before + steps}


def run(program, scenario):
    """Runs the scenario, and gives its text and how much processor time it took."""
    before = resource.getrusage(resource.RUSAGE_CHILDREN)
    ran = subprocess.run([program, "serial"], input=json.dumps(scenario).encode(), capture_output=True, check=True)
    after = resource.getrusage(resource.RUSAGE_CHILDREN)
    return ran.stdout, after.ru_utime - before.ru_utime + after.ru_stime - before.ru_stime


def nanoseconds(program, scenario):
    return min(run(program, scenario)[1] for _ in range(RUNS)) * 1e9


def instructions(program, scenario):
    counted = ["valgrind", "--tool=callgrind", "--callgrind-out-file=/dev/null", program, "serial"]
    ran = subprocess.run(counted, input=json.dumps(scenario).encode(), capture_output=True, check=True)
    return int(re.search(rb"Collected : (\d+)", ran.stderr)[1])


def kinds(program, size):
    """Each kind of call that can be made there, with the steps before it."""
    groups, members, _, _ = size
    thread = group = 1000 * groups
    text, _ = run(program, whole(size, [step(thread, "clone", tid=thread)]))
    found = re.search(rb" clone cloned (\d+)$", text, re.M)
    everywhere, alone, cloning = ends(group, thread, int(found[1]) if found else 0)
    rows = {**sends(group, thread), **requests(thread), **everywhere}
    return {**rows, **(alone if members == 1 else {}), **(cloning if members == 1 and found else {})}


def cost(measure, times, all_calls, program, size, before, calls):
    """What a call of the kind costs, made so many times, or so many calls in all."""
    if len(calls) == 1:
        once, often, made = calls, [calls[0] | {"times": times}], times - 1
    else:
        rounds = all_calls // len(calls)
        once, often, made = calls, calls * rounds, (rounds - 1) * len(calls)
    return (measure(program, whole(size, before + often)) - measure(program, whole(size, before + once))) / made


def head(size):
    groups, members, are_traced, waiting = size
    tracees = f", {groups - 1} traced" if are_traced else ""
    return f"{groups} of {members}{tracees}" + (f", {waiting} wait" if waiting else "")


def main(program, word, is_counted):
    print("| call | " + " | ".join(map(head, SIZES)) + " | ratio |")
    print("|---|" + "---:|" * (len(SIZES) + 1))
    how = (instructions, COUNTED, COUNTED) if is_counted else (nanoseconds, TIMES, CALLS)
    all_kinds = [kinds(program, size) for size in SIZES]
    # Counts don't mind what runs beside them.
    pool = ThreadPoolExecutor(None if is_counted else 1)
    for name in all_kinds[0]:
        if word in name:
            there = [(size, made[name]) if name in made else None for size, made in zip(SIZES, all_kinds)]
            told = list(pool.map(lambda it: it and cost(*how, program, it[0], *it[1]), there))
            costs = [max(figure, 1) for figure in told if figure is not None]
            row = " | ".join("-" if figure is None else f"{figure:.0f}" for figure in told)
            print(f"| {name} | {row} | {max(costs) / min(costs):.1f} |", flush=True)


if __name__ == "__main__":
    words = [word for word in sys.argv[1:] if word != "--instructions"]
    if len(words) not in (1, 2):
        sys.exit(__doc__)
    main(words[0], words[1] if len(words) == 2 else "", len(words) < len(sys.argv) - 1)
