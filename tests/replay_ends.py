#!/usr/bin/env python3
"""Runs the scenario of each end that the built program lists, and looks that it comes to that end.

usage: replay_ends.py PROGRAM

For each scenario of examples/explore, and each end K of its report: what `explore --end K` prints is run by `serial`, whose statuses
and totals have to be those of the end; and it has a step for each worker of the end's schedule, but for those that had no call left.
The end behind the last isn't there: the line says so, and the status is 1. The last line is 'N passed, M failed'.
"""

import json
import pathlib
import re
import subprocess
import sys

from run_programs import SECONDS, TOP


def run(program, words, given):
    return subprocess.run([program, *words], input=given, capture_output=True, timeout=SECONDS, text=True)


def ends_of(report):
    """Yields of each end its schedule, and the statuses and totals that it has."""
    for part in re.split(r"(?m)^end \d+ states \d+ schedule", report)[1:]:
        line, text = part.removesuffix("complete\n").split("\n", 1)
        yield line.split(), text[text.index("\n\n") + 1 :]


def fault(program, scenario, number, schedule, shown):
    """Says what is wrong with the replay of an end, if anything is."""
    replay = run(program, ["explore", "--end", str(number)], scenario)
    if replay.returncode:
        return f"it has no scenario: {replay}"
    if len(json.loads(replay.stdout)["steps"]) > len(schedule):
        return f"it has more steps than its schedule: {replay.stdout!r}"
    ran = run(program, ["serial"], replay.stdout)
    return "" if ran.stdout.endswith(shown) else f"it comes to another end: {ran.stdout!r}"


def all_runs(program):
    for path in sorted((TOP / "examples" / "explore").glob("*.json")):
        scenario = path.read_text()
        ends = list(ends_of(run(program, ["explore"], scenario).stdout))
        for number, (schedule, shown) in enumerate(ends, 1):
            yield f"{path.name}, end {number}", fault(program, scenario, number, schedule, shown)
        past = run(program, ["explore", "--end", str(len(ends) + 1)], scenario)
        is_told = past.returncode == 1 and past.stdout == f"no end {len(ends) + 1} of {len(ends)}\n"
        yield f"{path.name}, the end behind the last", "" if ends and is_told else f"it is told otherwise: {past}"


def main(program):
    passed, failed = 0, 0
    for name, why in all_runs(program):
        passed, failed = passed + (not why), failed + bool(why)
        if why:
            print(f"{name}: {why}")
    print(f"{passed} passed, {failed} failed")
    return 1 if failed or not passed else 0


if __name__ == "__main__":
    if len(sys.argv) != 2:
        sys.exit(__doc__)
    sys.exit(main(str(pathlib.Path(sys.argv[1]).resolve())))
