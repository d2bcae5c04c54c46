#!/usr/bin/env python3
"""Spoils scenarios at one place each, and looks that `explain` tells that place where it refuses them. Run by hand.

usage: check_mistakes.py PROGRAM SEED COUNT SCENARIO...

Each scenario is spoiled COUNT times: a value becomes another, a key goes, or a key comes. Where the program refuses that, its line has to
name the place, or one that is met before: a place that is there, or a key that is missing where it is told. The last line is
'N passed, M failed'.
"""

import json
import pathlib
import random
import re
import subprocess
import sys

VALUES = [None, True, False, -1, 0, 65, 256, 4194304, 2**32, 2**64, 1.5, "", "kill", [], [0], {}, {"a": 1}]
LINE = re.compile(r"(BadField|BadSignal|TooLarge|Repeated|BadStart): (?:([a-z]\w*(?:\[\d+\]|\.\w+)*): )?(.+)\n")


def places(value, path=()):
    """Yields the path of each value."""
    yield path
    items = value.items() if isinstance(value, dict) else enumerate(value) if isinstance(value, list) else []
    for key, inside in items:
        yield from places(inside, (*path, key))


def at(value, path):
    for key in path:
        value = value[key]
    return value


def spoil(scenario, chance):
    """Spoils a copy of a scenario at one place."""
    spoiled = json.loads(json.dumps(scenario))
    path = chance.choice([path for path in places(spoiled) if path])
    inside = at(spoiled, path[:-1])
    if isinstance(inside, dict) and chance.random() < 0.2:
        del inside[path[-1]]
    elif isinstance(inside, dict) and chance.random() < 0.2:
        inside[chance.choice(["a", "tid", "times", "two words", "x" * 40])] = chance.choice(VALUES)
    else:
        inside[path[-1]] = chance.choice(VALUES)
    return spoiled


def is_place(scenario, told, words):
    """Whether a place that was told is there, or a key is missing where it is told."""
    path = [int(part) if part.isdigit() else part for part in re.findall(r"\w+", told or "")]
    try:
        inside = at(scenario, path[:-1])
        there = not path or (path[-1] < len(inside) if isinstance(inside, list) else path[-1] in inside)
    except (KeyError, IndexError, TypeError):
        return False
    return there != (words == "is missing")


def fault(program, scenario):
    """Says what is wrong with what is told of a scenario, if anything is."""
    text = json.dumps(scenario).encode()
    ran = subprocess.run([program, "explain"], input=text, capture_output=True, timeout=60)
    if ran.returncode == 0:
        return ""
    line = LINE.fullmatch(ran.stdout.decode())
    if not line or ran.returncode != 1 or ran.stderr.decode() != f"tracebox: {line[1]}\n":
        return f"status {ran.returncode}, {ran.stdout!r}, {ran.stderr!r}"
    return "" if is_place(scenario, line[2], line[3]) else f"no such place: {line[0]!r}"


def main(program, seed, count, paths):
    chance = random.Random(seed)
    passed, failed = 0, 0
    for path in paths:
        scenario = json.loads(pathlib.Path(path).read_text())
        for _ in range(count):
            spoiled = spoil(scenario, chance)
            why = fault(program, spoiled)
            passed, failed = passed + (not why), failed + bool(why)
            if why:
                print(f"{path}: {why}: {json.dumps(spoiled)}")
    print(f"{passed} passed, {failed} failed")
    return 1 if failed or not passed else 0


if __name__ == "__main__":
    if len(sys.argv) < 5:
        sys.exit(__doc__)
    sys.exit(main(str(pathlib.Path(sys.argv[1]).resolve()), sys.argv[2], int(sys.argv[3]), sys.argv[4:]))
