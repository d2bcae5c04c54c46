#!/usr/bin/env python3
"""Compares what a running Linux answered with the model, and what is found with the differences that are known.

usage: compare_linux.py PROGRAM

Each examples/linux/NAME.json is a record of answers. PROGRAM compares it; where an answer differs, that answer is left out and the
record is compared again, until all that are left agree. Each line that told of a difference has to stand behind its record's name in
examples/linux/differences.txt, and each line there has to be told. The table of docs/LINUX.md has to name each record with a
difference, behind `seen:` or `let:` none but those whose difference isn't in an answer, and no record that isn't there. The last
line is 'N passed, M failed', by records.
"""

import collections
import json
import pathlib
import re
import subprocess
import sys

TOP = pathlib.Path(__file__).resolve().parent.parent
FOLDER = TOP / "examples" / "linux"
TABLE = "| call | model | Linux | records | pages |"
SECONDS = 60


def last_line(program, record):
    """The last line that a comparison prints, and its exit status."""
    given = json.dumps(record).encode()
    ran = subprocess.run([program, "compare"], input=given, capture_output=True, timeout=SECONDS)
    if ran.stderr or ran.returncode not in (0, 1):
        raise ValueError(f"status {ran.returncode}, {ran.stderr.decode()!r}")
    return ran.stdout.decode().splitlines()[-1], ran.returncode


def differences(program, record):
    """The lines that tell of a difference, each found with the answers before it left out that differ too."""
    found = []
    while True:
        line, status = last_line(program, record)
        if status == 0:
            return found
        found.append(line)
        step = int(line.split()[1].rstrip(":"))
        del record["steps"][step - 1]["answer"]


def known_differences():
    """The lines of differences.txt, by record."""
    known = collections.defaultdict(list)
    for line in (FOLDER / "differences.txt").read_text().splitlines():
        name, told = line.split(": ", 1)
        known[name].append(told)
    return known


def faults_of_table(with_difference, there):
    """What LINUX.md's table names wrongly or leaves out: the records with a difference, and those that are there, are given."""
    table = (TOP / "docs" / "LINUX.md").read_text().partition(TABLE)[2].partition("\n\n")[0]
    cells = ["".join(row.split(" | ")[-2:-1]) for row in table.splitlines()]
    named = {name for cell in cells for name in re.findall(r"`(\w+)`", cell)}
    answered = {name for cell in cells for name in re.findall(r"`(\w+)`", re.sub(r"(?:seen|let): .*", "", cell))}
    yield from (f"{name}: the table of docs/LINUX.md doesn't name it" for name in sorted(with_difference - answered))
    yield from (f"{name}: the table of docs/LINUX.md names it, and it isn't there" for name in sorted(named - there))
    yield from (f"{name}: the table of docs/LINUX.md says that its answers differ" for name in sorted(answered - with_difference))


def main(program):
    known = known_differences()
    records = sorted(FOLDER.glob("*.json"))
    told = list(faults_of_table(known.keys(), {path.stem for path in records}))
    passed = 0
    for path in records:
        want = known.pop(path.stem, [])
        try:
            found = differences(program, json.loads(path.read_text()))
        except (ValueError, subprocess.TimeoutExpired) as fault:
            found = [str(fault)]
        passed += found == want
        if found != want:
            wrong = [f"new: {line}" for line in found if line not in want]
            wrong += [f"not found: {line}" for line in want if line not in found]
            told.append(f"{path.stem}: " + "; ".join(wrong or ["in another order"]))
    told += [f"{name}: there is no such record" for name in known]
    print(*told, f"{passed} passed, {len(told)} failed", sep="\n")
    return 1 if told or not records else 0


if __name__ == "__main__":
    if len(sys.argv) != 2:
        sys.exit(__doc__)
    sys.exit(main(str(pathlib.Path(sys.argv[1]).resolve())))
