#!/usr/bin/env python3
"""Runs the built program as a user would, and compares what it writes and how it ends.

usage: run_programs.py PROGRAM

Each folder of tests/programs is a case: `args` has an argument a line, `stdin`, `stdout` and `stderr` have bytes, and `status` a
number; a file that isn't there is empty, or 0. Each examples/NAME.json is a case of `serial`, which has to write NAME.txt, each
docs/pictures/NAME.svg one of `draw`, of which it has to be the picture of examples/NAME.json, and each
examples/records/NAME.json one of `compare`, which ends with 0 where the last line of NAME.txt begins with `agrees`, else with 1, and
each examples/explore/NAME.json one of `explore`. The last line is 'N passed, M failed'.
"""

import pathlib
import subprocess
import sys

TOP = pathlib.Path(__file__).resolve().parent.parent
SECONDS = 60


def content(path):
    return path.read_bytes() if path.is_file() else b""


def cases():
    for folder in sorted((TOP / "tests" / "programs").iterdir()):
        words = content(folder / "args").decode().splitlines()
        streams = [content(folder / name) for name in ("stdin", "stdout", "stderr")]
        yield folder.name, words, *streams, int(content(folder / "status") or 0)
    for scenario in sorted((TOP / "examples").glob("*.json")):
        text = scenario.with_suffix(".txt")
        yield f"examples/{scenario.name}", ["serial"], scenario.read_bytes(), text.read_bytes(), b"", 0
    for picture in sorted((TOP / "docs" / "pictures").glob("*.svg")):
        scenario = TOP / "examples" / f"{picture.stem}.json"
        yield f"docs/pictures/{picture.name}", ["draw"], scenario.read_bytes(), picture.read_bytes(), b"", 0
    for record in sorted((TOP / "examples" / "records").glob("*.json")):
        text = record.with_suffix(".txt").read_bytes()
        agrees = text.splitlines()[-1].startswith(b"agrees")
        yield f"examples/records/{record.name}", ["compare"], record.read_bytes(), text, b"", 0 if agrees else 1
    for scenario in sorted((TOP / "examples" / "explore").glob("*.json")):
        text = scenario.with_suffix(".txt").read_bytes()
        yield f"examples/explore/{scenario.name}", ["explore"], scenario.read_bytes(), text, b"", 0


def fault(program, words, given, out, err, status):
    """Says what is wrong with a run, if anything is."""
    try:
        ran = subprocess.run([program, *words], input=given, capture_output=True, timeout=SECONDS)
    except subprocess.TimeoutExpired:
        return f"it hadn't ended after {SECONDS} seconds"
    found = [("standard output", ran.stdout, out), ("standard error", ran.stderr, err), ("status", ran.returncode, status)]
    wrong = [f"{name} is {was!r}, and not {want!r}" for name, was, want in found if was != want]
    return "; ".join(wrong)


def main(program):
    if not pathlib.Path(program).is_file():
        print(f"there is no program {program}\n0 passed, 1 failed")
        return 1
    failed = 0
    told = list(cases())
    for name, *case in told:
        why = fault(program, *case)
        if why:
            failed += 1
            print(f"{name}: {why}")
    print(f"{len(told) - failed} passed, {failed} failed")
    return 1 if failed or not told else 0


if __name__ == "__main__":
    if len(sys.argv) != 2:
        sys.exit(__doc__)
    sys.exit(main(str(pathlib.Path(sys.argv[1]).resolve())))
