#!/usr/bin/env python3
"""Checks docs/scenario.schema.json against the scenarios of the repository, by hand: it wants the library jsonschema.

usage: check_schema.py

Each scenario and record of examples/ and tests/, each that stands in a page, each stored run of the program's tests, and each step
of the table of steps in FORMAT.md has to pass. Each small input of the table of faults there has to be refused, and each input of
tests/programs/ that is refused, unless its fault is one that the schema leaves out; so has each step of the table of steps with a
field less, a field more, or a value of another kind or out of range. The last line is 'N passed, M failed'.
"""

import json
import pathlib
import re
import sys

from jsonschema import Draft202012Validator

from run_documents import FAULT, PAGES, scenarios
from run_programs import TOP

# What only a look at the whole tells: equal ids, sums, who stands first.
LEFT_OUT = {"Repeated", "TooLarge", "BadStart"}
STORED = re.compile(r'input: r#"(.*?)"#', re.S)
STEP = re.compile(r"^\| `\w+` \|.*?\| `(\{\"actor\".*?\})` \| `[#.!].*` \|$", re.M)
SMALL = '{"version":1,"limit":0,"entries":0,"groups":[],"steps":[]}'
OTHERS = [None, "", -2147483649, 4294967296, 0.5, [0], {}]


def accepted():
    """Scenarios that have to pass, each with its name."""
    for folder in ("examples", "tests"):
        for path in sorted((TOP / folder).rglob("*.json")):
            yield str(path.relative_to(TOP)), path.read_text()
    yield "crates/tracebox/stdin", (TOP / "crates" / "tracebox" / "stdin").read_text()
    for path in PAGES:
        for text, _ in scenarios(path.read_text()):
            yield f"{path.relative_to(TOP)}: {text.splitlines()[0]}", text
    for path in sorted((TOP / "crates" / "tracebox" / "src" / "tests" / "stored").glob("*.rt")):
        for text in STORED.findall(path.read_text()):
            yield f"{path.relative_to(TOP)}: {text.splitlines()[0]}", text
    for step in STEP.findall((TOP / "docs" / "FORMAT.md").read_text()):
        yield step, SMALL.replace('"steps":[]', f'"steps":[{step}]')


def refused():
    """Inputs that have to be refused, each with its name; a text that is no JSON is no matter of a schema."""
    for fault, given in FAULT.findall((TOP / "docs" / "FORMAT.md").read_text()):
        if fault not in LEFT_OUT and ".." not in given and '"answer"' not in given:
            yield given, given
    for folder in sorted((TOP / "tests" / "programs").iterdir()):
        told = (folder / "stderr").read_text() if (folder / "stderr").is_file() else ""
        if told in ("tracebox: BadField\n", "tracebox: BadSignal\n"):
            yield folder.name, (folder / "stdin").read_text()


def otherwise():
    """Steps of the table of FORMAT.md with a field less, with one more, and with another value of each."""
    for text in STEP.findall((TOP / "docs" / "FORMAT.md").read_text()):
        step = json.loads(text)
        for key in step:
            yield {name: value for name, value in step.items() if name != key}
            yield from ({**step, key: other} for other in OTHERS)
        yield {**step, "until": True}
        yield {**step, "times": 0}


def main():
    schema = json.loads((TOP / "docs" / "scenario.schema.json").read_text())
    Draft202012Validator.check_schema(schema)
    is_valid = Draft202012Validator(schema).is_valid
    told = [(name, is_valid(json.loads(text)), True) for name, text in accepted()]
    told += [(name, is_valid(json.loads(text)), False) for name, text in refused()]
    for step in otherwise():
        told.append((json.dumps(step), is_valid({**json.loads(SMALL), "steps": [step]}), False))
    wrong = [(name, want) for name, was, want in told if was != want]
    for name, want in wrong:
        print(f"{name}: is {'refused' if want else 'accepted'}")
    print(f"{len(told) - len(wrong)} passed, {len(wrong)} failed")
    return 1 if wrong or not told else 0


if __name__ == "__main__":
    if len(sys.argv) != 1:
        sys.exit(__doc__)
    sys.exit(main())
