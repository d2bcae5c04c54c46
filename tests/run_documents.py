#!/usr/bin/env python3
"""Runs what the documents say that the built program prints.

usage: run_documents.py PROGRAM

Each scenario that stands in a page of the repository has to run, and the lines that follow it have to stand in its text, in their
order; so have those that a page quotes of an example or of a command on one. Each dialogue has to be answered as the page says. Each
word that a page says `tracebox decode` prints a line of has to print it, or to be no word where the page says so. Each small input of
a table of faults has to be refused with its fault. Each file that a page leads to has to be there, with the heading that it leads to.
Each word and option that help tells of has to stand in the man page and in the completions of each shell, and the events with their
fields have to be those of help in the man page, in FORMAT.md and in the schema. The client of a dialogue, which waits for each
answer, has to print examples/live_client.txt. The last line is 'N passed, M failed'.
"""

import json
import pathlib
import re
import subprocess
import sys

from run_programs import SECONDS, TOP

PAGES = [page for pattern in ("*.md", "docs/*.md", "examples/**/*.md") for page in sorted(TOP.glob(pattern))]
BLOCK = re.compile(r"^```(\w*)\n(.*?)^```$", re.M | re.S)
LINE = re.compile(r"(#\d+|[.!]) \d+ [a-z_]+ ")
RECIPE = re.compile(r"^Scenario: \[(\w+)\.json\].*?^```\n(.*?)^```$", re.M | re.S)
SHOWN = re.compile(r"\]\((?:\.\./)?(examples/[\w/]+)\.json\)(?:.|\n(?!\n))*:\n\n```\n((?:.*\n)*?)```$", re.M)
COMMANDED = re.compile(r"`tracebox ([a-z -]+) < (examples/[\w/]+\.json)` prints\n\n```\n((?:.*\n)*?)```$", re.M)
DIALOGUE = re.compile(r"^```\n((?:\{.*\}\n)+)```\n\nis answered\n\n```\n((?:.*\n)*?)```$", re.M)
DECODED = re.compile(r"`tracebox decode (\w+)` (?:prints|calls) `([^`]+)`".replace(" ", r"\s+"))
WORD = re.compile(r"^\| [^|]+ \| `([0-9a-f]+)` \| `((?:exited|killed|stopped|event|continued)[^`]*)` \|", re.M)
NO_WORD = re.compile(r"^\| [^|]+ \| `([0-9a-f]+)` \| `\{[^|]*(?:\\\|[^|]*)*\|$", re.M)
FAULT = re.compile(r"^\| `([A-Z]\w+)` \|.*\| `(\{.*\})` \|$", re.M)
CODE = re.compile(r"^```.*?^```$|`[^`]*`", re.M | re.S)
LINK = re.compile(r"\]\(([^)#:\s]*)(#[^):\s]*)?\)|^\[\w+\]: ()(#\S+)$", re.M)
HEADING = re.compile(r"^#+ (.*)$", re.M)
HELPERS = ["docs/tracebox.1", "completions/_tracebox", "completions/tracebox.bash", "completions/tracebox.fish"]
COMMAND = re.compile(r"^  ([a-z]+) {2,}\S", re.M)
OPTION = re.compile(r"^ +(?:-\w, )?--([a-z]+)", re.M)
EVENTS = re.compile(r"^ {0,2}kill tgid sig .*\n(?:.*\n)*? *starter_wait .*$", re.M)
EVENT = re.compile(r"^\| `(\w+)` \| ([^|]*)\| [^|]* \| `\{\"actor\"", re.M)


def run(program, words, given=""):
    ran = subprocess.run([program, *words], input=given, capture_output=True, text=True, timeout=SECONDS)
    return ran.returncode, ran.stdout, ran.stderr


def stand_in_order(lines, text):
    """Tells whether these lines stand in the text in their order, with others between them at most."""
    left = iter(text.splitlines())
    return all(line in left for line in lines)


def scenarios(page):
    """Each scenario of a page, with the block of lines that follows it."""
    blocks = [(match[1], match[2]) for match in BLOCK.finditer(page)]
    for (kind, text), (_, lines) in zip(blocks, [*blocks[1:], ("", "")]):
        if kind == "json" and {"steps", "workers"} & json.loads(text).keys():
            yield text, lines.splitlines() if LINE.match(lines) else []


def runs(program, page):
    for scenario, lines in scenarios(page):
        status, out, err = run(program, ["serial"], scenario)
        yield scenario.splitlines()[0], status == 0 and not err and stand_in_order(lines, out)
    for name, quoted in RECIPE.findall(page):
        text = (TOP / "examples" / f"{name}.txt").read_text()
        yield name, stand_in_order(quoted.splitlines(), text)
    for name, quoted in SHOWN.findall(page):
        yield name, stand_in_order(quoted.splitlines(), (TOP / f"{name}.txt").read_text())
    for command, name, lines in COMMANDED.findall(page):
        _, out, err = run(program, command.split(), (TOP / name).read_text())
        yield f"{command} < {name}", not err and stand_in_order(lines.splitlines(), out)
    for dialogue, answers in DIALOGUE.findall(page):
        yield f"live: {dialogue[:40]}", run(program, ["live"], dialogue) == (0, answers, "")


def words(program, page):
    for word, line in [*DECODED.findall(page), *WORD.findall(page)]:
        yield word, run(program, ["decode", word]) == (0, f"{line}\n", "")
    for word in NO_WORD.findall(page.partition("Not modelled, so `tracebox decode`")[2]):
        yield word, run(program, ["decode", word]) == (1, "", "tracebox: NotAWord\n")


def faults(program, page):
    for fault, given in FAULT.findall(page):
        if ".." not in given:
            word = "compare" if '"answer"' in given or given == '{"version":2}' else "serial"
            yield given[:60], run(program, [word], given) == (1, "", f"tracebox: {fault}\n")


def anchors(page):
    """What a link to a heading of the page may say, as forges make it of the heading's text."""
    headings = HEADING.findall(re.sub(r"^```.*?^```$", "", page, flags=re.M | re.S))
    return {"#" + re.sub(r"[^\w\- ]", "", heading.lower()).replace(" ", "-") for heading in headings}


def links(_, page, path):
    for file, anchor, _, other in LINK.findall(CODE.sub("", page)):
        target = path.parent / file if file else path
        yield file + anchor + other, target.exists() and (not anchor + other or anchor + other in anchors(target.read_text()))


def helpers(program):
    commands = COMMAND.findall(run(program, ["--help"])[1])
    asked = [[], *([command] for command in commands if command != "help")]
    helps = [run(program, [*words, "--help"])[1] for words in asked]
    told = [*commands, *sorted({option for text in helps for option in OPTION.findall(text)})]
    for helper in HELPERS:
        text = (TOP / helper).read_text().replace("\\-", "-")
        yield from ((f"{helper}: {word}", re.search(rf"(?<!\w){word}(?!\w)", text) is not None) for word in told)
    yield "--help: its words", len(commands) > 1


def listed(text):
    """The events of the list of help or of the man page, each with its fields."""
    cells = [cell.split() for block in EVENTS.findall(text) for row in block.splitlines() for cell in re.split(r" {2,}", row.strip())]
    return {name: fields for name, *fields in cells}


def events(program):
    told = listed(run(program, ["serial", "--help"])[1])
    schema = json.loads((TOP / "docs" / "scenario.schema.json").read_text())["$defs"]["event"]["oneOf"]
    rows = EVENT.findall((TOP / "docs" / "FORMAT.md").read_text())
    yield "help: 28 events", len(told) == 28
    yield "docs/tracebox.1: events", listed((TOP / "docs" / "tracebox.1").read_text()) == told
    yield "docs/FORMAT.md: events", {name: re.findall(r"`(\w+)`", fields) for name, fields in rows} == told
    yield "docs/scenario.schema.json: events", {kind["properties"]["do"]["const"]: kind["required"][1:] for kind in schema} == told


def client(program):
    """Whether the client of a dialogue prints its text. It waits for ever where a line isn't answered before the next comes."""
    path = TOP / "examples" / "live_client.py"
    ran = subprocess.run([sys.executable, path, program], capture_output=True, text=True, timeout=SECONDS)
    yield path.name, (ran.returncode, ran.stdout, ran.stderr) == (0, path.with_suffix(".txt").read_text(), "")


def main(program):
    passed, failed = 0, 0
    found = [*helpers(program), *events(program), *client(program)]
    for path in PAGES:
        page = path.read_text()
        of_page = [*runs(program, page), *words(program, page), *faults(program, page), *links(program, page, path)]
        found += [(f"{path.relative_to(TOP)}: {what}", is_well) for what, is_well in of_page]
    for what, is_well in found:
        passed, failed = passed + is_well, failed + (not is_well)
        if not is_well:
            print(what)
    print(f"{passed} passed, {failed} failed")
    return 1 if failed or not passed else 0


if __name__ == "__main__":
    if len(sys.argv) != 2:
        sys.exit(__doc__)
    sys.exit(main(str(pathlib.Path(sys.argv[1]).resolve())))
