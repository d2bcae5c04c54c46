#!/usr/bin/env python3
"""Looks at the pictures that the built program draws of scenarios, such as generate_scenarios.py writes.

usage: check_pictures.py PROGRAM SCENARIO...

Each scenario has to be refused by `draw` as it is by `serial`, with nothing on standard output; else its picture has to be XML as
Python's own parser reads it, its title has to count the calls and entries that `serial` prints, and no text may lie over another
or leave the picture, where a letter is as wide as in the widest of the usual monospaced fonts. Of the rows it looks that as many
signals end as the totals count, that a report is withdrawn exactly where a lane that showed it shows it no longer and no wait took
it, that each clone and each id taken by execve(2) has one arrow, between the lanes of the two threads, and that no such arrow runs
through a text. The last line is 'N passed, M failed'.
"""

import itertools
import pathlib
import re
import subprocess
import sys
import xml.etree.ElementTree as ElementTree

SECONDS = 60
SVG = "{http://www.w3.org/2000/svg}"
WIDTHS = {"dm": 6.65}
WIDTH = 7.25


def run(program, word, given):
    return subprocess.run([program, word], input=given, capture_output=True, timeout=SECONDS)


def boxes(element, down):
    """Each text of an element with its box: left, top, right and bottom."""
    for child in element:
        if child.tag == SVG + "g":
            yield from boxes(child, down + int(re.fullmatch(r"translate\(0 (\d+)\)", child.get("transform"))[1]))
        elif child.tag == SVG + "text":
            text, left, line = (child.text or "").rstrip("\n"), int(child.get("x")), int(child.get("y")) + down
            yield text, (left, line - 9, left + WIDTHS.get(child.get("class"), WIDTH) * len(text), line + 2)


def touch(one, other):
    return one[0] < other[2] - 1 and other[0] < one[2] - 1 and one[1] < other[3] and other[1] < one[3]


def told(row, style, left):
    """The words of a class that begin so far from the left, by their place down."""
    return {int(text.get("y")): text.text for text in row.iter(SVG + "text") if text.get("class") == style and int(text.get("x")) == left}


def ended(row):
    """How many signals the call of a row ended."""
    endings = [words for words in told(row, "wt", 312).values()]
    return sum(words.count(",") + 1 + int((re.search(r" \+(\d+)$", words) or [0, 0])[1]) for words in endings)


def ending_faults(rows, totals):
    """Looks that the rows, of which none is left out, end as many signals as the totals count."""
    counts = dict(zip(totals[1::2], map(int, totals[2::2])))
    wanted, found = counts["accepted"] - counts["pending"], sum(ended(row) for row in rows)
    if found != wanted:
        yield f"{found} signals end and not {wanted}"


def report_faults(rows, lanes):
    """Looks that reports are withdrawn exactly where they are no longer shown and no wait took them."""
    shown = {}
    for row in rows:
        line = row.find(SVG + "title").text
        taken = re.fullmatch(r"#\d+ \d+ (?:starter_)?wait waited \d+ \w+ (\d+)\n", line)
        for name, left in lanes.items():
            words = told(row, "rp", left + 252)
            now = words.get(30) if line.startswith("#") else shown.get(name)
            before = shown.get(name)
            gone = before is not None and before != now and not (taken and before == "r" + taken[1])
            if words.get(42) != (f"{before} withdrawn" if gone else None):
                yield f"{line!r} has {words.get(42)} where {name} showed {before} and shows {now}"
            shown[name] = now


def joined(row):
    """The two threads that the arrow of a row is to join, if there is to be one."""
    made = re.fullmatch(r"#\d+ \d+ clone cloned (\d+)\n", row.find(SVG + "title").text)
    words = told(row, "tx", 64)[14].split()
    taken = [text.text.split()[1] for text in row.iter(SVG + "text") if text.get("class") == "jn"]
    other = made[1] if made else taken[0] if taken else None
    return other and (f"thread {words[2]}", f"thread {other}")


def join_faults(rows, lanes):
    """Looks that clones and ids that execve(2) takes have their arrows, which run through no text."""
    for row in rows:
        arrows = [tuple(int(line.get(name)) for name in ("x1", "y1", "x2", "y2")) for line in row.iter(SVG + "line") if line.get("class") == "jn"]
        pair, line = joined(row), row.find(SVG + "title").text
        wanted = []
        if pair and all(name in lanes for name in pair):
            one, other = (lanes[name] for name in pair)
            wanted = [(one + 248, 16, other + 124, 16)] if one < other else [(one + 124, 16, other + 248, 16)]
        if arrows != wanted:
            yield f"{line!r} has the arrows {arrows} and not {wanted}"
        for (left, y, right, _), (text, box) in itertools.product(arrows, boxes(row, 0)):
            if touch((min(left, right), y, max(left, right), y + 1), box):
                yield f"an arrow runs through {text!r}"


def row_faults(picture):
    """Says what is wrong with the rows of a picture."""
    texts = [text.text for text in picture.iter(SVG + "text")]
    rows = [group for group in picture.iter(SVG + "g") if group.find(SVG + "title") is not None]
    heads = [text for text in picture.findall(SVG + "text") if text.get("y") == "94" and re.fullmatch(r"(thread|group) \d+", text.text)]
    lanes = {head.text: int(head.get("x")) - 128 for head in heads}
    if "end" in texts and not any(re.fullmatch(r"x\d+", text) for text in texts):
        yield from ending_faults(rows, next(text for text in texts if text.startswith("totals ")).split())
    yield from report_faults(rows, lanes)
    yield from join_faults(rows, lanes)


def faults(program, given):
    """Says what is wrong with the picture of a scenario."""
    told, drawn = run(program, "serial", given), run(program, "draw", given)
    if (told.returncode, told.stderr) != (drawn.returncode, drawn.stderr):
        yield f"serial ends with {told.returncode} and {told.stderr!r}, draw with {drawn.returncode} and {drawn.stderr!r}"
    if drawn.returncode:
        if drawn.stdout:
            yield "a refused input is drawn"
        return
    picture = ElementTree.fromstring(drawn.stdout)
    calls, entries = (len(re.findall(line, told.stdout, re.M)) for line in (rb"^(?:#\d+|[.!]) ", rb"^#\d+ "))
    if picture.find(SVG + "title").text != f"tracebox: {calls} calls, {entries} entries":
        yield f"the title isn't that of {calls} calls and {entries} entries"
    yield from row_faults(picture)
    placed = list(boxes(picture, 0))
    for text, (_, _, right, bottom) in placed:
        if right > int(picture.get("width")) or bottom > int(picture.get("height")):
            yield f"{text!r} leaves the picture"
    for (text, box), (other_text, other) in itertools.combinations(placed, 2):
        if touch(box, other):
            yield f"{text!r} lies over {other_text!r}"


def main(program, scenarios):
    passed, failed = 0, 0
    for scenario in scenarios:
        found = list(faults(program, pathlib.Path(scenario).read_bytes()))
        passed, failed = passed + (not found), failed + bool(found)
        for fault in found:
            print(f"{scenario}: {fault}")
    print(f"{passed} passed, {failed} failed")
    return 1 if failed or not passed else 0


if __name__ == "__main__":
    if len(sys.argv) < 3:
        sys.exit(__doc__)
    sys.exit(main(str(pathlib.Path(sys.argv[1]).resolve()), sys.argv[2:]))
