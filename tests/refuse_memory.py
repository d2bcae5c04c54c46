#!/usr/bin/env python3
"""Refuses memory to the built programs, each allocation in turn, and threads likewise.

usage: refuse_memory.py PROGRAM AGAIN

Each case of run_programs.py is run with its first allocation refused, then with its second, and so on until none was refused; once
with that one alone, and once with all after it too. Each run has to end as the case says, or with status 3, `tracebox: NoMemory` on
standard error, and a front of the text on standard output. The cases of examples/explore are left out: they ask for memory thousands
of times, in no other places than the case schedules_are_explored; and so are the pictures but that of the example question.

AGAIN is the program of crates/test_refused, which makes a call again that memory was refused to, and looks before that nothing has
changed. Whichever allocation is refused, it has to print what it prints where none is; and over all runs, memory has to have been
refused to each kind of call that makes an entry. The last line is 'N passed, M failed'.
"""

import concurrent.futures
import os
import pathlib
import subprocess
import sys
import tempfile

from run_programs import SECONDS, TOP, cases

NO_MEMORY = b"tracebox: NoMemory\n"
READS = {"message", "siginfo"}
MODES = {"one": {}, "all after it": {"REFUSE_ON": "1"}, "a thread": {"REFUSE_THREADS": "1"}}


def run(program, words, given, refusing):
    """Runs the program, and returns its end, and whether something was refused to it."""
    reads, writes = os.pipe()
    told = {**refusing, "REFUSE_TELL": str(writes)}
    try:
        ran = subprocess.run([program, *words], input=given, capture_output=True, timeout=SECONDS, pass_fds=[writes], env=told)
    finally:
        os.close(writes)
    with open(reads, "rb") as refused:
        return ran, bool(refused.read())


def fault(ran, out, err, status):
    """Says what is wrong with a run to which something was refused, if anything is."""
    if (ran.returncode, ran.stdout, ran.stderr) == (status, out, err):
        return ""
    if ran.returncode != 3 or ran.stderr != NO_MEMORY:
        return f"it ended with status {ran.returncode} and {ran.stderr!r}"
    return "" if out.startswith(ran.stdout) else "its text is no front of the text"


def tried(program, library, mode, words, given, out, err, status):
    """Refuses in turn, and gives what is wrong with each run."""
    found, refused = [], True
    while refused:
        refusing = {"LD_PRELOAD": library, "REFUSE_AT": str(len(found) + 1), **MODES[mode]}
        ran, refused = run(program, words, given, refusing)
        found.append(fault(ran, out, err, status))
    return found


def made_again(program, library):
    """Refuses in turn to the program that makes a refused call again, and gives what is wrong with each run."""
    text = subprocess.run([program], capture_output=True, check=True, timeout=SECONDS).stdout
    wanted = {line.split(":")[0] for line in text.decode().splitlines() if "entries" in line} - READS
    found, refused = [], True
    while refused:
        ran, refused = run(program, [], b"", {"LD_PRELOAD": library, "REFUSE_AT": str(len(found) + 1)})
        wanted -= {line.removeprefix("refused to ") for line in ran.stderr.decode().splitlines()}
        is_same = (ran.returncode, ran.stdout) == (0, text)
        found.append("" if is_same else f"it ended with status {ran.returncode} and printed {ran.stdout!r}")
    found.append(f"nothing was ever refused to {', '.join(sorted(wanted))}" if wanted else "")
    return found


def searches(program, again, library):
    """Yields what is to be refused to, and the search that does so."""
    yield again, lambda: made_again(again, library)
    for name, *case in cases():
        if name.startswith("examples/explore/") or name.startswith("docs/pictures/") and name != "docs/pictures/question.svg":
            continue
        for mode in MODES:
            yield f"{name}, {mode}", lambda mode=mode, case=case: tried(program, library, mode, *case)


def main(program, again):
    passed, failed = 0, 0
    with tempfile.TemporaryDirectory() as room:
        library = f"{room}/refusing.so"
        source = str(TOP / "tests" / "refusing.c")
        subprocess.run(["cc", "-shared", "-fPIC", "-O1", "-o", library, source, "-ldl"], check=True)
        names, tries = zip(*searches(program, again, library))
        with concurrent.futures.ThreadPoolExecutor(os.cpu_count()) as pool:
            for name, found in zip(names, pool.map(lambda search: search(), tries)):
                passed, failed = passed + found.count(""), failed + len(found) - found.count("")
                for number, why in enumerate(found, 1):
                    if why:
                        print(f"{name}, refused at {number}: {why}")
    print(f"{passed} passed, {failed} failed")
    return 1 if failed or not passed else 0


if __name__ == "__main__":
    if len(sys.argv) != 3:
        sys.exit(__doc__)
    sys.exit(main(*(str(pathlib.Path(path).resolve()) for path in sys.argv[1:])))
