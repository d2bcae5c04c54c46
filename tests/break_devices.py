#!/usr/bin/env python3
"""Runs the built program on devices that fail, and on inputs that are cut or spoiled.

usage: break_devices.py PROGRAM

Each case of run_programs.py is run with its first read failing, then with its second, and so on until none was left to fail; and
likewise with each read interrupted, and each write of standard output failing, interrupted or taking nothing. An interrupted read
changes nothing; else the run ends with status 3, `tracebox: ReadFault` or `tracebox: WriteFault` on standard error, and a front of the
text on standard output, which is longer with each write before. Then come, for each word that reads a whole input, devices that are
closed, full, no file or left by their reader, an input that has no end, and the input cut after each byte, and with a byte 0xff in
the place of each. The last line is 'N passed, M failed'.
"""

import concurrent.futures
import errno
import os
import pathlib
import subprocess
import sys
import tempfile

from run_programs import SECONDS, TOP, cases

PIECES = 25
FAULTS = {
    "a read fails": ("BREAK_READ", errno.EIO),
    "a read is interrupted": ("BREAK_READ", errno.EINTR),
    "a write fails": ("BREAK_WRITE", errno.ENOSPC),
    "a write is interrupted": ("BREAK_WRITE", errno.EINTR),
    "a write takes nothing": ("BREAK_WRITE", 0),
}
READERS = ["threads_of_one_actor", "schedules_are_explored", "run_is_explained", "docs/pictures/attach_real_stop.svg", "record_agrees", "examples/kill_at_a_stop.json"]
SHELL = {
    "reads a directory": ('"$@" < /', 3, b"tracebox: ReadFault\n"),
    "reads what is closed": ('"$@" <&-', 3, b"tracebox: ReadFault\n"),
    "reads without end": ('"$@" < /dev/zero', 1, b"tracebox: TooLarge\n"),
    "writes what is full": ('"$@" > /dev/full', 3, b"tracebox: WriteFault\n"),
    "writes what is closed": ('"$@" >&-', 3, b"tracebox: WriteFault\n"),
    "tells what is full": ('"$@" > /dev/full 2>&1', 3, b""),
}


def run(program, words, given, broken):
    """Runs the program, and returns its end, and whether a call of its devices was broken."""
    reads, writes = os.pipe()
    told = {**broken, "BREAK_TELL": str(writes)}
    try:
        ran = subprocess.run([program, *words], input=given, capture_output=True, timeout=SECONDS, pass_fds=[writes], env=told)
    finally:
        os.close(writes)
    with open(reads, "rb") as told:
        return ran, bool(told.read())


def is_told(ran, status, told):
    return (ran.returncode, ran.stderr) == (status, told)


def fault(ran, which, least, case):
    """Says what is wrong with a run of whose calls one was broken, if anything is. Its text has at least so many bytes."""
    _, words, _, out, err, status = case
    call, error = FAULTS[which]
    if (call, error) == ("BREAK_READ", errno.EINTR):
        return "" if is_told(ran, status, err) and ran.stdout == out else f"it ended otherwise: {ran}"
    told = b"tracebox: WriteFault\n" if call == "BREAK_WRITE" else b"tracebox: ReadFault\n"
    if not is_told(ran, 3, told):
        return f"it ended with status {ran.returncode} and {ran.stderr!r}"
    if call == "BREAK_READ" and words[0] != "live" and ran.stdout:
        return f"it printed {ran.stdout!r}"
    if not out.startswith(ran.stdout) or len(ran.stdout) < least:
        return f"its text is no front of the text, or too short a one: {ran.stdout!r}"
    return ""


def broken_in_turn(program, library, case):
    """Breaks each call of a case in turn, and yields what is wrong with each run."""
    name, words, given, out, err, status = case
    most = max(len(given), len(out)) // PIECES + 1
    for which, (call, error) in FAULTS.items():
        number, least, was_broken = 0, 0, True
        while was_broken:
            number += 1
            broken = {"LD_PRELOAD": library, "BREAK_MOST": str(most), call: str(number), "BREAK_ERROR": str(error)}
            ran, was_broken = run(program, words, given, broken)
            if was_broken:
                yield f"{name}, {which} at {number}", fault(ran, which, least, case)
            else:
                is_whole = is_told(ran, status, err) and ran.stdout == out
                yield f"{name}, in pieces", "" if is_whole else f"it ended otherwise: {ran}"
            least = len(ran.stdout) + 1 if call == "BREAK_WRITE" else 0


def on_shell_devices(program, words, given):
    """Runs a word on devices that the shell makes, and yields what is wrong with each run."""
    for name, (line, status, told) in SHELL.items():
        ran = subprocess.run(["sh", "-c", line, "sh", program, *words], input=given, capture_output=True, timeout=SECONDS)
        is_so = is_told(ran, status, told) and not (ran.stdout and status == 3)
        yield f"{words[0]} {name}", "" if is_so else f"it ended otherwise: {ran}"
    reads, writes = os.pipe()
    os.close(reads)
    ran = subprocess.run([program, *words], input=given, stdout=writes, stderr=subprocess.PIPE, timeout=SECONDS)
    os.close(writes)
    yield f"{words[0]} writes to nobody", "" if is_told(ran, 3, b"tracebox: WriteFault\n") else f"it ended otherwise: {ran}"


def spoiled(given):
    """Yields inputs that are no JSON, and what each is."""
    text = given.rstrip()
    for length in range(len(text)):
        yield f"cut after {length}", text[:length]
        yield f"0xff at {length}", text[:length] + b"\xff" + text[length + 1 :]
    yield "200 brackets", b"[" * 200 + b"]" * 200
    yield "as many bytes as may be, all blank", b" " * 1048576


def on_spoiled_inputs(program, words, given):
    """Runs a word on inputs that are no JSON or too large, and yields what is wrong with each run."""
    large = given.ljust(1048577)
    for what, text in [*spoiled(given), ("one byte too many", large)]:
        told = b"tracebox: TooLarge\n" if text is large else b"tracebox: NotJson\n"
        ran = subprocess.run([program, *words], input=text, capture_output=True, timeout=SECONDS)
        yield f"{words[0]}, {what}", "" if is_told(ran, 1, told) else f"it ended otherwise: {ran}"


def searches(program, library):
    """Yields searches, which can go side by side."""
    for case in cases():
        yield broken_in_turn, (library, case)
        name, words, given, *_ = case
        if name in READERS:
            yield on_shell_devices, (words, given)
            yield on_spoiled_inputs, (words, given)


def main(program):
    passed, failed = 0, 0
    with tempfile.TemporaryDirectory() as room:
        library = f"{room}/breaking.so"
        source = str(TOP / "tests" / "breaking.c")
        subprocess.run(["cc", "-shared", "-fPIC", "-O1", "-o", library, source], check=True)
        with concurrent.futures.ThreadPoolExecutor(os.cpu_count()) as pool:
            for found in pool.map(lambda search: list(search[0](program, *search[1])), searches(program, library)):
                for name, why in found:
                    passed, failed = passed + (not why), failed + bool(why)
                    if why:
                        print(f"{name}: {why}")
    print(f"{passed} passed, {failed} failed")
    return 1 if failed or not passed else 0


if __name__ == "__main__":
    if len(sys.argv) != 2:
        sys.exit(__doc__)
    sys.exit(main(str(pathlib.Path(sys.argv[1]).resolve())))
