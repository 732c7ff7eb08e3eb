"""Runs the program on texts that were cut off or changed in one byte, and on streams that fail: each call comes to an answer whose status and output
go together. Called by tests/hostile.

A text is a case of tests/*.cases, with the arguments and data of its first call. Each of its prefixes in bytes is tried, and each change of one of its
bytes to one of OTHERS.
"""
import os
import re
import resource
import subprocess
import sys
import tempfile
import time
from concurrent.futures import ProcessPoolExecutor

import program
from cases import all_calls

# What a status writes: one line for those from 1 to 6, and for 0 what the command writes.
ANSWERS = {
    1: rb"USAGE\n",
    2: rb"REFUSED \d{1,2} LINE \d+( LIMIT \d+)?\n",
    3: rb"DATA [1-7] LINE \d+\n",
    4: rb"TRAP (DIVISION|INDEX|STEP|SHAPE|TAPE|SCHEDULE|POWER) LINE \d+\n",
    5: rb"BUDGET \d+\n",
    6: rb"TAPE ROOM \d+\n",
}
VALUES = rb"[A-Z][A-Z0-9_]*( -?\d+)+\n"
DONE = {
    # an emitted text begins with a unit and ends with one; its lines have at most 72 columns
    "adjoint": rb"      SUBROUTINE [A-Z][A-Z0-9_]*_B(_\d+)?.*\n(?:(?:      |     \+|C\$AD ).{1,66}\n)*      END\n",
    "tangent": rb"      SUBROUTINE [A-Z][A-Z0-9_]*_D(_\d+)?.*\n(?:(?:      |     \+|C\$AD ).{1,66}\n)*      END\n",
    "plan": rb"([A-Z][A-Z0-9_]* \d+ (ASSIGN|IF|DO|MARKED|WHILE|CALL) [K-][A-][P-]\n)*",
    "run": rb"(" + VALUES + rb")*TAPE \d+\nUSED \d+\n",
    "check": rb"(?:OUT " + VALUES + rb")+(?:TAN " + VALUES + rb")+(?:ADJ " + VALUES + rb")+PRODUCTS (?P<product>-?\d+) (?P=product)\nADVANCES \d+\n",
    "schedule": rb"((STORE|TURN|KEEP|DROP) \d+\n|ADVANCE \d+ \d+\n)*ADVANCES \d+\n",
}
# What a byte is changed to: those that end a line or a name, a digit, a letter, bytes of no statement, and those that begin what else can follow.
OTHERS = b"\x00\t\n\r $&'(*+,-./019=ACEX_c\x7f\xff"
# what the prefixes of one text come to, by how many bytes they have: the whole text without its last line feed or with it is done; a unit whose data lack something
# has a fault of its data; and any other is no text, as where the line of the data is cut off
FRONTS = {"one-assignment": {**dict.fromkeys([65, 66, *range(71, 79)], 3), 79: 0, 80: 0}}
# the texts, with what their bytes are changed to, the options that keep a run short, and the statuses that may come
TEXTS = [
    ("square", OTHERS, [], {0, 2}),
    ("sum-of-an-array", b"(9\x00", [], {0, 2}),
    ("tangent-of-elements", b"(9\x00", [], {0, 2}),
    ("plan-of-a-sum", b"(9\x00\n ", [], {0, 2}),
    ("one-assignment", b"\x00\n 0Z\xff", ["--budget", "1000"], {0, 2, 3, 4, 5, 6}),
    ("loop-from-the-least-number-to-the-greatest", b"(9\x00", ["--budget", "100"], {0, 2, 3, 4, 5}),
    ("adjoint-with-a-tape", b"(9\x00\n", ["--budget", "1000", "--tape", "3"], {0, 2, 3, 4, 5, 6}),
    ("check-of-a-square", b"\x00\n (-.9DX\xff", ["--budget", "1000"], {0, 2, 3, 4, 5}),
    ("power-by-a-marked-loop", b"(9\x00\n", ["--budget", "1000", "--tape", "100"], {0, 2, 3, 4, 5, 6}),
]


def wrong_with(arguments, allowed, status, written, errors):
    """Why an answer doesn't go with its status, or an empty text."""
    if errors:
        return f"standard error: {errors[:200]!r}"
    if status not in allowed:
        return f"status {status}"
    form = ANSWERS[status] if status else DONE[arguments[0]]
    if not re.fullmatch(form, written):
        return f"status {status} with {written[:200]!r}"
    return ""


def changes(text, others):
    """Each text that is tried, with what was done to it, and how many bytes of it stand there where it was cut off."""
    for count in range(len(text) + 1):
        yield f"the first {count} bytes", text[:count], count
    for place, byte in enumerate(text):
        for other in others:
            if other != byte:
                yield f"byte {place} changed from {byte} to {other}", text[:place] + bytes([other]) + text[place + 1 :], None


def try_all(job):
    """The statuses of a part of the texts, and what is wrong."""
    found, arguments, allowed, fronts, texts = job
    counts, wrong = {}, []
    for what, text, count in texts:
        status, written, errors = program.run(found, arguments, text)
        may = allowed if fronts is None or count is None else {fronts.get(count, 2)}
        why = wrong_with(arguments, may, status, written, errors)
        counts[status] = counts.get(status, 0) + 1
        if why:
            wrong.append(f"{' '.join(arguments)}, {what}: {why}")
    return counts, wrong


def hostile_texts(found, pool):
    failed = 0
    calls = {}
    for call in all_calls():
        calls.setdefault(call.case, call)
    for name, others, options, allowed in TEXTS:
        call = calls[name]
        arguments = [*call.arguments, *options]
        texts = list(changes(call.input(found, program.run), others))
        parts = [texts[at : at + 50] for at in range(0, len(texts), 50)]
        counts, wrong = {}, []
        for some, more in pool.map(try_all, [(found, arguments, allowed, FRONTS.get(name), part) for part in parts]):
            wrong += more
            for status, count in some.items():
                counts[status] = counts.get(status, 0) + count
        told = ", ".join(f"{counts[it]} of status {it}" for it in sorted(counts, key=str))
        print(f"{name}: {len(texts)} texts, {told}", flush=True)
        for line in wrong[:10]:
            print(f"  {line}")
        failed += len(wrong)
    return failed


def reads_that_fail(found, call):
    """A pipe that has so many bytes, and then none though its other end is open: a read fails, which is status 7, and nothing is written."""
    failed = 0
    for count in range(len(call.text) + 1):
        ours, theirs = os.pipe()
        os.set_blocking(ours, False)
        os.write(theirs, call.text[:count])
        done = subprocess.run([found, *call.arguments], stdin=ours, capture_output=True, timeout=program.SECONDS)
        os.close(ours)
        os.close(theirs)
        if (done.returncode, done.stdout, done.stderr) != (7, b"", b""):
            print(f"a read that fails after {count} bytes: status {done.returncode}, {done.stdout[:200]!r}, {done.stderr[:200]!r}")
            failed += 1
    print(f"reads that fail: after each of {len(call.text) + 1} prefixes of a text, {failed} not as they should")
    return failed


def writes_that_fail(found, call):
    """A file that takes so many bytes: a write fails, which is status 8, and those bytes are written. It takes the whole output, which is status 0."""
    failed = 0
    for count in range(len(call.expected) + 1):
        with tempfile.TemporaryFile() as taken:
            how = {"stdout": taken, "stderr": subprocess.PIPE, "timeout": program.SECONDS, "restore_signals": False}
            done = subprocess.run([found, *call.arguments], input=call.text, preexec_fn=lambda: resource.setrlimit(resource.RLIMIT_FSIZE, (count, count)), **how)
            taken.seek(0)
            written = taken.read()
        status = 8 if count < len(call.expected) else 0
        if (done.returncode, written, done.stderr) != (status, call.expected[:count], b""):
            print(f"a write that fails after {count} bytes: status {done.returncode}, {written[-200:]!r}, {done.stderr[:200]!r}")
            failed += 1
    print(f"writes that fail: after each of {len(call.expected)} prefixes of an output, {failed} not as they should")
    return failed


def streams(found):
    """Streams that fail: what comes of them, in a call of a command that reads and of one that doesn't."""
    calls = {}
    for call in all_calls():
        calls.setdefault(call.case, call)
    square = calls["square"]
    failed = reads_that_fail(found, square) + writes_that_fail(found, square)
    failed_before = failed
    schedule = ["schedule", "3", "2"]

    def came(what, arguments, status, written=b"", **streams):
        nonlocal failed
        done = subprocess.run([found, *arguments], stderr=subprocess.PIPE, timeout=program.SECONDS, **streams)
        out = done.stdout if done.stdout is not None else b""
        if (done.returncode, out, done.stderr) != (status, written, b""):
            print(f"{what}: status {done.returncode} in place of {status}, {out[:200]!r}, {done.stderr[:200]!r}")
            failed += 1

    folder = os.open("/", os.O_RDONLY)
    came("a folder as standard input", square.arguments, 7, stdin=folder, stdout=subprocess.PIPE)
    os.close(folder)
    came("no standard input", square.arguments, 7, stdout=subprocess.PIPE, preexec_fn=lambda: os.close(0))
    came("no standard input, for a command that reads none", schedule, 0, calls["schedule-of-three-steps-and-two-snapshots"].expected, stdout=subprocess.PIPE, preexec_fn=lambda: os.close(0))
    with open("/dev/full", "wb") as full:
        for what, arguments, text in (("adjoint", square.arguments, square.text), ("schedule", schedule, b""), ("a refusal", square.arguments, b"")):
            came(f"a full device as standard output, for {what}", arguments, 8, stdout=full, input=text)
    came("no standard output", schedule, 8, stdin=subprocess.DEVNULL, preexec_fn=lambda: os.close(1))
    # a file that may be read only
    with open(program.TOP / "HANDLES", "rb") as readable:
        came("standard output that can't be written", schedule, 8, stdin=subprocess.DEVNULL, stdout=readable)
    print(f"streams that aren't there or can't be used: {failed - failed_before} of 8 not as they should")
    return failed


def main():
    found, begun = program.find(), time.monotonic()
    with ProcessPoolExecutor() as pool:
        failed = hostile_texts(found, pool)
    failed += streams(found)
    print(f"{failed} failed, in {time.monotonic() - begun:.1f} s")
    return 1 if failed else 0


if __name__ == "__main__":
    sys.exit(main())
