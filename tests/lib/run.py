"""Runs the golden cases: tests/README.md says how they are written. Called by tests/run."""
import difflib
import os
import sys
import time
from concurrent.futures import ThreadPoolExecutor

import program
from cases import Malformed, all_calls, differs

USAGE = "usage: tests/run [NAME], or tests/run --accept NAME: a name, or how it begins; or a file of tests, without .cases"


def diff(call, written):
    expected = call.expected.decode(errors="backslashreplace").splitlines(keepends=True)
    found = written.decode(errors="backslashreplace").splitlines(keepends=True)
    lines = list(difflib.unified_diff(expected, found, "expected", "written", n=2))
    shown = "".join(line if line.endswith("\n") else f"{line}\n" for line in lines[:60])
    return shown + (f"... {len(lines) - 60} more lines\n" if len(lines) > 60 else "")


def came_to(found, call):
    text = call.input(found, program.run)
    if text is None:
        return "none", b"", f"{' '.join(call.made_by)} made no text".encode()
    return program.run(found, call.arguments, text)


def accept(failed):
    """Writes what the program wrote in place of what was expected."""
    for file in {call.file for call, _ in failed}:
        changes = sorted(((call, found) for call, found in failed if call.file == file), key=lambda it: -it[0].begin)
        if file.suffix == ".md":
            print(f"{file}: a page is changed by hand")
            continue
        if file.suffix != ".cases":
            file.write_bytes(b"".join(line for line in changes[0][1][1].splitlines(keepends=True) if not line.startswith(b"USED ") or file.suffix != ".values"))
            continue
        lines = file.read_text().split("\n")
        for call, (status, written, _) in changes:
            if not isinstance(status, int) or status < 0 or (written and not written.endswith(b"\n")):
                print(f"{call.shown()}: status {status}, which no case can expect")
                continue
            lines[call.begin - 1] = f"--- {status} {' '.join(call.arguments)}"
            lines[call.begin : call.end] = [escaped(line) for line in written.split(b"\n")[:-1]]
        file.write_text("\n".join(lines))


def escaped(line):
    if all(32 <= byte < 127 for byte in line) and not line.startswith((b"@", b"=== ", b"--- ")):
        return line.decode()
    return "@ " + "".join(chr(byte) if 32 <= byte < 127 and byte != 92 else f"\\x{byte:02x}" for byte in line)


def main(words):
    accepts = words[:1] == ["--accept"]
    names = words[1:] if accepts else words
    if len(names) > 1 or (accepts and not names) or any(it.startswith("-") for it in names):
        sys.exit(USAGE)
    try:
        calls = all_calls()
    except Malformed as why:
        sys.exit(f"tests/run: {why}")
    if names:
        calls = [it for it in calls if it.case.startswith(names[0]) or it.file.stem == names[0]]
        if not calls:
            sys.exit(f"tests/run: no case begins with {names[0]}")
    found, begun = program.find(), time.monotonic()
    failed = []
    with ThreadPoolExecutor(2 * (os.cpu_count() or 1)) as pool:
        for call, came in zip(calls, pool.map(lambda it: came_to(found, it), calls)):
            wrong = differs(call, *came)
            if wrong:
                failed.append((call, came))
                print(f"{call.shown()}: {wrong} ({call.file.relative_to(program.TOP)}:{call.begin + 1})\n{diff(call, came[1])}", end="", flush=True)
    if accepts:
        accept(failed)
    cases, wrong = {it.case for it in calls}, {call.case for call, _ in failed}
    print(f"{len(cases) - len(wrong)} of {len(cases)} cases passed ({len(calls)} calls of the program), {len(wrong)} {'rewritten' if accepts else 'failed'}, in {time.monotonic() - begun:.1f} s")
    return 1 if failed and not accepts else 0


if __name__ == "__main__":
    sys.exit(main(sys.argv[1:]))
