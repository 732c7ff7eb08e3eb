"""The cases of tests/*.cases, of examples/ and of the pages: what they hold, and whether a run comes to it. tests/README.md says how a case is written."""
import re
from dataclasses import dataclass
from pathlib import Path

from program import TOP

ESCAPES = {"n": b"\n", "r": b"\r", "t": b"\t", "\\": b"\\"}
ESCAPE = re.compile(r"\\(n|r|t|\\|x[0-9a-f]{2})")


class Malformed(Exception):
    """A file of cases that isn't written as tests/README.md says."""


@dataclass
class Call:
    """One call of the program: its case, its arguments and input, and what it comes to. The expected lines stand in a file from one line to another, counted from 0."""

    case: str
    arguments: list
    text: bytes
    status: int
    expected: bytes
    file: Path
    begin: int
    end: int
    # a pattern, where a part of the output is left open
    pattern: object = None
    # arguments of a call before it, which makes its text of the text here; the data stand apart then
    made_by: object = None
    data: object = None

    def input(self, program, run):
        """What is handed to the program, and what is wrong with the call that makes its text."""
        text = self.text
        if self.made_by:
            status, text, errors = run(program, self.made_by, text)
            if status or errors:
                return None
        return text if self.data is None else text + b"$DATA\n" + self.data

    def shown(self):
        return f"{self.case}: {' '.join(self.arguments)}"


def unescaped(text):
    """The bytes of a text with escapes."""
    parts, at = [], 0
    for found in ESCAPE.finditer(text):
        parts.append(text[at : found.start()].encode())
        name = found.group(1)
        parts.append(ESCAPES[name] if name in ESCAPES else bytes([int(name[1:], 16)]))
        at = found.end()
    parts.append(text[at:].encode())
    return b"".join(parts)


def read_lines(lines):
    """The bytes of a section: its lines as they stand, but for those that begin with @."""
    parts = []
    for line in lines:
        repeated = re.match(r"@(\d+) (.*)$", line)
        if repeated:
            form = repeated.group(2)
            if "{" not in form:
                parts.append((unescaped(form) + b"\n") * int(repeated.group(1)))
                continue
            for number in range(1, int(repeated.group(1)) + 1):
                counted = re.sub(r"\{(\+\d+)?\}", lambda it: str(number + int(it.group(1) or 0)), form)
                parts.append(unescaped(counted) + b"\n")
        elif line.startswith("@ "):
            joined = line.endswith("\\") and not line.endswith("\\\\")
            parts.append(unescaped(line[2:-1]) if joined else unescaped(line[2:]) + b"\n")
        else:
            parts.append(line.encode() + b"\n")
    return b"".join(parts)


def pattern_of(expected):
    """A pattern for an output with parts that are left open: a line of three dots stands for any lines, three dots in a line for any bytes of it. None where there are none."""
    if b"..." not in expected:
        return None
    parts = []
    for line in expected.splitlines(keepends=True):
        if line == b"...\n":
            parts.append(b"(?:.*\n)*")
        else:
            parts.append(b".*".join(re.escape(part) for part in line.split(b"...")))
    return re.compile(b"".join(parts))


def differs(call, status, written, errors):
    """What is wrong with what a call came to, or an empty text."""
    wrong = []
    if status != call.status:
        wrong.append(f"status {status} in place of {call.status}")
    same = call.pattern.fullmatch(written) if call.pattern else written == call.expected
    if not same:
        wrong.append("another output")
    if errors:
        wrong.append(f"something on standard error: {errors[:200].decode(errors='replace')!r}")
    return ", ".join(wrong)


def sections_of(path):
    """The sections of a file of cases: the line of each header, the header, and the lines under it."""
    sections, at = [], None
    lines = path.read_text(encoding="utf-8").split("\n")
    if lines and not lines[-1]:
        lines.pop()
    for number, line in enumerate(lines):
        if line.startswith(("=== ", "--- ")):
            at = (number, line, [])
            sections.append(at)
        elif at:
            at[2].append(line)
        elif line and not line.startswith("#"):
            raise Malformed(f"{path}:{number + 1}: what stands before the first case begins with #")
    return sections


def calls_of(path):
    """The calls of a file of cases, in order."""
    case, text, data, made_by, calls, last = None, b"", None, None, [], None
    for number, header, lines in sections_of(path):
        kind, _, rest = header[4:].partition(" ")
        rest = rest.strip()
        if header.startswith("=== "):
            # comments stand between a case's name and its text, an empty line between cases
            case, data, made_by, last = header[4:].strip(), None, None, None
            if not re.fullmatch(r"[a-z0-9-]+", case):
                raise Malformed(f"{path}:{number + 1}: a name has small letters, digits and hyphens")
            while lines and lines[0].startswith("#"):
                lines = lines[1:]
            text = read_lines(without_gap(lines))
        elif kind == "text" and rest.startswith("by "):
            made_by, data = rest.split()[1:], None
        elif kind == "text":
            text, data, made_by = written_or(rest, last, lines, path, number), None, None
        elif kind == "data":
            data = written_or(rest, last, lines, path, number)
        elif kind.isdigit():
            kept = without_gap(lines)
            expected = read_lines(kept)
            begin = number + 1
            last = Call(case, rest.split(), text, int(kind), expected, path, begin, begin + len(kept), pattern_of(expected), made_by, data)
            calls.append(last)
        else:
            raise Malformed(f"{path}:{number + 1}: a section is 'text', 'data' or a status with arguments")
    return calls


def without_gap(lines):
    """Lines without the empty ones at their end, which part the cases, and the comments behind those."""
    end = len(lines)
    while end and (not lines[end - 1] or lines[end - 1].startswith("#")):
        end -= 1
    return lines[:end]


def written_or(rest, last, lines, path, number):
    """A text or data: those of a file, what the call before writes, or the lines under the header."""
    if rest == "written":
        if last is None or last.pattern:
            raise Malformed(f"{path}:{number + 1}: no call before it says all that is written")
        return last.expected
    return (TOP / rest).read_bytes() if rest else read_lines(without_gap(lines))


def example_calls():
    """The calls of examples/: the adjoint of NAME.f is NAME.expected; run on NAME.data it comes to NAME.values, and `check` on NAME.point comes to NAME.checked."""
    calls = []
    for file in sorted((TOP / "examples").glob("*.args")):
        name, arguments = file.stem, file.read_text().split()
        part = lambda kind: file.with_suffix(f".{kind}")
        text = part("f").read_bytes()

        def add(kind, arguments, text, expected, more=b""):
            wanted = expected.read_bytes() + more
            calls.append(Call(f"example-{name.replace('_', '-')}-{kind}", arguments, text, 0, wanted, expected, 0, 0, pattern_of(wanted)))

        adjoint = part("expected")
        if adjoint.is_file():
            add("adjoint", arguments, text, adjoint)
        if part("data").is_file():
            # how many statements the adjoint takes isn't worked out
            add("run", ["run", "--head", f"{arguments[2]}_B"], adjoint.read_bytes() + b"$DATA\n" + part("data").read_bytes(), part("values"), b"USED ...\n")
        if part("point").is_file():
            add("check", ["check", *arguments[1:]], text + b"$DATA\n" + part("point").read_bytes(), part("checked"))
    return calls


FENCE = re.compile(r"```(refused|data|trap) (.+)$")
OF_FENCE = {
    "refused": (2, "adjoint --head P --vars X --outvars X"),
    "data": (3, "run --head P"),
    "trap": (4, "run --head P"),
}


def page_calls():
    """The calls of docs/REFUSALS.md: a block that is fenced as `refused CODE LINE n`, `data CODE LINE n` or `trap KIND LINE n` is an input, and its fence says what it comes to."""
    path, calls, counts = TOP / "docs/REFUSALS.md", [], {}
    lines = path.read_text().split("\n")
    for number, line in enumerate(lines):
        found = FENCE.fullmatch(line)
        if found:
            kind, answer = found.groups()
            status, arguments = OF_FENCE[kind]
            name = f"page-{kind}-{answer.split()[0].lower()}"
            counts[name] = counts.get(name, 0) + 1
            if counts[name] > 1:
                name += f"-{counts[name]}"
            end = lines.index("```", number)
            text = "".join(f"{it}\n" for it in lines[number + 1 : end]).encode()
            calls.append(Call(name, arguments.split(), text, status, f"{kind.upper()} {answer}\n".encode(), path, number, number))
    if not calls:
        raise Malformed(f"{path}: it has no example")
    return calls


def all_calls():
    calls, names = [], {}
    for path in sorted((TOP / "tests").glob("*.cases")):
        for number, header, _ in sections_of(path):
            if header.startswith("=== "):
                name = header[4:].strip()
                if name in names:
                    raise Malformed(f"{path}:{number + 1}: {name} has this name, too: {names[name]}")
                names[name] = f"{path}:{number + 1}"
        calls += calls_of(path)
    return calls + example_calls() + page_calls()
