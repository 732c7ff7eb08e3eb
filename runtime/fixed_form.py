"""Statements and units of a text in fixed form (docs/LANGUAGE.md), for the scripts runtime/quotients and runtime/pretty.

The reader here is a helper of these scripts alone: it takes a text that the program has accepted, and looks for no faults.
"""
import os
import re
import subprocess
import sys
from dataclasses import dataclass, field
from pathlib import Path


def program():
    """The program: ADJTOOL names it, or the folder in which it lies; else it is the repository's."""
    named = Path(os.environ.get("ADJTOOL") or Path(__file__).resolve().parent.parent)
    return str(named / "adjtool" if named.is_dir() else named)


class Refused(Exception):
    """The program refused the text or the arguments; what it wrote is the message."""


def read_input():
    """The text on standard input, with a character for each byte: comments may have any bytes."""
    return sys.stdin.buffer.read().decode("latin-1")


def answer(command, arguments, text):
    """What the program writes for a command, its arguments and a text."""
    done = subprocess.run([program(), command, *arguments], input=text.encode("latin-1"), capture_output=True)
    if done.returncode:
        said = (done.stdout or done.stderr).decode("latin-1").strip()
        raise Refused(said or f"status {done.returncode}")
    return done.stdout.decode("latin-1")


@dataclass
class Statement:
    line: int  # that of its initial line, from 1
    raw: list  # its lines as they stand, comments between them left out
    code: str  # columns 7 to 72 of its lines, without blanks, in capitals
    directive: str = ""  # the directive's line directly before it

    def shown(self):
        """The statement on one line, as it was typed."""
        return " ".join("".join(line[6:72] for line in self.raw).split())


def read_statements(text):
    """The statements of a text up to $DATA, and its lines."""
    lines = text.split("\n")
    statements, directive = [], ""
    for number, line in enumerate(lines, 1):
        line = line.rstrip("\r")
        if line.startswith("$DATA"):
            lines = lines[: number - 1]
            break
        if line[:4].upper() == "C$AD":
            directive = line
        elif line[:1] in ("C", "c", "*") or not line[:72].strip():
            continue
        elif not line[:5].strip() and line[5:6] not in ("", " ", "0"):
            statements[-1].raw.append(line)
        else:
            statements.append(Statement(number, [line], "", directive))
            directive = ""
    for s in statements:
        s.code = "".join(line[6:72] for line in s.raw).replace(" ", "").upper()
    return statements, lines


def closing(code, at):
    """The place of the parenthesis that closes the one at a place."""
    depth = 0
    for place in range(at, len(code)):
        depth += {"(": 1, ")": -1}.get(code[place], 0)
        if depth == 0:
            return place
    raise ValueError(code)


def split_list(code):
    """The parts of a list at its open commas."""
    parts, depth, start = [], 0, 0
    for place, byte in enumerate(code):
        depth += {"(": 1, ")": -1}.get(byte, 0)
        if byte == "," and depth == 0:
            parts.append(code[start:place])
            start = place + 1
    return parts + [code[start:]] if code else []


def has_open(byte, code):
    depth = 0
    for b in code:
        depth += {"(": 1, ")": -1}.get(b, 0)
        if b == byte and depth == 0:
            return True
    return False


# the classes of what stands before the executable statements of a unit
HEADINGS = ("SUBROUTINE", "IMPLICITNONE", "INTEGER", "COMMON")


def class_of(code):
    """The class of a statement (docs/LANGUAGE.md, "Statements")."""
    do = re.match(r"DO\d*,?[A-Z]\w*=", code)
    if do and has_open(",", code[do.end():]):
        return "DO"
    if code.startswith("IF(") and code[closing(code, 2) + 1 : closing(code, 2) + 2].isalpha():
        return "BLOCKIF" if code[closing(code, 2) + 1 :] == "THEN" else "IF"
    if has_open("=", code):
        return "ASSIGN"
    if code in ("CONTINUE", "RETURN", "END", "ENDIF", "ENDDO", "ELSE", "IMPLICITNONE"):
        return code
    for start, name in (("ELSEIF(", "ELSEIF"), ("DOWHILE(", "WHILE"), ("SUBROUTINE", "SUBROUTINE"), ("INTEGER", "INTEGER"), ("COMMON/", "COMMON"), ("CALL", "CALL")):
        if code.startswith(start):
            return name
    raise ValueError(code)


@dataclass
class Node:
    """An executable statement with the statements in it: those of a loop or of an IF's first part in `first`, those of ELSE in `second`."""

    kind: str  # ASSIGN, IF, DO, WHILE or CALL
    statement: Statement
    code: str
    first: list = field(default_factory=list)
    second: list = field(default_factory=list)


@dataclass
class Unit:
    name: str
    dummies: list
    statements: list  # all, SUBROUTINE and END among them
    declared: list = field(default_factory=list)
    body: list = field(default_factory=list)


def read_units(statements):
    """The units of a text with the tree of each."""
    units, stack, ends = [], [], []
    for s in statements:
        kind = class_of(s.code)
        if kind == "SUBROUTINE":
            name, _, rest = s.code[len("SUBROUTINE"):].partition("(")
            units.append(Unit(name, split_list(rest.rstrip(")")), []))
            stack, ends = [units[-1].body], [("unit", None)]
        unit = units[-1]
        unit.statements.append(s)
        if kind == "INTEGER":
            unit.declared += [re.match(r"\w+", item)[0] for item in split_list(re.sub(r"^INTEGER(\*0*8)?", "", s.code))]
        elif kind in ("ASSIGN", "CALL"):
            stack[-1].append(Node(kind, s, s.code))
        elif kind == "IF":
            end = closing(s.code, 2)
            inner = s.code[end + 1 :]
            stack[-1].append(Node("IF", s, s.code[: end + 1], [Node("CALL" if not has_open("=", inner) else "ASSIGN", s, inner)]))
        elif kind in ("BLOCKIF", "DO", "WHILE"):
            node = Node({"BLOCKIF": "IF"}.get(kind, kind), s, s.code)
            stack[-1].append(node)
            stack.append(node.first)
            ends.append((kind, re.match(r"DO0*(\d*)", s.code)[1] if kind == "DO" else node))
        elif kind in ("ELSE", "ELSEIF"):
            inner = ends[-1][1]
            stack[-1] = inner.second
            if kind == "ELSEIF":
                node = Node("IF", s, s.code)
                inner.second.append(node)
                stack[-1] = node.first
                ends[-1] = ("BLOCKIF", node)
        elif kind in ("ENDIF", "ENDDO"):
            stack.pop()
            ends.pop()
        elif kind == "CONTINUE":
            label = s.raw[0][:5].replace(" ", "").lstrip("0")
            while label and ends[-1] == ("DO", label):
                stack.pop()
                ends.pop()
    return units


def laid_out(code, indent=6):
    """A statement in columns 7 to 72, with continuation lines."""
    width = 72 - 6
    code = " " * (indent - 6) + code
    pieces = [code[i : i + width] for i in range(0, len(code), width)]
    return ["      " + pieces[0]] + ["     &" + p for p in pieces[1:]]
