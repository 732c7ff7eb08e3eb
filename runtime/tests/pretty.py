"""Tests runtime/pretty on the examples, on the texts of the golden cases, on kinds.f and clashes.f, and on random programs: python3 pretty.py [--programs N] [--seed N].

Of each text that `adjoint` takes:
- what is printed is the emitted text, byte for byte, but for comments and for blanks behind column 6;
- it is a text of the language: the command `run` reads it as it reads the emitted one, and no statement passes column 72;
- each emitted unit is matched with the model to its end.

N random programs of runtime/compare of either kind get a factor of its own on each right side and each actual, a number that stands nowhere else. So besides:
- a statement with such a number stands under the comment with the line and the statement that it comes from;
- where gfortran is installed, it makes the same object file of both texts.
ADJTOOL names another program than ./adjtool.
"""
import argparse
import os
import re
import shutil
import subprocess
import sys
import tempfile
from concurrent.futures import ThreadPoolExecutor
from importlib.machinery import SourceFileLoader
from importlib.util import module_from_spec, spec_from_loader
from pathlib import Path

sys.dont_write_bytecode = True
RUNTIME = Path(__file__).resolve().parent.parent
TOP = RUNTIME.parent
sys.path[:0] = [str(RUNTIME), str(TOP / "tests/lib")]
import fixed_form  # noqa: E402
import program  # noqa: E402
from cases import all_calls  # noqa: E402

OPTIONS = ("--head", "--vars", "--outvars")
# texts of this folder, each with a head and its lists
OWN = (
    ("kinds.f", "KINDS", "X,Y", "X,Y"),
    ("clashes.f", "MODEL", "H,U,XB", "S"),
    ("clashes.f", "model", "xb", "h"),
    ("clashes.f", "MODEL_S1", "H", "U,FLUX"),
    ("clashes.f", "BOUND", "A", "A"),
)
# the factors begin here: no random program has such numbers
FIRST = 5000001
# how many programs gfortran compiles at a time
PART = 100


def script(name):
    """A script of runtime/ as a module."""
    spec = spec_from_loader(name, SourceFileLoader(name, str(RUNTIME / name)))
    module = module_from_spec(spec)
    spec.loader.exec_module(module)
    return module


PRETTY = script("pretty")
COMPARE = script("compare")


class Text:
    """A model's text with the arguments of `adjoint`, and of each factor that was put into it the line of its statement."""

    def __init__(self, name, arguments, text, origins=None):
        self.name, self.arguments, self.text, self.origins = name, arguments, text, origins or {}
        self.emitted = self.pretty = None

    def is_taken(self):
        """Whether `adjoint` takes the text: then what it writes and what runtime/pretty prints is kept."""
        try:
            self.emitted, self.pretty = PRETTY.page(self.arguments, self.text)
        except fixed_form.Refused:
            return False
        return True

    def faults(self):
        """What isn't as it should be in what is printed."""
        lines = self.pretty.split("\n")
        bare = [re.sub(r"^(      |     [^ ]) *", r"\1", line) for line in lines if not line.startswith("C ")]
        if "\n".join(bare) != self.emitted:
            yield "more than comments and blanks differs"
        if any(len(line) > 72 and not line.startswith("C ") for line in lines):
            yield "a statement passes column 72"
        if "couldn't be matched" in self.pretty:
            yield "not all is matched with the model"
        if self.read(self.pretty) != self.read(self.emitted):
            yield "it is read otherwise than the emitted text"
        yield from self.misplaced(lines)

    def read(self, text):
        """How the command `run` answers to a text without data: by the first fault of the data, where it reads the text."""
        try:
            return fixed_form.answer("run", self.arguments[:2], text)
        except fixed_form.Refused as refused:
            return str(refused)

    def misplaced(self, lines):
        """Comments that aren't a statement of the model, and statements with a factor under the comment of another statement."""
        of_model = {s.line: s.shown() for s in fixed_form.read_statements(self.text)[0]}
        comments = [(number, int(found[1]), found[2]) for number, line in enumerate(lines, 1) if (found := re.match(r"C +(\d+): (.*)", line))]
        for _, origin, shown in comments:
            if not shown.endswith(of_model.get(origin, "?")):
                yield f"{shown} isn't line {origin}"
        under = None
        for s in fixed_form.read_statements(self.pretty)[0]:
            while comments and comments[0][0] < s.line:
                under = comments.pop(0)[1]
            for factor in re.findall(r"\d{7,}", s.code):
                if self.origins.get(factor, under) != under:
                    yield f"{s.shown()} stands under line {under} and comes from line {self.origins[factor]}"


def arguments_of(words):
    """The head and the lists among the arguments of a command, or nothing."""
    given = {}
    rest = iter(words[1:])
    for word in rest:
        key, _, value = word.partition("=")
        given[key] = value or next(rest, None)
    if words[:1] and words[0] in ("adjoint", "plan", "check") and all(given.get(key) for key in OPTIONS):
        return [word for key in OPTIONS for word in (key, given[key])]
    return None


def fixed_texts():
    """The texts of examples/, of the golden cases and of this folder, each with the arguments of its calls."""
    texts = {}
    for file, *lists in OWN:
        text = Path(__file__).with_name(file).read_text()
        texts[file, *lists] = Text(file, [word for pair in zip(OPTIONS, lists) for word in pair], text)
    for call in all_calls():
        arguments = arguments_of(call.arguments)
        text = call.input(fixed_form.program(), program.run) if arguments else None
        if text is not None:
            text = text.decode("latin-1").split("$DATA")[0]
            texts.setdefault((*arguments, text), Text(call.shown(), arguments, text))
    return list(texts.values())


def with_factors(name, made):
    """A random program, in which each right side and each actual that is an expression has a factor of its own."""
    statements, lines, origin = fixed_form.read_statements(made.text)[0], [], {}
    factors = iter(range(FIRST, FIRST + 100000))

    def times(expression):
        factor = str(next(factors))
        origin[factor] = len(lines) + 1
        return f"{factor}*({expression})"

    for s in statements:
        if s.directive:
            lines.append(s.directive)
        code, kind = s.code, fixed_form.class_of(s.code)
        if kind == "ASSIGN":
            end = fixed_form.closing(code, code.index("(")) if re.match(r"\w+\(", code) else -1
            equals = code.index("=", end + 1)
            code = code[: equals + 1] + times(code[equals + 1:])
        elif kind == "CALL" and "(" in code:
            start = code.index("(")
            actuals = fixed_form.split_list(code[start + 1: -1])
            code = code[: start + 1] + ",".join(times(a) if a.startswith("(") else a for a in actuals) + ")"
        lines += fixed_form.laid_out(code)
    arguments = made.arguments()
    return Text(name, arguments, "\n".join(lines) + "\n", origin)


def same_objects(texts):
    """Whether gfortran makes the same object file of what is emitted and of what is printed."""
    with tempfile.TemporaryDirectory(prefix="pretty-") as work:
        for folder in ("emitted", "pretty"):
            where = Path(work, folder)
            where.mkdir()
            (where / "text.f").write_text("".join(getattr(t, folder) for t in texts))
            options = subprocess.run([RUNTIME / "build", "--options"], capture_output=True, text=True).stdout.split()
            if subprocess.run(["gfortran", "-O0", "-g0", *options, "-ffixed-line-length-72", "-c", "text.f"], cwd=where).returncode:
                return False
        return Path(work, "emitted/text.o").read_bytes() == Path(work, "pretty/text.o").read_bytes()


def main():
    p = argparse.ArgumentParser(description=__doc__, formatter_class=argparse.RawDescriptionHelpFormatter)
    p.add_argument("--programs", type=int, default=40)
    p.add_argument("--seed", type=int, default=1)
    a = p.parse_args()
    made = [COMPARE.random_program(a.seed + k, free) for k in range(a.programs) for free in (False, True)]
    drawn = [with_factors(q.name, q) for q in made]
    texts = fixed_texts() + drawn
    with ThreadPoolExecutor(os.cpu_count() or 1) as pool:
        taken = [t for t, is_taken in zip(texts, pool.map(Text.is_taken, texts)) if is_taken]
        wrong = [(t, found) for t, found in zip(taken, pool.map(lambda t: list(t.faults()), taken)) if found]
    own = {file for file, *_ in OWN}
    wrong += [(t, ["adjoint doesn't take it"]) for t in texts if t.emitted is None and (t in drawn or t.name in own)]
    for t, found in wrong:
        print(f"runtime/pretty of {t.name} {' '.join(t.arguments)}: {'; '.join(found[:3])}\n{t.text}")
    differ = 0
    if shutil.which("gfortran"):
        drawn = [t for t in drawn if t.emitted]
        differ = sum(not same_objects(drawn[at:at + PART]) for at in range(0, len(drawn), PART))
    else:
        print("gfortran isn't installed: what is printed wasn't compiled")
    print(f"runtime/pretty: {len(taken) - len(drawn)} texts of examples and cases and {len(drawn)} random programs, {len(wrong)} printed wrong, {differ} parts with other object files")
    return int(bool(wrong or differ))


if __name__ == "__main__":
    sys.exit(main())
