"""Where the program is, and one run of it."""
import os
import subprocess
import sys
from pathlib import Path

TOP = Path(__file__).resolve().parent.parent.parent
# a run that takes longer is ended, and counts as one that gives no answer
SECONDS = 120


def find():
    """The executable: ADJTOOL where that is set, else the proved program, which ./adjtool builds where it isn't there."""
    named = os.environ.get("ADJTOOL")
    if named:
        program = Path(named).resolve()
    else:
        built = subprocess.run([TOP / "adjtool", "schedule", "0", "1"], stdin=subprocess.DEVNULL, stdout=subprocess.DEVNULL)
        if built.returncode:
            sys.exit("./adjtool: the program isn't built")
        program = TOP / "crates/adjtool/out/adjtool"
    if not (program.is_file() and os.access(program, os.X_OK)):
        sys.exit(f"{program} is no program: set ADJTOOL to the executable")
    return str(program)


def run(program, arguments, text):
    """The status of a run, what it wrote, and what it wrote to standard error. A signal is a status below 0."""
    try:
        done = subprocess.run([program, *arguments], input=text, capture_output=True, timeout=SECONDS)
    except subprocess.TimeoutExpired as late:
        return "none in time", late.stdout or b"", late.stderr or b""
    return done.returncode, done.stdout, done.stderr
