"""What the tests of refused memory, refused reads and writes, and random texts share: inputs, and how a run ended."""
import pathlib
import shutil
import subprocess
from typing import NamedTuple

TOP = pathlib.Path(__file__).resolve().parent.parent
SECONDS = 20
MODES = ["naive", "slow", "opt"]
MADE = "gen --seed 7 --units 3"         # the mode that reads nothing
WORKERS = ["opt --workers 1", "opt --workers 4"]        # tried where the program takes these words
LATE = None             # the status of a run that was stopped


class Run(NamedTuple):
    """How a run ended: its status, or LATE where it was stopped, what it wrote, and its notes."""
    status: object
    output: bytes
    notes: bytes


def run(words, given, **more):
    try:
        ended = subprocess.run(words, input=given, capture_output=True, check=False, timeout=SECONDS, **more)
    except subprocess.TimeoutExpired:
        return Run(LATE, b"", b"")
    return Run(ended.returncode, ended.stdout, ended.stderr)


def program_of(launcher):
    """The program itself: where it is the launcher, that is run first, so that the program is built, and then left aside."""
    subprocess.run([launcher, "naive"], stdin=subprocess.DEVNULL, capture_output=True, check=False)
    built = TOP / "crates" / "po_cli" / "out" / "po_cli"
    return str(built) if pathlib.Path(launcher).resolve() == TOP / "po" else launcher


def small_input():
    """One small input: a loop, a global variable and a call, on the machine `tiny`."""
    return (TOP / "machines" / "tiny.desc").read_bytes() + (TOP / "examples" / "sum.unit").read_bytes()


def modes_of(po):
    """The modes that read, as far as the program takes them, each by its words."""
    return MODES + [words for words in WORKERS if run([po, *words.split()], small_input()).status == 0]


def library(code, folder):
    """Compiles a few lines of C to a library that is loaded before the C library; None where there is no compiler."""
    compiler = next((name for name in ("cc", "gcc", "clang", "tcc") if shutil.which(name)), None)
    if compiler is None:
        return None
    source, built = folder / "refuse.c", folder / "refuse.so"
    source.write_text(code)
    subprocess.run([compiler, "-shared", "-fPIC", "-O1", "-o", built, source, "-ldl"], check=True)
    return str(built)
