"""The processors on which programs are run, and the steps that assemble, link and run one. examples/run and tests/entries share it."""
import pathlib
import re
import shlex
import shutil
import subprocess
import sys
from typing import NamedTuple

TOP = pathlib.Path(__file__).resolve().parent.parent
SECONDS = 60


class Target(NamedTuple):
    """A processor: the words of the commands that assemble, link and run a program for it."""
    assemble: list
    link: list
    run: list


TARGETS = {
    "rv32im": Target(
        ["riscv64-linux-gnu-as", "-march=rv32im", "-mabi=ilp32"],
        ["riscv64-linux-gnu-ld", "-melf32lriscv", "--no-relax"],
        ["qemu-riscv32"]),
    "arm": Target(["arm-linux-gnueabi-as", "-march=armv7-a"], ["arm-linux-gnueabi-ld"], ["qemu-arm"]),
    "mips32": Target(["mips-linux-gnu-as", "-mips32", "-mabi=32", "-G", "0"], ["mips-linux-gnu-ld", "-e", "_start"], ["qemu-mips"]),
    "m68k": Target(["m68k-linux-gnu-as", "-m68020"], ["m68k-linux-gnu-ld"], ["qemu-m68k"]),
    "ppc32": Target(["powerpc-linux-gnu-as", "-mregnames", "-mppc"], ["powerpc-linux-gnu-ld"], ["qemu-ppc"]),
    "sparc32": Target(["sparc64-linux-gnu-as", "-32", "-Av8"], ["sparc64-linux-gnu-ld", "-melf32_sparc"], ["qemu-sparc"]),
    "aarch64": Target(["aarch64-linux-gnu-as"], ["aarch64-linux-gnu-ld"], ["qemu-aarch64"]),
    "x86_64": Target(["as", "--64"], ["ld", "-static"], []),
}


class StepFailed(Exception):
    """A step of a program that ended with a fault, with what it said."""


def output_of(step, words, given=""):
    """The standard output of a command that must end well."""
    try:
        ended = subprocess.run(words, input=given, capture_output=True, text=True, check=False)
    except OSError as fault:
        raise StepFailed(f"{step}: {fault.strerror}: {words[0]}") from fault
    if ended.returncode != 0:
        raise StepFailed(f"{step}: status {ended.returncode}: {ended.stderr.strip()}")
    return ended.stdout


def assembly_of(po, given):
    """The assembly that a command of po writes for an input, without the rules that `opt` writes behind it."""
    return re.split(r"^rules \d+$", output_of("po", po, given), maxsplit=1, flags=re.M)[0]


def missing_tool(target):
    """The first tool of a target that isn't installed, or None where all are."""
    tools = [command[0] for command in target if command]
    return next((tool for tool in tools if shutil.which(tool) is None), None)


def description_path(name):
    return TOP / "machines" / f"{name}.desc"


def runtime_of(name):
    return (TOP / "examples" / "runtime" / f"{name}.s").read_text("ascii")


def link(name, text, base):
    """Assembles and links a text of assembly, with its runtime in it; gives the program's path. `base` is where the files go, without an end."""
    target = TARGETS[name]
    source, object_file, program = (base.with_suffix(suffix) for suffix in (".s", ".o", ".elf"))
    source.write_text(text)
    output_of("assembler", target.assemble + ["-o", str(object_file), str(source)])
    output_of("linker", target.link + ["-o", str(program), str(object_file)])
    return program


def result_of(program, name):
    """What a program printed, and behind it the line of what it returned."""
    words = TARGETS[name].run + [str(program)]
    try:
        ended = subprocess.run(words, capture_output=True, encoding="ascii", errors="replace", check=False, timeout=SECONDS)
    except subprocess.TimeoutExpired as late:
        raise StepFailed(f"run: not ended after {SECONDS} seconds") from late
    return f"{ended.stdout}returned {ended.returncode}\n"


def main():
    """Prints a processor's command for a step, for examples/Makefile: `processors.py NAME assemble`, `link` or `run`."""
    if len(sys.argv) != 3 or sys.argv[1] not in TARGETS or sys.argv[2] not in Target._fields:
        sys.exit(f"usage: processors.py {{{','.join(TARGETS)}}} {{{','.join(Target._fields)}}}")
    print(shlex.join(getattr(TARGETS[sys.argv[1]], sys.argv[2])))


if __name__ == "__main__":
    main()
