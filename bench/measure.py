"""Runs a command and measures it: instructions executed, time, and the peak of its memory."""
import fcntl
import os
import pathlib
import re
import select
import subprocess
import time

COLLECTED = re.compile(r"==\d+== Collected : (\d+)")
SET_PIPE_SIZE = getattr(fcntl, "F_SETPIPE_SZ", 1031)


class Failed(Exception):
    """A command that ended with a fault, with what it said."""


def checked(ended, words):
    if ended.returncode != 0:
        raise Failed(f"{' '.join(words)}: status {ended.returncode}: {ended.stderr[-400:].strip()}")
    return ended


def instructions(words, given):
    """Instructions that a command and the commands it starts execute in user mode, as callgrind counts them."""
    traced = ["valgrind", "--tool=callgrind", "--trace-children=yes", "--callgrind-out-file=/dev/null", *words]
    ended = checked(subprocess.run(traced, input=given, capture_output=True, text=True, check=False), words)
    return sum(int(count) for count in COLLECTED.findall(ended.stderr))


def seconds(words, given, times=5):
    """The least time of some runs."""
    least = None
    for _ in range(times):
        start = time.perf_counter()
        checked(subprocess.run(words, input=given, capture_output=True, text=True, check=False), words)
        spent = time.perf_counter() - start
        least = spent if least is None else min(least, spent)
    return least


def peak_kilobytes(words, path):
    """The peak of the memory of a command that reads the file and writes only when all its work is done.

    The pipe that it writes to takes one page, so it is still waiting to write the rest when its peak is read.
    """
    reader, writer = os.pipe()
    fcntl.fcntl(writer, SET_PIPE_SIZE, 4096)
    with open(path, "rb") as given, open(reader, "rb") as written:
        with subprocess.Popen(words, stdin=given, stdout=writer) as running:
            os.close(writer)
            select.select([written], [], [])
            status = pathlib.Path(f"/proc/{running.pid}/status").read_text("ascii")
            written.read()
        if running.returncode != 0:
            raise Failed(f"{' '.join(words)}: status {running.returncode}")
    peak = re.search(r"VmHWM:\s+(\d+) kB", status)
    return int(peak.group(1)) if peak else None
