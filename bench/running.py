"""What the benchmarks have in common: the programs that they run, and what a run takes."""

import os
import shutil
import subprocess
import sys
from collections import namedtuple

TOP = os.path.dirname(os.path.dirname(os.path.realpath(__file__)))
ROUNDS = int(os.environ.get("ROUNDS", 5))

Taken = namedtuple("Taken", "seconds peak")


def farmd():
    """The program that PROGRAM names, else the proved one of this checkout, built first where it is missing."""
    if os.environ.get("PROGRAM"):
        return os.environ["PROGRAM"]
    if subprocess.run([f"{TOP}/farmd"], stdin=subprocess.DEVNULL).returncode:
        sys.exit("the program is not built")
    return f"{TOP}/crates/tp_farmd/out/tp_farmd"


def benchmark(crate):
    """A benchmark's program, built where it is missing or older than its sources."""
    if not shutil.which("rt"):
        sys.exit("the Rattle kit's command rt is not on the PATH")
    how = {"stdin": subprocess.DEVNULL, "stdout": subprocess.DEVNULL}
    subprocess.run(["rt", "run"], cwd=f"{TOP}/crates/{crate}", check=True, **how)
    return f"{TOP}/crates/{crate}/out/{crate}"


def run(words, given, answers):
    """Runs a program on a file, its answers to another: the processor seconds (user and system) and the peak in KiB.

    A program's peak includes that of the process that starts it: keep that small.
    """
    os.lseek(given.fileno(), 0, os.SEEK_SET)
    os.ftruncate(answers.fileno(), 0)
    streams = [(os.POSIX_SPAWN_DUP2, given.fileno(), 0), (os.POSIX_SPAWN_DUP2, answers.fileno(), 1)]
    answers.seek(0)
    child = os.posix_spawn(words[0], words, os.environ, file_actions=streams)
    _, status, used = os.wait4(child, 0)
    answers.seek(0)
    if status:
        sys.exit(f"{' '.join(words)[:80]}: status {os.waitstatus_to_exitcode(status)}")
    return Taken(used.ru_utime + used.ru_stime, used.ru_maxrss)


def least(runs):
    """The least seconds and the least peak of some runs: others use the machine too."""
    return Taken(min(it.seconds for it in runs), min(it.peak for it in runs))
