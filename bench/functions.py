#!/usr/bin/env python3
"""The functions whose proofs take longest, of crates that are proved here from nothing.

usage: bench/functions.py CRATE..

One process proves a crate, so the time from one line of `rt check --progress` to the next is what one function took, with what it is
the first to need. The libraries below a crate are built first where they are not; what earlier checks of the crate kept is removed.
"""

import os
import re
import shutil
import subprocess
import sys
import time

TOP = os.path.dirname(os.path.dirname(os.path.realpath(__file__)))
SHOWN = 10


def proved(crate):
    """The seconds and the names of a crate's functions."""
    folder = f"{TOP}/crates/{crate}"
    if not os.path.isdir(folder):
        sys.exit(f"functions: no crate {crate}")
    shutil.rmtree(f"{folder}/out/incremental", ignore_errors=True)
    found, verdict = [], ""
    with subprocess.Popen(
        ["rt", "check", "--jobs", "1", "--progress"], cwd=folder, stdout=subprocess.PIPE, stderr=subprocess.STDOUT, text=True
    ) as child:
        last = time.monotonic()
        for line in child.stdout:
            now = time.monotonic()
            checked = re.match(r"checked (\S+), \d+ of \d+$", line)
            if checked:
                found.append((now - last, checked[1]))
            if checked or line.startswith("so far: 0 "):
                last = now
            if line.startswith("logic="):
                verdict = line.split()[0]
    if child.returncode or verdict != "logic=proved" or not found:
        sys.exit(f"functions: {crate} is not proved, status {child.returncode}")
    return found


def main():
    if len(sys.argv) < 2:
        sys.exit(__doc__)
    found = [it for crate in sys.argv[1:] for it in proved(crate)]
    for seconds, name in sorted(found, reverse=True)[:SHOWN]:
        print(f"{seconds:8.1f}  {name}")
    print(f"{sum(it for it, _ in found):8.1f}  all {len(found)}")


main()
