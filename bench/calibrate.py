#!/usr/bin/env python3
"""How fast the machine is today: the processor seconds that the proof of an example of the kit takes, from nothing.

usage: bench/calibrate.py

What the gate takes, `time ./test` says. It differs from day to day; these seconds show a machine that is slow for all
work, and not each such day (37.8 seconds beside 293 minutes, 37.2 beside 314).
"""

import os
import resource
import shutil
import signal
import subprocess
import sys
import tempfile

# Another kit may take another time for it, so the kit is printed too.
EXAMPLE = "rope"


def main():
    if not shutil.which("rt"):
        sys.exit("bench/calibrate.py: the Rattle kit's command rt is not on the PATH")
    page, version = (subprocess.check_output(["rt", it], text=True).strip() for it in ("doc", "version"))
    before = sum(resource.getrusage(resource.RUSAGE_CHILDREN)[:2])
    with tempfile.TemporaryDirectory(prefix="calibrate-") as room:
        folder = shutil.copytree(f"{os.path.dirname(page)}/rattle/examples/worked/{EXAMPLE}", f"{room}/{EXAMPLE}")
        how = {"cwd": folder, "stdin": subprocess.DEVNULL, "capture_output": True, "text": True}
        ran = subprocess.run(["rt", "verdict", "--jobs", "1"], **how)
    if ran.returncode:
        sys.exit(f"{ran.stdout}{ran.stderr}bench/calibrate.py: the kit's example {EXAMPLE} is not proved")
    seconds = sum(resource.getrusage(resource.RUSAGE_CHILDREN)[:2]) - before
    print(f"the kit's example {EXAMPLE} proved from nothing: {seconds:.1f} processor seconds ({version})")


if __name__ == "__main__":
    for it in (signal.SIGTERM, signal.SIGHUP, signal.SIGINT):
        signal.signal(it, lambda number, _: sys.exit(128 + number))
    main()
