#!/usr/bin/env python3
"""How long check_states takes, beside check_flow of the same image in the same run: the increment, a straight code of
8,000 bytes, 4,000 conditional jumps, and codes made to keep the passes going (images.py says what they do). Then the
processor time (user and system) and the peak of memory of each, judged in a process of its own: the least of five, less
what a process takes that only makes the image.

usage: bench/check.py

Ends with status 1 where an image takes more than half a second of processor time or a process more than 25 MiB; a
quarter of a second is wanted.
"""

import os
import subprocess
import sys
import tempfile

sys.dont_write_bytecode = True
import images  # noqa: E402
import measure  # noqa: E402
import running  # noqa: E402

# How often an image is judged that is too quick to be judged once.
TIMES = {"increment": 20_000, "straight": 200, "jumps": 20}
MAX_SECONDS, MAX_KIB = 0.5, 25 * 1024


def judged(bench, image, times):
    """What a process takes that judges an image so often."""
    words = [bench, "judge", "image", image.hex(), str(times)]
    with open(os.devnull, "rb") as given, tempfile.TemporaryFile() as answers:
        return running.least([running.run(words, given, answers) for _ in range(running.ROUNDS)])


def main():
    bench = running.benchmark("bench_verifier")
    found = {}
    for name in images.CHECKED:
        image, times = images.named(name), TIMES.get(name, 1)
        output = subprocess.check_output([bench, "check", name, image.hex()], text=True)
        print(*measure.check(output), sep="\n")
        made, whole = judged(bench, image, 0), judged(bench, image, times)
        found[name] = running.Taken(max(whole.seconds - made.seconds, 0) / times, whole.peak)
        seconds, peak = found[name]
        print(f"{name}: {seconds * 1e6:.1f} microseconds of processor time, peak {peak} KiB", flush=True)
    slowest, largest = (max(it) for it in zip(*found.values()))
    print(f"the slowest {slowest:.3f} seconds, the largest peak {largest} KiB")
    if slowest > MAX_SECONDS:
        sys.exit("an image takes too long")
    if largest > MAX_KIB:
        sys.exit("too much memory")


if __name__ == "__main__":
    main()
