#!/usr/bin/env python3
"""Builds a benchmark, runs it, and prints rates of what it counts and times.

usage: bench/measure.py WORD

  flow     check_flow over 8,192 code bytes with 16 loops, beside plain loops over the same listing by number and by address
  states   instructions a second that the rules of the verifier take in place; a join and a comparison of two states of 512 words
  accept   images a second: the increment, a straight code, 4,000 conditional jumps, and one that makes the passes go on for long;
           each beside decoding the same code
  machine  instruction bytes a second of two loops, a checksum and moves, on the machine and on the tested one in turn, seven times:
           the best; the loops also in a plain function over an array
  board    packets a second that 1, 2 and 4 threads claim and finish, beside plain atomics that make the same steps
  farm     packets a second of batches by 1, 2 and 4 members, of a light worker and of a heavy one, eleven times: best and median, and
           the ratio to one member; then the peak of memory of a batch of heavy packets by four members

A line of the benchmark is `NAME: WHAT WAS COUNTED, WHAT N ns, WHAT N ns ..`.
"""

import collections
import os
import re
import statistics
import subprocess
import sys
import tempfile

sys.dont_write_bytecode = True
import images  # noqa: E402
import running  # noqa: E402

# What is accepted, and how often: an image that is judged quickly is judged more often.
ACCEPTED = {"increment": 2000, "short and straight": 200, "jumps over few words": 20, "one loop": 1}


def lines(output):
    """Of each line its name, its whole numbers by the words behind them, its text, and its times by what took them."""
    for line in output.splitlines():
        name, _, text = line.rpartition(": ")
        times = {what: int(nanos) for what, nanos in re.findall(r", ([a-z_][\w ]*?) (\d+) ns", text)}
        if not times:
            sys.exit(f"measure.py: no times: {line}")
        counts = {what: int(number) for number, what in re.findall(r"\b(\d+) ([a-z]+)", text)}
        yield name, counts, text, times


def measured(crate, *words):
    """The lines of a benchmark."""
    return lines(subprocess.run([running.benchmark(crate), *words], stdout=subprocess.PIPE, check=True, text=True).stdout)


def flow():
    for name, counts, text, times in measured("bench_verifier", "flow"):
        rounds = counts["passed"]
        print(f"{name}: check_flow {times['check_flow'] // rounds} ns ({text.split(',')[0]})")
        for by in "by number", "by address":
            percent = 100 * times["check_flow"] // max(times[by], 1)
            print(f"  plain loop {by} {times[by] // rounds} ns: check_flow takes {percent} percent of it")


def states():
    for name, counts, text, times in measured("bench_verifier", "states"):
        if "all" in times:
            print(f"{name}: {1000 * counts['instructions'] // times['all']} million instructions a second")
        else:
            joined, compared = times["joined"] / counts["joins"], times["compared"] / counts["comparisons"]
            print(f"{name}: join {joined:.0f} ns, is_below {compared:.0f} ns")


def check(output):
    """What bench/check.py prints of an image."""
    for name, counts, text, times in lines(output):
        judged, flow = times["judged"], times["check_flow 100 times"] / 100
        yield f"{name}: {judged // 1000} microseconds, {judged / flow:.0f} times check_flow; {text.partition(', judged')[0]}"


def accept():
    for image, rounds in ACCEPTED.items():
        for name, counts, text, times in measured("bench_verifier", "accept", image, images.named(image).hex(), str(rounds)):
            accepted, decoded = times["accepted"] / rounds, times["decoded"] / rounds
            print(f"{name}: {counts['code']} code bytes, {accepted:.0f} ns, {1e9 / accepted:.3f} a second,", end=" ")
            print(f"{accepted / decoded:.0f} times as long as decoding ({decoded:.0f} ns)")


def machine():
    least, counted = {}, {}
    for name, counts, _, times in measured("bench_farm", "machine"):
        least[name] = min(times["all"], least.get(name, times["all"]))
        counted[name] = counts.get("instruction")
    for name in [it.removesuffix(", the machine") for it in least if it.endswith(", the machine")]:
        ours, tested, plain = (least.get(f"{name}, {kind}") for kind in ("the machine", "tested", "plain loop"))
        bytes_run = counted[f"{name}, the machine"]
        print(f"{name}: {1000 * bytes_run // ours} million instruction bytes a second, tested {1000 * bytes_run // tested}:", end=" ")
        print(f"{tested / ours:.1f} times")
        if plain:
            print(f"{name}: {ours / plain:.0f} times as long as the plain loop")


def board():
    rates = collections.defaultdict(list)
    for name, counts, text, times in measured("bench_farm", "board"):
        finished = re.search(r"board (\d+) packets, plain atomics (\d+) packets", text)
        rates[name].append([int(packets) * 10**9 // times[of] for packets, of in zip(finished.groups(), ("boards", "plain"))])
    for name, found in rates.items():
        ours, plain = (max(it) for it in zip(*found))
        print(f"{name}: board {ours} packets a second, plain atomics {plain}, ratio {100 * ours // plain} percent")


def farm():
    rates = collections.defaultdict(list)
    for name, counts, _, times in measured("bench_farm", "farm"):
        rates[tuple(name.split(", "))].append(counts["packets"] * 10**9 // times["all"])
    best_and_median = {it: (max(found), int(statistics.median(found))) for it, found in rates.items()}
    for (worker, members), found in best_and_median.items():
        percent = [100 * a // b for a, b in zip(found, best_and_median[worker, "members 1"])]
        print(f"{worker}, {members}: {found[0]} packets a second, median {found[1]}; {percent[0]} and {percent[1]} percent of one member")
    with open(os.devnull, "rb") as given, tempfile.TemporaryFile() as answers:
        taken = running.run([running.benchmark("bench_farm"), "farm-once"], given, answers)
        print(f"{answers.read().decode().strip()}; peak {taken.peak} KiB")


WORDS = {it.__name__: it for it in (flow, states, accept, machine, board, farm)}

if __name__ == "__main__":
    if len(sys.argv) != 2 or sys.argv[1] not in WORDS:
        sys.exit(__doc__)
    WORDS[sys.argv[1]]()
