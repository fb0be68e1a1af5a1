#!/usr/bin/env python3
"""What a line costs: for each kind of work the processor time of the program, in milliseconds, best of five, and its
peak of memory (at the least that of this script, some 10 MiB).

usage: bench/serve.py [OTHER_FARMD]

Another program, as one that was built from another commit, is measured beside it, in turn, and its times and the ratio
are printed. PROGRAM=FARMD measures that in place of the proved program of this checkout, and ROUNDS=N is the best of N
in place of five. Ends with status 1 where an answer is not the expected one, or where listing takes more than its
limits.
"""

import re
import subprocess
import sys
import tempfile

sys.dont_write_bytecode = True
import running  # noqa: E402

PACKETS = 1024
RECEIVE, SEND = "1024F25444F7", "1024F244FB21F5"
INCREMENT = "5450573110000C000800010001000000" + RECEIVE + "7081D0" + SEND
# 900 times `ldc 0`, `cj 0`: 1,813 code bytes.
JUMPS = "5450573115070C000800010001000000" + RECEIVE + "40A0" * 900 + SEND
# Of listing: the processor time of an instruction in a long line by that in a short one, the seconds, and the memory.
MAX_RATIO, MAX_SECONDS, MAX_KIB = 1.3, 1.0, 4 * 1024


def kept(name):
    yield f"{name} IMAGE {INCREMENT}\n"
    for n in range(PACKETS):
        yield f"{name} PACKET {n % 128:02x}000000\n"


def kept_and_run(name):
    yield from kept(name)
    yield f"{name} RUN\n"


def one_packet():
    return [f"a IMAGE {INCREMENT}\n", "a PACKET 01000000\n", "a RUN\n"]


def full_sessions():
    for n in range(64):
        yield from kept(f"s{n}")
    yield "RUN *\n"


def listed(instructions):
    yield f"LIST {'41' * instructions}\n"


# What is measured, by so many members, with what input, how often that; how many lines are answered in all, and how
# many of these begin with what.
WORKS = [
    ("60,000 images of 16 code bytes", 1, lambda: [f"a IMAGE {INCREMENT}\n"], 60_000, 60_000, 60_000, b"YES 16 16"),
    ("300 images of 1,813 code bytes", 1, lambda: [f"a IMAGE {JUMPS}\n"], 300, 300, 300, b"YES 1813 1813"),
    ("100 x 1,024 packets kept", 1, lambda: kept("a"), 100, 102_500, 102_400, b"KEPT "),
    ("100 x 1,024 packets kept and run", 1, lambda: kept_and_run("a"), 100, 205_000, 102_400, b"R "),
    ("2,000 runs of one packet", 4, one_packet, 2000, 8000, 2000, b"R 0 0 16 02"),
    ("64 full sessions, RUN *", 4, full_sessions, 1, 131_265, 65_536, b"R "),
    ("1,024,000 instructions listed, 4,000 a line", 1, lambda: listed(4000), 256, 1_024_256, 256, b"DONE 4000\n"),
    ("1,024,000 instructions listed, 16,000 a line", 1, lambda: listed(16_000), 64, 1_024_064, 64, b"DONE 16000\n"),
]


def counted(answers, first):
    """How many lines there are, and how many of these begin so."""
    lines = begun = 0
    for line in answers:
        lines += 1
        begun += line.startswith(first)
    return lines, begun


def peak_of_listing(program, line):
    """The program's own peak in KiB once a line is listed, read while it waits for another."""
    with subprocess.Popen([program], stdin=subprocess.PIPE, stdout=subprocess.PIPE) as child:
        child.stdin.write(line.encode())
        child.stdin.flush()
        if not any(it.startswith(b"DONE") for it in child.stdout):
            sys.exit("serve.py: the program ends before its answer")
        with open(f"/proc/{child.pid}/status", encoding="ascii") as status:
            return int(re.search(r"VmHWM:\s*(\d+) kB", status.read())[1])


def measure(programs, name, members, lines_of, times, lines, begun, first):
    """Prints what a work takes by each program, and returns that of the first."""
    with tempfile.TemporaryFile() as given, tempfile.TemporaryFile() as answers:
        for _ in range(times):
            given.writelines(line.encode() for line in lines_of())
        given.flush()
        runs = [[] for _ in programs]
        for _ in range(running.ROUNDS):
            for program, found in zip(programs, runs):
                found.append(running.run([program, "--members", str(members)], given, answers))
                if counted(answers, first) != (lines, begun):
                    sys.exit(f"serve.py: {program}: another answer than expected")
    one, *others = map(running.least, runs)
    line = f"{name}, members {members}: {1000 * one.seconds:.0f} ms, peak {one.peak} KiB"
    for it in others:
        line += f"; other {1000 * it.seconds:.0f} ms, peak {it.peak} KiB: {one.seconds / it.seconds:.2f} times"
    print(line, flush=True)
    return one


def main(others):
    if len(others) > 1:
        sys.exit(__doc__)
    programs = [running.farmd(), *others]
    *_, short, long = [measure(programs, *it) for it in WORKS]
    peak = max(peak_of_listing(programs[0], *listed(it)) for it in (4000, 16_000))
    print(f"listing: peak {peak} KiB of the program alone")
    if long.seconds > MAX_RATIO * short.seconds:
        sys.exit("serve.py: the time of an instruction that is listed grows with its line")
    if max(short.seconds, long.seconds) > MAX_SECONDS or peak > MAX_KIB:
        sys.exit("serve.py: listing takes too long, or too much memory")


if __name__ == "__main__":
    main(sys.argv[1:])
