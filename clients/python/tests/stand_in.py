#!/usr/bin/env python3
"""Plays a farm that knows the increment alone, and goes wrong where it is asked to.

    stand_in.py [--trace] [--drip] [--edit PATTERN TEXT].. [--after N HOW]

An answer that PATTERN matches becomes TEXT, which may be lines or nothing. After N lines of answers it goes on as HOW
says.
"""
import os
import re
import signal
import sys
import time

INCREMENT = "5450573110000C0008000100010000001024F25444F77081D01024F244FB21F5"
words = sys.argv[1:]
trace = "--trace" in words
edits = [(re.compile(words[it + 1]), words[it + 2]) for it, word in enumerate(words) if word == "--edit"]
after, how = next(((int(words[it + 1]), words[it + 2]) for it, word in enumerate(words) if word == "--after"), (-1, ""))
written = 0


def go_wrong(last):
    if how == "fails":
        print("stand-in: out of luck", file=sys.stderr)
        sys.exit(7)
    if how == "ends":
        sys.exit(0)
    if how == "is killed":
        os.kill(os.getpid(), signal.SIGKILL)
    if how == "ends within a line":
        print("R 0 0 1", end="", flush=True)
        sys.exit(0)
    while how == "repeats":
        print(last, flush=True)
    if how == "ignores TERM":
        signal.signal(signal.SIGTERM, signal.SIG_IGN)
    while how == "goes on without a line end":
        print("x" * 4096, end="", flush=True)
    time.sleep(600)


def write(line):
    global written
    for pattern, text in edits:
        if pattern.fullmatch(line):
            line = pattern.sub(text, line)
    for it in line.split("\n") if line else []:
        if written == after:
            go_wrong(it)
        written += 1
        for some in (it + "\n") if "--drip" in words else [it + "\n"]:
            print(some, end="", flush=True)


def results(packets):
    for number, packet in enumerate(packets):
        word = int.from_bytes(bytes.fromhex(packet), "little") + 1
        write(f"R {number} {word == 2**31:d} 16 {(word % 2**32).to_bytes(4, 'little').hex()}")
        if trace:
            write(f"T {number} -")
    write(f"DONE {len(packets)}")


def serve():
    packets = []
    for number, line in enumerate(sys.stdin, 1):
        match line.split():
            case ["a", "IMAGE", image]:
                write("YES 16 16" if image.upper() == INCREMENT else "NO F1 0")
            case ["a", "PACKET", packet] if len(packet) == 8:
                write(f"KEPT {len(packets)}")
                packets.append(packet)
            case ["a", "RUN"]:
                results(packets)
                packets = []
            case ["a", "DROP"]:
                write("GONE")
            case _:
                write(f"NO E1 {number}")


if after == 0:
    go_wrong("hello")
try:
    serve()
except BrokenPipeError:
    os._exit(1)
