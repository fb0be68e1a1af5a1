"""Images, packets and results, and how each is read."""

import os
import re
import shutil
import subprocess
from collections.abc import Iterator, Sequence
from dataclasses import dataclass
from operator import index
from pathlib import Path
from typing import NamedTuple

from farmd.faults import NotFound, Refused, WrongLength

MAX_BUDGET = 16_777_216
MAX_TRACE_BYTES = 256

Packet = bytes | bytearray | memoryview | Sequence[int]


@dataclass(frozen=True)
class Image:
    """A worker program as bytes, with the sizes that its header has; docs/IMAGE_FORMAT.md has the format."""

    data: bytes

    def _field(self, place: int) -> int:
        return int.from_bytes(self.data[place : place + 2], "little")

    @property
    def code_bytes(self) -> int:
        return self._field(4)

    @property
    def packet_bytes(self) -> int:
        return 4 * self._field(10)

    @property
    def result_bytes(self) -> int:
        return 4 * self._field(12)

    def packet(self, number: int, packet: Packet) -> bytes:
        """The bytes of a packet: words have the low byte first. Fails with `WrongLength`."""
        if isinstance(packet, (bytes, bytearray, memoryview)):
            data = bytes(packet)
        else:
            words = [index(word) for word in packet]
            if not all(-(2**31) <= word < 2**32 for word in words):
                raise ValueError(f"packet {number} has a number that is no word of 32 bits")
            data = b"".join((word & 0xFFFFFFFF).to_bytes(4, "little") for word in words)
        if len(data) != self.packet_bytes:
            raise WrongLength(number, len(data), self.packet_bytes)
        return data


@dataclass(frozen=True)
class Worker(Image):
    """An image that a farm has accepted: no run of it takes more instruction bytes than `budget`."""

    budget: int


class Result(NamedTuple):
    """What a packet gives: the bytes of its result, the error flag, and how many instruction bytes the run took.

    `traces` are the bytes of its traces, one behind another, where the farm traces.
    """

    value: bytes
    flag: bool
    steps: int
    traces: bytes | None = None

    @property
    def words(self) -> tuple[int, ...]:
        """The result's words as signed numbers."""
        data = self.value
        return tuple(int.from_bytes(data[it : it + 4], "little", signed=True) for it in range(0, len(data), 4))


class WrongAnswer(Exception):
    """A line that is not the one due."""


_RESULT = re.compile(rb"R (0|[1-9][0-9]{0,3}) ([01]) (0|[1-9][0-9]{0,7}) ([0-9a-f]+)")
_TRACE = re.compile(rb"T (0|[1-9][0-9]{0,3}) (-|(?:[0-9a-f]{2}){1,%d})" % MAX_TRACE_BYTES)


def read_results(
    lines: Iterator[bytes], count: int, image: Image, budget: int, traced: bool | None
) -> list[Result | None]:
    """The results of a batch from its answers, None for a packet that is lost; fails with `WrongAnswer` where a line is
    not the one due. `traced` says whether each R line has a T line: None, that either all have one or none."""
    results: list[Result | None] = []
    line = next(lines)
    for number in range(count):
        if line == b"LOST %d" % number:
            results.append(None)
            line = next(lines)
            continue
        fields = _RESULT.fullmatch(line)
        if not fields or int(fields[1]) != number:
            raise WrongAnswer(line)
        if len(fields[4]) != 2 * image.result_bytes or int(fields[3]) > budget:
            raise WrongAnswer(line)
        line = next(lines)
        traces = None
        if traced is None:
            traced = line.startswith(b"T ")
        if traced:
            trace = _TRACE.fullmatch(line)
            if not trace or int(trace[1]) != number:
                raise WrongAnswer(line)
            traces = b"" if trace[2] == b"-" else bytes.fromhex(trace[2].decode())
            line = next(lines)
        results.append(Result(bytes.fromhex(fields[4].decode()), fields[2] == b"1", int(fields[3]), traces))
    if line != b"DONE %d" % count:
        raise WrongAnswer(line)
    return results


def write_results(results: Sequence[Result | None], first: int = 0) -> str:
    """The R, T and LOST lines of results, numbered from `first` on."""
    lines = []
    for number, it in enumerate(results, first):
        if it is None:
            lines.append(f"LOST {number}\n")
            continue
        lines.append(f"R {number} {it.flag:d} {it.steps} {it.value.hex()}\n")
        if it.traces is not None:
            lines.append(f"T {number} {it.traces.hex() or '-'}\n")
    return "".join(lines)


def is_hexadecimal(text: str | bytes) -> bool:
    """Whether a text is bytes in hexadecimal, and nothing else."""
    data = text.encode() if isinstance(text, str) else text
    return re.fullmatch(rb"(?:[0-9A-Fa-f]{2})+", data) is not None


class Source:
    """What a worker is made of: bytes of an image, a text (a str with a line end, or an image's digits), or a file of
    either; `occam` says that a text is occam, as the name of a file may."""

    def __init__(self, source: str | bytes | os.PathLike[str], occam: bool, tpw: str) -> None:
        self._tpw = tpw
        self._words = ["--occam"] if occam else []
        if isinstance(source, bytes):
            data = source
        elif isinstance(source, str) and ("\n" in source or source.upper().startswith("545057")):
            data = source.encode()
        else:
            data = Path(source).read_bytes()
            self._words.append(os.path.abspath(source))
        self._image: bytes | None = None
        if isinstance(source, bytes) or data.startswith(b"TPW"):
            self._image = data
        elif is_hexadecimal(data.strip()):
            self._image = bytes.fromhex(data.decode())
        self._text = data if self._image is None else self._image.hex().encode()

    def image(self) -> Image:
        """The image. Fails with `Refused` where the text has a fault, `NotFound` where tpw is not there to read it."""
        if self._image is not None:
            return Image(self._image)
        status, output, errors = self._run("asm", self._words)
        if status != 0:
            raise Refused("", 0, errors)
        return Image(bytes.fromhex(output))

    def why(self) -> str:
        """What `tpw why` says of it; nothing where tpw is not there."""
        try:
            return self._run("why", self._words if self._image is None else [])[1]
        except NotFound:
            return ""

    def _run(self, command: str, words: list[str]) -> tuple[int, str, str]:
        if not shutil.which(self._tpw):
            raise NotFound(self._tpw, "it makes images of texts: install the package farmd, or build it by ./tpw")
        done = subprocess.run([self._tpw, command, *words], input=self._text, capture_output=True, check=False)
        return done.returncode, done.stdout.decode(), done.stderr.decode(errors="replace")
