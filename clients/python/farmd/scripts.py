"""The commands farmd-run and farmd-over-ssh: their pages, packaging/*.1, say what they do."""

import logging
import os
import re
import shutil
import signal
import stat
import sys
import tempfile
from collections.abc import Callable, Iterator
from contextlib import closing
from hashlib import sha256
from itertools import islice
from types import FrameType
from typing import BinaryIO, NoReturn

from farmd.farm import MAX_BATCH, Farm
from farmd.faults import FarmEnded, Fault, Refused, WrongFolder, WrongLength, printable
from farmd.workers import Image, write_results

log = logging.getLogger("farmd")

REFUSED, AT_FAULT, MISSING, SIGNALLED = 1, 2, 3, 128
_PACKET = re.compile(rb"((?:[0-9A-Fa-f]{2})+)\r?\n?")
# More than any file has.
ALL = 10**15 - 1


class Wrong(Exception):
    """The command line, a file or standard output is at fault."""


class Stopped(BaseException):
    """A signal ends the run."""


class Packets:
    """The packets of a file, a line each in hexadecimal: `count` of them from number `first` on."""

    def __init__(self, name: str, image: Image, first: int = 0, count: int = ALL) -> None:
        self._name, self._image, self._first = name, image, first
        self._digest = ""
        # The header has the length of a packet; what has no header is no image, and is left to the farm.
        self.due = image.packet_bytes if image.data.startswith(b"TPW") else 0
        self._count = count
        self.total = sum(1 for _ in self._read())
        self.first_digest = self._digest
        if count != ALL and self.total < count or first and not self.total:
            raise Wrong(f"{name}: not so many packets: {self.total} from number {first} on")

    def __iter__(self) -> Iterator[bytes]:
        yield from self._read()
        if self._digest != self.first_digest:
            raise Wrong(f"{self._name}: it has changed since the run began")

    def _read(self) -> Iterator[bytes]:
        digest = sha256()
        with opened(self._name) as file:
            for number, line in enumerate(islice(file, self._first, self._first + self._count), self._first):
                digits = _PACKET.fullmatch(line)
                if not digits:
                    raise Wrong(f"{self._name}: packet {number}, line {number + 1}, is not hexadecimal")
                packet = bytes.fromhex(digits[1].decode())
                if self.due not in (0, len(packet)):
                    raise WrongLength(number, len(packet), self.due)
                digest.update(line)
                yield packet
        self._digest = digest.hexdigest()


def opened(name: str) -> BinaryIO:
    """A file that can be read twice."""
    file = open(name, "rb")
    kind = os.fstat(file.fileno()).st_mode
    if stat.S_ISREG(kind) or stat.S_ISCHR(kind):
        return file
    file.close()
    raise Wrong(f"{name}: not a file")


def read_image(name: str) -> Image:
    with opened(name) as file:
        digits = _PACKET.fullmatch(file.read())
    if not digits:
        raise Wrong(f"{name}: not one line of hexadecimal")
    return Image(bytes.fromhex(digits[1].decode()))


def number(name: str, least: int, most: int, default: int) -> int:
    """A variable of the environment."""
    value = os.environ.get(name) or str(default)
    if re.fullmatch("[0-9]{1,15}", value) and least <= int(value) <= most:
        return int(value)
    raise Wrong(f"{name}={value} is not in {least} to {most}")


def put(text: str) -> None:
    """Writes to standard output, all of it."""
    data = text.encode()
    while data:
        data = data[os.write(1, data) :]


def run(words: list[str]) -> None:
    if len(words) < 2:
        raise Wrong("usage: farmd-run IMAGE PACKETS [COMMAND WORD..]")
    image_name, packets_name, *command = words
    batch = number("BATCH", 1, MAX_BATCH, MAX_BATCH)
    first = number("FIRST", 0, ALL, 0)
    count = number("COUNT", 0, ALL, ALL)
    wait = number("WAIT", 1, 10**6, 120)
    image = read_image(image_name)
    packets = Packets(packets_name, image, first, count)
    work = os.environ.get("WORK") or None
    mark = f"first {first} packets {packets.first_digest} trace {int('--trace' in command)}"
    with Farm(command=command, trace=None, batch=batch, wait=wait) as farm:
        if not packets.total or not packets.due:
            farm.worker(image.data)
        with closing(farm.batches(image, packets, work=work, mark=mark)) as batches:
            for results in batches:
                put(write_results(results, first))
                first += len(results)


def run_over_ssh(words: list[str]) -> None:
    if len(words) < 3:
        raise Wrong("usage: farmd-over-ssh IMAGE PACKETS HOST..")
    image_name, packets_name, *hosts = words
    for host in hosts:
        if not host or host.startswith("-"):
            raise Wrong(f"{host!r} is no host")
    check = number("CHECK", 0, MAX_BATCH, 0)
    if check and len(set(hosts)) < 2:
        raise Wrong("CHECK wants a second host")
    remote = os.environ.get("REMOTE") or "farmd"
    part = min(number("PART", 1, 10**9, 1000), number("BATCH", 1, MAX_BATCH, MAX_BATCH))
    wait, pause = number("WAIT", 1, 10**6, 120), number("PAUSE", 0, 10**6, 10)
    image = read_image(image_name)
    packets = Packets(packets_name, image)
    mark = f"packets {packets.first_digest} trace {int('--trace' in remote.split())}"
    places = ["ssh://" + it for it in hosts]
    with Farm(places, command=[remote], trace=None, batch=part, wait=wait, pause=pause, check=check) as farm:
        if not packets.total or not packets.due:
            farm.worker(image.data)
        if not packets.total:
            log.warning("%s: no packets", packets_name)
            return
        with _Work(os.environ.get("WORK")) as work:
            parts = -(-packets.total // part)
            with closing(farm.batches(image, packets, work=work, mark=mark)) as batches:
                for done, _ in enumerate(batches, 1):
                    show(f"{done} of {parts} parts")
            show("\n")
            # All parts are there, so this runs none.
            with closing(farm.batches(image, packets, work=work, mark=mark)) as batches:
                first = 0
                for results in batches:
                    put(write_results(results, first))
                    first += len(results)


class _Work:
    """The folder for results: a new one is removed once they are written, or where nothing can go on from it."""

    def __init__(self, named: str | None) -> None:
        self._is_own = not named
        self._folder = named or tempfile.mkdtemp(prefix="farmd.")

    def __enter__(self) -> str:
        return self._folder

    def __exit__(self, kind: type[BaseException] | None, fault: BaseException | None, at: object) -> None:
        if self._is_own and isinstance(fault, (type(None), Refused, Wrong, BrokenPipeError)):
            shutil.rmtree(self._folder)
        elif fault and not isinstance(fault, (Refused, Wrong, WrongFolder)):
            show("\n")
            log.warning("the same command with WORK=%s goes on from here", self._folder)


def show(text: str) -> None:
    """Shows how far a run is, on a terminal."""
    if sys.stderr and sys.stderr.isatty():
        sys.stderr.write(text if text == "\n" else f"\r{text}")
        sys.stderr.flush()


def _stop(signal_number: int, frame: FrameType | None) -> NoReturn:
    raise Stopped(signal_number)


def _status(body: Callable[[list[str]], None]) -> tuple[int, str]:
    """Runs a command: its status, and what there is to say."""
    try:
        # Signals that are ignored, as nohup has it, stay so.
        for it in (signal.SIGHUP, signal.SIGINT, signal.SIGQUIT, signal.SIGTERM):
            if signal.getsignal(it) != signal.SIG_IGN:
                signal.signal(it, _stop)
        body(sys.argv[1:])
    except Stopped as fault:
        return SIGNALLED + int(fault.args[0]), ""
    except BrokenPipeError:
        return SIGNALLED + signal.SIGPIPE, ""
    except Refused as fault:
        return REFUSED, f"{sys.argv[1]}: {fault}"
    except WrongLength as fault:
        place = f"{sys.argv[2]}: packet {fault.number}, line {fault.number + 1}"
        return REFUSED, f"{place}, is refused: {fault.length} bytes, not {fault.due}"
    except (Wrong, WrongFolder) as fault:
        return AT_FAULT, str(fault)
    except Fault as fault:
        return MISSING, str(fault)
    except OSError as fault:
        return AT_FAULT, f"{fault.filename or 'results'}: {fault.strerror}"
    return 0, ""


def _main(body: Callable[[list[str]], None]) -> NoReturn:
    name = os.path.basename(sys.argv[0])
    start = "\r\033[K" if sys.stderr and sys.stderr.isatty() else ""
    logging.basicConfig(format=f"{start}{name}: %(message)s", level=logging.WARNING)
    # What is closed stays out of the way of pipes, and no result goes to it.
    for stream in (1, 0, 2):
        try:
            os.fstat(stream)
        except OSError:
            if stream == 1:
                log.error("standard output is closed")
                sys.exit(AT_FAULT)
            os.open(os.devnull, os.O_RDWR)
    status, text = _status(body)
    if text:
        log.error("%s", printable(text))
    sys.exit(status)


def farmd_run() -> NoReturn:
    _main(run)


def farmd_over_ssh() -> NoReturn:
    _main(run_over_ssh)
