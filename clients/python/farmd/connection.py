"""One farm at work: the pipes of a process, or a socket. Lines go out while answers come in, so neither waits for the
other."""

import contextlib
import os
import re
import select
import socket
import subprocess
import time
from collections import deque
from collections.abc import Callable, Sequence
from urllib.parse import urlsplit

from farmd.faults import FarmEnded, NotFound, Refused, printable
from farmd.workers import MAX_BUDGET, Image, Result, WrongAnswer, read_results

CHUNK_BYTES = 65_536
# The longest line is that of 256 bytes of trace, or of a result; a host may greet by a longer one.
MAX_LINE_BYTES = 65_536
# How much of a farm's standard error is kept, and how long it may take to end.
ERRORS_BYTES = 4096
GRACE_SECONDS = 2.0
CONNECT_SECONDS = 10.0

_YES = re.compile(rb"YES ([0-9]{1,8}) ([0-9]{1,8})")
_NO = re.compile(rb"NO ([A-Z][0-9]{1,2}) ([0-9]{1,8})")


class Connection:
    """A farm's process or socket. `wait` is how many seconds an answer may take; `woken` is called where `wake` was,
    while an answer is waited for."""

    def __init__(self, name: str, target: str | Sequence[str], wait: float, woken: Callable[[], None]) -> None:
        self.name = name
        self._wait = wait
        self._woken = woken
        self._unsent = bytearray()
        self.is_closing = False
        self._answers: deque[bytes] = deque()
        self._rest = b""
        self._errors_end = b""
        self._process: subprocess.Popen[bytes] | None = None
        self._socket: socket.socket | None = None
        try:
            if isinstance(target, str):
                self._socket = _connected(target)
                self._in, self._out, self._errors = self._socket.fileno(), os.dup(self._socket.fileno()), -1
            else:
                self._start(target)
        except FileNotFoundError as fault:
            if isinstance(target, str):
                raise FarmEnded(name, "no socket is there") from fault
            raise NotFound(target[0], "farmd and tpw are in the package farmd, ssh in openssh-client") from fault
        except OSError as fault:
            raise FarmEnded(name, fault.strerror or str(fault)) from fault
        self._wakes, self._waker = os.pipe()
        for stream in (self._in, self._out, self._errors, self._wakes, self._waker):
            if stream >= 0:
                os.set_blocking(stream, False)

    def _start(self, words: Sequence[str]) -> None:
        pipe = subprocess.PIPE
        process = subprocess.Popen(words, stdin=pipe, stdout=pipe, stderr=pipe, bufsize=0)
        assert process.stdin and process.stdout and process.stderr
        self._process = process
        # The process would close its streams with itself, so each has a number of its own.
        streams = (process.stdout, process.stdin, process.stderr)
        self._in, self._out, self._errors = (os.dup(it.fileno()) for it in streams)
        for it in streams:
            it.close()

    def wake(self) -> None:
        """Has `woken` called by the thread that waits for an answer, now or when it next does."""
        with contextlib.suppress(BlockingIOError):
            os.write(self._waker, b"w")

    def open(self, image: Image) -> None:
        """Has an image sent."""
        self._unsent += b"a IMAGE %s\n" % image.data.hex().encode()

    def verdict(self, image: Image) -> int:
        """The budget of the image that was sent. Fails with `Refused`."""
        line = self._answer()
        if no := _NO.fullmatch(line):
            raise Refused(no[1].decode(), int(no[2]), farm=self.name)
        yes = _YES.fullmatch(line)
        if yes and int(yes[1]) == image.code_bytes and 0 < int(yes[2]) <= MAX_BUDGET:
            return int(yes[2])
        raise self._no_answer(line)

    def send(self, packets: Sequence[bytes]) -> None:
        """Has a batch sent, while answers to earlier ones are read."""
        self._unsent += b"".join([b"a PACKET %s\n" % it.hex().encode() for it in packets]) + b"a RUN\n"

    def receive(self, count: int, image: Image, budget: int, traced: bool | None) -> list[Result | None]:
        """The results of the earliest batch that was sent, None for a packet that is lost."""
        for number in range(count):
            line = self._answer()
            if line != b"KEPT %d" % number:
                raise self._no_answer(line)
        try:
            return read_results(iter(self._answer, None), count, image, budget, traced)
        except WrongAnswer as fault:
            raise self._no_answer(fault.args[0]) from None

    def close_input(self) -> None:
        """Ends the session and the input behind all that was sent."""
        if not self.is_closing:
            self.is_closing = True
            self._unsent += b"a DROP\n"

    def finish(self) -> None:
        """Reads the answer to the end of the session: the farm has no more to say."""
        line = self._answer()
        if line != b"GONE":
            raise self._no_answer(line)
        self.end(GRACE_SECONDS)

    def end(self, grace: float = 0.0) -> int | None:
        """Closes it, and ends a process that does not end within `grace` seconds. Its status where it ended itself."""
        if self._in < 0:
            return None
        self._close_out()
        if self._socket:
            self._socket.detach()
        status = _ended(self._process, grace) if self._process else None
        if self._errors >= 0:
            # All that the pipe holds: who writes on and on is not read on and on.
            self._read_errors()
        for stream in (self._in, self._errors):
            if stream >= 0:
                os.close(stream)
        self._in = self._errors = -1
        return status

    def close(self) -> None:
        """Ends it. It cannot be woken any more."""
        self.end()
        os.close(self._wakes)
        os.close(self._waker)

    def _close_out(self) -> None:
        if self._out >= 0:
            if self._socket:
                with contextlib.suppress(OSError):
                    self._socket.shutdown(socket.SHUT_WR)
            os.close(self._out)
            self._out = -1

    def _answer(self) -> bytes:
        """The next line of the answers, without its end."""
        if not self._answers:
            until = time.monotonic() + self._wait
            while not self._answers:
                self._move(until)
        return self._answers.popleft()

    def _move(self, until: float) -> None:
        """Sends what can be sent and reads what has come."""
        poll = select.poll()
        for stream in (self._in, self._errors, self._wakes):
            if stream >= 0:
                poll.register(stream, select.POLLIN)
        if self._unsent:
            poll.register(self._out, select.POLLOUT)
        left = until - time.monotonic()
        ready = [stream for stream, _ in poll.poll(left * 1000)] if left > 0 else []
        if not ready:
            raise self._fault(f"no answer within {self._wait:g} seconds")
        if self._out in ready:
            self._write()
        if self._errors in ready and not self._read_errors():
            os.close(self._errors)
            self._errors = -1
        if self._in in ready:
            self._read_answers()
        if self._wakes in ready:
            os.read(self._wakes, CHUNK_BYTES)
            self._woken()

    def _write(self) -> None:
        try:
            del self._unsent[: os.write(self._out, self._unsent[:CHUNK_BYTES])]
        except BlockingIOError:
            return
        except OSError:
            # It reads no more; what it still answers, or its end, says why.
            self._unsent.clear()
        if self.is_closing and not self._unsent:
            self._close_out()

    def _read_answers(self) -> None:
        try:
            some = os.read(self._in, CHUNK_BYTES)
        except BlockingIOError:
            return
        except OSError as fault:
            raise self._fault(fault.strerror or str(fault)) from fault
        if not some:
            raise self._fault("the answers end", GRACE_SECONDS)
        *whole, self._rest = (self._rest + some).split(b"\n")
        self._answers.extend(whole)
        if len(self._rest) > MAX_LINE_BYTES:
            raise self._fault("no answer of a farm: a line without an end")

    def _read_errors(self) -> bool:
        try:
            some = os.read(self._errors, CHUNK_BYTES)
        except OSError:
            return False
        self._errors_end = (self._errors_end + some)[-ERRORS_BYTES:]
        return bool(some)

    def _no_answer(self, line: bytes) -> FarmEnded:
        return self._fault(f"no answer of a farm: {printable(line[:80].decode(errors='replace'))}")

    def _fault(self, why: str, grace: float = 0.0) -> FarmEnded:
        status = self.end(grace)
        return FarmEnded(self.name, why, status, self._errors_end.decode(errors="replace"))


def _connected(address: str) -> socket.socket:
    """A socket to `unix:PATH` or `tcp://HOST:PORT`."""
    if address.startswith("unix:"):
        made = socket.socket(socket.AF_UNIX)
        try:
            made.connect(address.removeprefix("unix:"))
        except OSError:
            made.close()
            raise
        return made
    place = urlsplit(address)
    return socket.create_connection((place.hostname, place.port or 0), CONNECT_SECONDS)


def _ended(process: subprocess.Popen[bytes], grace: float) -> int | None:
    """Waits for a process, and ends it where it takes longer. Its status where it ended itself."""
    try:
        return process.wait(grace)
    except subprocess.TimeoutExpired:
        process.terminate()
    try:
        process.wait(GRACE_SECONDS)
    except subprocess.TimeoutExpired:
        process.kill()
        process.wait()
    return None
