"""Farms, and runs of packets on them."""

import logging
import os
import random
import threading
import time
from collections import Counter, deque
from collections.abc import Generator, Iterable, Iterator, Sequence
from contextlib import closing
from dataclasses import dataclass, field
from itertools import islice
from typing import Final, Self, TypeVar, overload
from urllib.parse import urlsplit

from farmd.connection import Connection
from farmd.faults import Different, FarmEnded, Fault, Lost, NotFound, Refused, WrongFolder
from farmd.folder import Folder
from farmd.workers import Image, Packet, Result, Source, Worker, write_results

log = logging.getLogger("farmd")

MAX_BATCH = 1024
MAX_MEMBERS = 64
# How often in a row a farm of several may fail before it is left out.
TRIES = 3
# How many batches a farm has at a time, one that it runs and one that is sent meanwhile, or more where they are small;
# and how many times as many wait for those before them to be taken.
HELD, KEPT = 2, 2
# A signal that comes just before a wait does not end it, so none waits for longer than this.
LOOK_SECONDS = 0.2
SSH = "ssh -T -a -x -o BatchMode=yes -o ConnectTimeout=5 -o ServerAliveInterval=5 -o ServerAliveCountMax=2 --".split()

Value = TypeVar("Value")
_FAIL: Final = object()


class Cancelled(Exception):
    """The farm was closed, or the loop left."""


@dataclass(frozen=True)
class Host:
    """Where a farm is: an address, or the words of a command."""

    name: str
    target: str | tuple[str, ...]


class Farm:
    """A farm, or several that share the work; a context manager. Threads may share it.

    `at` is `ssh://HOST`, `unix:PATH` or `tcp://HOST:PORT`, or several of them; nothing is a `farmd` of this machine.
    `command` is what is run here, or by ssh there, in place of `farmd --members N`. `trace` says that the farm traces:
    None, that it may. `wait` is how many seconds an answer may take. Of several farms, one that fails `TRIES` times in
    a row is left out, and rests for `pause` seconds the first time. `check` is how many packets of each batch another
    one runs as well.
    """

    def __init__(
        self,
        at: str | Sequence[str] = "",
        *,
        command: Sequence[str] = (),
        members: int | None = None,
        trace: bool | None = False,
        batch: int = MAX_BATCH,
        wait: float = 120,
        pause: float = 10,
        check: int = 0,
        tpw: str = "tpw",
    ) -> None:
        if not 1 <= batch <= MAX_BATCH or not 1 <= (members or 1) <= MAX_MEMBERS:
            raise ValueError(f"a batch has 1 to {MAX_BATCH} packets, and a farm 1 to {MAX_MEMBERS} members")
        words = list(command) or ["farmd"]
        if not command:
            words += ["--members", str(members)] * bool(members) + ["--trace"] * bool(trace)
        several = not isinstance(at, str)
        names: list[str] = list(at) if several else [str(at)]
        hosts = {it: Host(it.removeprefix("ssh://") or words[0], _target(it, words)) for it in names}
        # A farm that is named twice has two batches at a time.
        self._places = [hosts[it] for it in names]
        if not names or check and len(hosts) < 2:
            raise ValueError("another farm is wanted")
        self._tries = TRIES if several else 1
        self._held = HELD if several else HELD * MAX_BATCH // batch
        self._batch, self._wait, self._pause = batch, wait, pause
        self._trace, self._check, self._tpw = trace, check, tpw
        self._changed = threading.Condition()
        self._runs: set[_Run] = set()

    def __enter__(self) -> Self:
        return self

    def __exit__(self, *fault: object) -> None:
        self.close()

    def close(self) -> None:
        """Ends what is at work."""
        for run in list(self._runs):
            run.cancel()

    def worker(self, source: str | bytes | os.PathLike[str], *, occam: bool = False) -> Worker:
        """A worker of a file of occam, assembly or an image; of a text; or of an image's bytes.

        Fails with `Refused` where its text has a fault or a farm refuses it, `NotFound` where tpw is not installed.
        """
        made = Source(source, occam, self._tpw)
        image = made.image()
        run = _Run(self, image)
        try:
            run.submit([])
            run.close_input()
            run.wait(more=False)
            run.finish()
        except Refused as fault:
            fault.text = made.why()
            raise
        finally:
            run.cancel()
        return Worker(image.data, run.budget or 0)

    @overload
    def map(self, worker: Image, packets: Iterable[Packet], *, work: str | None = None) -> Iterator[Result]: ...

    @overload
    def map(
        self, worker: Image, packets: Iterable[Packet], *, lost: Value, work: str | None = None
    ) -> Iterator[Result | Value]: ...

    def map(
        self, worker: Image, packets: Iterable[Packet], *, lost: object = _FAIL, work: str | None = None
    ) -> Iterator[object]:
        """The result of each packet, in order, while later ones run. A packet that is lost has `lost`; without it, it
        ends the loop by `Lost`. `work` is a folder for results: the same call goes on from there."""
        number = 0
        with closing(self.batches(worker, packets, work=work)) as batches:
            for results in batches:
                for result in results:
                    if result is None and lost is _FAIL:
                        raise Lost(number)
                    yield lost if result is None else result
                    number += 1

    def batches(
        self, worker: Image, packets: Iterable[Packet], *, work: str | None = None, mark: str = ""
    ) -> Generator[list[Result | None], None, None]:
        """The results of each batch, None where a packet is lost. A folder `work` with another `mark` is refused."""
        folder = Folder(work, worker, f"batch {self._batch} {mark}".rstrip()) if work is not None else None
        run = _Run(self, worker, folder)
        source = iter(packets)
        more = True
        try:
            while more or run.is_unread():
                if run.wait(more):
                    yield run.results()
                    continue
                some = [worker.packet(run.packets + n, it) for n, it in enumerate(islice(source, self._batch))]
                more = len(some) == self._batch
                if some:
                    run.submit(some)
                if not more:
                    run.close_input()
            run.finish()
        finally:
            run.cancel()


def _target(at: str, words: list[str]) -> str | tuple[str, ...]:
    if at.startswith("unix:") or at.startswith("tcp://") and urlsplit(at).port:
        return at
    if not at:
        return tuple(words)
    host = at.removeprefix("ssh://")
    if host == at or not host or host.startswith("-"):
        raise ValueError(f"{at}: no farm: ssh://HOST, unix:PATH or tcp://HOST:PORT")
    return (*SSH, host, " ".join(words))


@dataclass(eq=False)
class _Batch:
    """Some packets of a run, or, where `compared` is there, those of another batch that a second farm runs too."""

    number: int
    first: int
    packets: list[bytes]
    count: int
    results: list[Result | None] | None = None
    is_done: bool = False
    host: Host | None = None
    compared: "_Batch | None" = None
    picked: list[int] = field(default_factory=list)


class _Run:
    """Packets of one worker on the places of a farm, a thread for each."""

    def __init__(self, farm: Farm, image: Image, folder: Folder | None = None) -> None:
        self.budget = image.budget if isinstance(image, Worker) else None
        self.packets = 0
        self._farm, self._image, self._folder = farm, image, folder
        self._changed = farm._changed
        self._unread: deque[_Batch] = deque()
        self._queue: deque[_Batch] = deque()
        self._undone = 0
        self._parts = 0
        self._traced = farm._trace
        # How often in a row a host has failed, and until when it is left alone.
        self._failures: Counter[Host] = Counter()
        self._rests_until: dict[Host, float] = {}
        self._refusals: dict[Host, Refused] = {}
        self._fault: BaseException | None = None
        self._has_more = True
        self._is_over = False
        self._threads: list[threading.Thread] = []
        self._connections: set[Connection] = set()
        farm._runs.add(self)

    # The thread that reads results.

    def is_unread(self) -> bool:
        return bool(self._unread)

    def submit(self, packets: list[bytes]) -> None:
        """Has packets run, where the folder has not their results."""
        batch = _Batch(self._parts, self.packets, packets, len(packets))
        self._parts += 1
        self.packets += batch.count
        self._unread.append(batch)
        if self._folder and self._folder.has(batch.number, packets):
            batch.is_done = True
            batch.packets = []
            return
        if not self._threads:
            for host in self._farm._places:
                self._threads.append(threading.Thread(target=self._serve, args=(host,), daemon=True))
                self._threads[-1].start()
        self._undone += 1
        self._add(batch)

    def close_input(self) -> None:
        """Says that there are no more packets."""
        with self._changed:
            self._has_more = False
            self._wake()

    def wait(self, more: bool) -> bool:
        """Waits until the batch that is due is done, or until there is room for more; whether it is the former."""
        with self._changed:
            while True:
                if self._unread and self._unread[0].is_done:
                    return True
                if self._fault:
                    raise self._fault
                if more and self._has_room():
                    return False
                self._changed.wait(LOOK_SECONDS)

    def _has_room(self) -> bool:
        most = self._farm._held * len(self._farm._places)
        kept = 0 if self._folder else len(self._unread) - self._undone
        return self._undone <= most and kept <= KEPT * most

    def results(self) -> list[Result | None]:
        """The results of the batch that is due."""
        batch = self._unread.popleft()
        results = batch.results
        if results is None:
            assert self._folder
            results = self._folder.load(batch.number, batch.count)
            if not self._is_traced_alike(results):
                raise WrongFolder(str(self._folder.path), "has results with traces and results without")
        return results

    def finish(self) -> None:
        """Waits until each farm has ended its session, which shows that it has no more to say."""
        with self._changed:
            self._is_over = True
            self._wake()
        for thread in self._threads:
            while thread.is_alive():
                thread.join(LOOK_SECONDS)
        if self._fault:
            raise self._fault
        if self._folder:
            self._folder.end(self._parts)

    def cancel(self) -> None:
        """Ends what is at work; nothing where it has ended."""
        with self._changed:
            if self not in self._farm._runs:
                return
            self._farm._runs.remove(self)
        self._stop(Cancelled())
        for thread in self._threads:
            thread.join()
        if self._folder:
            self._folder.close()

    # A thread of each place.

    def _serve(self, host: Host) -> None:
        while self._has_work(host):
            held: deque[_Batch] = deque()
            try:
                self._exchange(host, held)
            except Fault as fault:
                self._fail(host, held, fault)
            except BaseException as fault:
                self._stop(fault)

    def _has_work(self, host: Host) -> bool:
        """Waits until there is a batch for a host that may run one."""
        with self._changed:
            while not self._is_over and self._failures[host] < self._farm._tries:
                rest = self._rests_until.get(host, 0) - time.monotonic()
                if rest <= 0 and any(_may_run(host, it) for it in self._queue):
                    return True
                self._changed.wait(rest if rest > 0 else None)
            return False

    def _exchange(self, host: Host, held: deque[_Batch]) -> None:
        """Sends batches and reads their results, until there are no more; one is sent while the one before is read."""
        connection: Connection

        def refill() -> None:
            self._refill(host, connection, held)

        connection = Connection(host.name, host.target, self._farm._wait, refill)
        with self._changed:
            self._connections.add(connection)
        try:
            connection.open(self._image)
            self._refill(host, connection, held)
            budget = connection.verdict(self._image)
            with self._changed:
                self.budget = self.budget or budget
            if budget != self.budget:
                raise FarmEnded(host.name, f"no answer of this farm: a budget of {budget}, not {self.budget}")
            while self._refill(host, connection, held, wait=True):
                results = connection.receive(held[0].count, self._image, self.budget, self._traced)
                self._take(host, held[0], results)
                held.popleft()
            connection.finish()
        finally:
            with self._changed:
                self._connections.remove(connection)
            connection.close()

    def _refill(self, host: Host, connection: Connection, held: deque[_Batch], wait: bool = False) -> bool:
        """Sends a host what it may run next, or that there is no more; it may wait for it. Whether it has any."""
        with self._changed:
            while True:
                if self._fault:
                    raise Cancelled
                if connection.is_closing:
                    return bool(held)
                for batch in [it for it in self._queue if _may_run(host, it)][: self._farm._held - len(held)]:
                    self._queue.remove(batch)
                    held.append(batch)
                    connection.send(batch.packets)
                if not self._has_more and not any(_may_run(host, it) for it in self._queue):
                    connection.close_input()
                    return bool(held)
                if held or not wait:
                    return bool(held)
                self._changed.wait()

    def _take(self, host: Host, batch: _Batch, results: list[Result | None]) -> None:
        """Takes the results of a batch, and has some of them compared, or compares them."""
        if not self._is_traced_alike(results):
            raise FarmEnded(host.name, "no answer of this farm: traces of some results, and not of others")
        with self._changed:
            self._failures[host] = 0
        done = batch
        if batch.compared:
            done = batch.compared
            assert done.results and done.host
            for number, result in zip(batch.picked, results):
                if result != done.results[number]:
                    both = (_shown(done.results[number]), _shown(result))
                    raise Different(done.first + number, (done.host.name, host.name), both)
        else:
            batch.host, batch.results = host, results
            if (picks := min(self._farm._check, batch.count)) > 0:
                picked = sorted(random.sample(range(batch.count), picks))
                some = [batch.packets[it] for it in picked]
                self._add(_Batch(batch.number, batch.first, some, picks, compared=batch, picked=picked))
                return
        if self._folder:
            assert done.results is not None and done.host
            self._folder.save(done.number, done.host.name, done.packets, done.results)
            done.results = None
        with self._changed:
            done.packets = []
            done.is_done = True
            self._undone -= 1
            self._wake()

    def _is_traced_alike(self, results: list[Result | None]) -> bool:
        """Whether results have traces where those before them have, and none where they have none."""
        traced = next((it.traces is not None for it in results if it), None)
        with self._changed:
            self._traced = traced if self._traced is None else self._traced
            return traced in (None, self._traced)

    def _fail(self, host: Host, held: deque[_Batch], fault: Fault) -> None:
        """Gives a host's batches to others, and ends the run where none of them is left."""
        several = self._farm._tries > 1
        with self._changed:
            self._queue.extendleft(reversed(held))
            self._failures[host] += 1
            self._rests_until[host] = time.monotonic() + self._farm._pause * self._failures[host]
            left = {it for it in self._farm._places if self._failures[it] < self._farm._tries}
            if isinstance(fault, Refused):
                self._refusals[host] = fault
            self._wake()
        is_refused = len(self._refusals) >= 2 or self._refusals and left <= set(self._refusals)
        if is_refused or isinstance(fault, (Different, NotFound)):
            self._stop(fault)
        elif several:
            why = str(fault).removeprefix(f"{host.name}: ")
            log.warning("%s fails%s: %s", host.name, f" part {held[0].number}" if held else "", why)
            if host not in left:
                log.warning("%s is left out after %d failures: %s", host.name, self._failures[host], why)
            # What fails when its last batch was read has given all its results.
            if self._is_over:
                return
            if not left:
                self._stop(FarmEnded(host.name, f"no farm is left: {why}"))
            elif self._farm._check and len(left) < 2:
                self._stop(FarmEnded(host.name, f"no second farm is left to compare with: {why}"))
        else:
            self._stop(fault)

    def _add(self, batch: _Batch) -> None:
        with self._changed:
            self._queue.append(batch)
            self._wake()

    def _stop(self, fault: BaseException) -> None:
        with self._changed:
            self._fault = self._fault or fault
            self._is_over = True
            self._wake()

    def _wake(self) -> None:
        """Has each thread look again, one that waits for answers too."""
        self._changed.notify_all()
        for connection in self._connections:
            connection.wake()


def _may_run(host: Host, batch: _Batch) -> bool:
    return not batch.compared or batch.compared.host is not host


def _shown(result: Result | None) -> str:
    return write_results([result]).strip().replace("\n", ", ")
