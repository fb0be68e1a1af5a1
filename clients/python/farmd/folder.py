"""A folder for the results of a run, which goes on from there after it was cut off."""

import fcntl
import logging
import os
from collections.abc import Iterator, Sequence
from contextlib import contextmanager
from hashlib import sha256
from pathlib import Path

from farmd.faults import WrongFolder, printable
from farmd.workers import MAX_BUDGET, Image, Result, WrongAnswer, read_results, write_results

log = logging.getLogger("farmd")


class Folder:
    """The parts of a run, a file for each batch: its checksum, what it is of and the farm that made it, its answers.

    The file `mark` says what run this is, and its lock lasts as long as the process that took it, whatever ends that.
    """

    def __init__(self, path: str | os.PathLike[str], image: Image, mark: str) -> None:
        self.path = Path(path)
        self._image = image
        self.path.mkdir(exist_ok=True)
        names = [it.name for it in self.path.iterdir()]
        if names and "mark" not in names:
            raise self._wrong("has files, and none of them is the mark of a run")
        self._lock = open(self.path / "mark", "a+", encoding="utf-8")
        try:
            self._take(f"image {sha256(image.data).hexdigest()} {mark}\n")
        except BaseException:
            self._lock.close()
            raise

    def _take(self, mark: str) -> None:
        try:
            fcntl.flock(self._lock, fcntl.LOCK_EX | fcntl.LOCK_NB)
        except BlockingIOError:
            raise self._wrong("is another run's, which is at work") from None
        self._lock.seek(0)
        there = self._lock.read()
        if there and there != mark:
            raise self._wrong("has results of another image, other packets or other options")
        if not there:
            with _named(self.path / "mark"):
                self._lock.write(mark)
                self._lock.flush()
                os.fsync(self._lock.fileno())
        for left in self.path.glob("*.new"):
            left.unlink()

    def close(self) -> None:
        self._lock.close()

    def has(self, part: int, packets: Sequence[bytes]) -> bool:
        """Whether a part is there and whole. Fails with `WrongFolder` where it is of other packets."""
        text = self._read(part)
        if text is None:
            return False
        if text.split(b"\n", 1)[0].split(b" ")[3] != _digest(packets):
            raise self._wrong(f"has results of other packets than those of part {part}")
        return True

    def load(self, part: int, count: int) -> list[Result | None]:
        """The results of a part that is whole."""
        text = self._read(part)
        lines = iter((text or b"").split(b"\n")[1:])
        try:
            return read_results(lines, count, self._image, MAX_BUDGET, None)
        except (WrongAnswer, StopIteration):
            raise self._wrong(f"has a part {part} that has changed") from None

    def save(self, part: int, farm: str, packets: Sequence[bytes], results: Sequence[Result | None]) -> None:
        """Writes a part, which is there as a whole or not at all."""
        head = b"part %d packets %s farm %s\n" % (part, _digest(packets), printable(farm).encode())
        text = head + write_results(results).encode() + b"DONE %d\n" % len(results)
        new = self.path / f"part.{part}.new"
        with _named(new), open(new, "wb") as file:
            file.write(sha256(text).hexdigest().encode() + b"\n" + text)
            file.flush()
            os.fsync(file.fileno())
        new.rename(self._name(part))
        entries = os.open(self.path, os.O_RDONLY)
        try:
            os.fsync(entries)
        finally:
            os.close(entries)

    def end(self, parts: int) -> None:
        """Fails with `WrongFolder` where there are more parts than the run has."""
        if self._name(parts).exists():
            raise self._wrong(f"has results of more packets: part {parts}")

    def _name(self, part: int) -> Path:
        return self.path / f"part.{part}"

    def _read(self, part: int) -> bytes | None:
        """A part behind its checksum; None where it is not there, or damaged, and then is made again."""
        try:
            checksum, _, text = self._name(part).read_bytes().partition(b"\n")
        except FileNotFoundError:
            return None
        if checksum == sha256(text).hexdigest().encode() and text.startswith(b"part %d packets " % part):
            return text
        log.warning("%s is damaged, and runs again", self._name(part))
        return None

    def _wrong(self, why: str) -> WrongFolder:
        return WrongFolder(str(self.path), why)


@contextmanager
def _named(path: Path) -> Iterator[None]:
    """Gives a fault of writing, as of a full disk, the name of the file."""
    try:
        yield
    except OSError as fault:
        raise OSError(fault.errno, fault.strerror, str(path)) from fault


def _digest(packets: Sequence[bytes]) -> bytes:
    return sha256(b"".join(packets)).hexdigest().encode()
