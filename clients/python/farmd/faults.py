"""What goes wrong, as exceptions. Each may be pickled, and so crosses processes."""

from dataclasses import dataclass


def printable(text: str) -> str:
    """A text of a farm or a host on one line, safe for a terminal."""
    return "".join(it if it.isascii() and it.isprintable() else "?" for it in text.strip().replace("\n", "; "))


class Fault(Exception):
    """What each fault of this module is."""


@dataclass(eq=False)
class Refused(Fault):
    """The verifier refuses the image, by a code of docs/VERIFIER.md and a place; or tpw the text, and `code` is empty.

    `text` is what tpw says of it, with the line and a caret; it is empty where tpw is not installed.
    """

    code: str
    place: int
    text: str = ""
    farm: str = ""

    def __str__(self) -> str:
        return f"the image is refused: NO {self.code} {self.place}" if self.code else self.text.rstrip()


@dataclass(eq=False)
class WrongLength(Fault, ValueError):
    """A packet has not the bytes that the image's packets have. It was not sent."""

    number: int
    length: int
    due: int

    def __str__(self) -> str:
        return f"packet {self.number} has {self.length} bytes, and a packet of this image has {self.due}"


@dataclass(eq=False)
class Lost(Fault):
    """A packet has no result."""

    number: int
    why: str = "its worker sent more than 256 bytes of trace"

    def __str__(self) -> str:
        return f"packet {self.number} is lost: {self.why}"


@dataclass(eq=False)
class FarmEnded(Fault):
    """A farm ended, said nothing for too long, or answered what no farm answers; then it was ended.

    `status` is that of its process where it ended by itself, below 0 for a signal. `errors` is the end of its standard
    error.
    """

    farm: str
    why: str
    status: int | None = None
    errors: str = ""

    def __str__(self) -> str:
        text = f"{self.farm}: {self.why}"
        if self.status is not None:
            text += f" (status {self.status})" if self.status >= 0 else f" (signal {-self.status})"
        return f"{text}: {printable(self.errors)}" if self.errors.strip() else text


@dataclass(eq=False)
class NotFound(Fault):
    """A program is not installed."""

    program: str
    remedy: str

    def __str__(self) -> str:
        return f"{self.program}: not found: {self.remedy}"


@dataclass(eq=False)
class Different(Fault):
    """Two farms give a packet other results: one of them is wrong."""

    number: int
    farms: tuple[str, str]
    results: tuple[str, str]

    def __str__(self) -> str:
        return f"packet {self.number}: {self.farms[0]} answers {self.results[0]}, {self.farms[1]} {self.results[1]}"


@dataclass(eq=False)
class WrongFolder(Fault):
    """A folder for results is not one of this run: it has another's, or another is at work there."""

    folder: str
    why: str

    def __str__(self) -> str:
        return f"{self.folder} {self.why}"
