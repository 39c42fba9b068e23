"""How the command reads and writes files, goes from one to the next, and tells how far it is."""

from __future__ import annotations

import contextlib
import io
import os
import sys
import tempfile
import time
from collections.abc import Callable, Sequence
from pathlib import Path
from typing import Optional

from gishwabel import build, calls, labels
from gishwabel.calls import Refused
from gishwabel.network import Network
from gishwabel.texts import MOST_BYTES, TextError, decode

DONE, NOT_RUN, REFUSED, DISAGREES = 0, 1, 2, 3
_BEST_FIRST = [DONE, REFUSED, NOT_RUN, DISAGREES]


class NotRun(Exception):
    """Something could not be read, written or run."""


def say(words: str, status: int) -> int:
    """Says something on standard error, if there is one, and gives a status back."""
    if sys.stderr is not None:
        with contextlib.suppress(OSError):
            print(f"gishwabel: {words}", file=sys.stderr, flush=True)
    return status


class Progress:
    """A line on a terminal that tells how far a run is, from its second second on."""

    def __init__(self, files: int) -> None:
        self._begun = time.monotonic()
        self._files = files
        self._prefix = ""
        self._shown = False

    def begin(self, place: int, name: str) -> None:
        """Tells that a file's turn has come."""
        self._prefix = f"file {place} of {self._files}, {name}" if self._files > 1 else name
        self._show(self._prefix)

    def __call__(self, done: int, total: int) -> None:
        """Tells how much of the work on the file is done."""
        self._show(f"{self._prefix}: {done} of {total}")

    def _show(self, words: str) -> None:
        """Shows the line, if it is time and standard error is a terminal."""
        late = time.monotonic() - self._begun > 1
        if late and sys.stderr is not None and sys.stderr.isatty():
            sys.stderr.write(f"\r\x1b[K{words[-70:]}")
            sys.stderr.flush()
            self._shown = True

    def clear(self) -> None:
        """Takes the line away, so that something else can be printed."""
        if self._shown:
            sys.stderr.write("\r\x1b[K")
            sys.stderr.flush()
            self._shown = False


def each(
    files: Sequence[str], work: Callable[[str, Progress], int], headings: bool = True
) -> int:
    """Does the same with each file, and gives the worst status. Several files have headings.

    What the work prints comes out once a file is done; a file that is refused has none of it.

    >>> each(["a", "b"], lambda name, progress: print("work on", name) or DONE)
    ==> a <==
    work on a
    <BLANKLINE>
    ==> b <==
    work on b
    0
    """
    worst = DONE
    progress = Progress(len(files))
    for place, name in enumerate(files, start=1):
        progress.begin(place, name)
        printed = io.StringIO()
        faults: Sequence[object] = []
        try:
            with contextlib.redirect_stdout(printed):
                status = work(name, progress)
        except Refused as why:
            status, faults = REFUSED, [why]
        except TextError as why:
            status, faults = REFUSED, why.faults
        except (NotRun, OSError) as why:
            status, faults = NOT_RUN, [why]
        progress.clear()
        if headings and len(files) > 1:
            sys.stdout.write(f"==> {name} <==\n" if place == 1 else f"\n==> {name} <==\n")
        if not faults:
            sys.stdout.write(printed.getvalue())
        sys.stdout.flush()
        for fault in faults:
            say(f"{name}: {fault}", status)
        worst = max(worst, status, key=_BEST_FIRST.index)
    return worst


def read(name: str, most: int) -> bytes:
    """The bytes of a file, or of standard input if it is called -; one more than most at most.

    >>> read("/dev/zero", 3)
    b'\\x00\\x00\\x00\\x00'
    """
    try:
        if name != "-":
            with open(name, "rb") as file:
                return file.read(most + 1)
        if sys.stdin is None:
            raise NotRun("standard input is closed")
        return sys.stdin.buffer.read(most + 1)
    except FileNotFoundError:
        raise NotRun("there is no such file") from None
    except IsADirectoryError:
        raise NotRun("this is a folder, not a file") from None
    except (OSError, ValueError) as why:
        raise NotRun(f"it cannot be read: {why}") from None


def read_text(name: str) -> str:
    """The text of a planner's file.

    >>> read_text(str(build.ROOT / "examples" / "ieee14.m")).splitlines()[0]
    'function mpc = ieee14'
    """
    return decode(read(name, MOST_BYTES))


def read_network(name: str, labelled: Optional[bool]) -> Network:
    """The network of a file, its buses called by their labels or, without any, by their numbers.

    Labels are wanted (True), not wanted (False), or taken where they are there (None).

    >>> read_network(str(build.ROOT / "examples" / "ieee14.net"), True).labels[:3]
    ['1', '2', '3']
    """
    file = read(name, calls.max_bytes())
    try:
        network = Network(file)
    except Refused as why:
        if why.number == 2 and file.isascii() and b"\0" not in file:
            say(f"{name}: this looks like a text: import makes a network file of it", REFUSED)
        raise
    table = labels.beside(name)
    there = name != "-" and os.path.exists(table)
    if labelled and name == "-":
        raise NotRun("standard input has no table of labels")
    if labelled and not there:
        raise NotRun(f"there is no table of labels '{table}'; import makes one")
    if there and labelled is not False:
        labels.attach(network, table)
    else:
        network.label([str(bus) for bus in range(network.buses)])
    return network


def write(path: Path, data: bytes) -> None:
    """Writes a file as a whole or not at all; what a link points to, if it is one.

    >>> with tempfile.TemporaryDirectory() as folder:
    ...     write(Path(folder, "a"), b"text")
    ...     os.listdir(folder)
    ['a']
    """
    place = os.path.realpath(path)
    try:
        with tempfile.NamedTemporaryFile(dir=os.path.dirname(place), delete=False) as new:
            try:
                new.write(data)
                new.flush()
                mask = os.umask(0)
                os.umask(mask)
                os.chmod(new.name, 0o666 & ~mask)
                os.replace(new.name, place)
            except BaseException:
                os.unlink(new.name)
                raise
    except OSError as why:
        raise NotRun(f"'{path}' cannot be written: {why.strerror}") from why


def place_for(name: str, option: Optional[str], ending: str, files: Sequence[str]) -> Path:
    """Where what is made of one of the files is written: beside it, or where the option -o says.

    >>> place_for("cases/north.m", None, ".net", ["cases/north.m"]).as_posix()
    'cases/north.net'
    """
    if option is None and name == "-":
        raise NotRun("say with -o where to write")
    if option is not None and not os.path.isdir(option):
        if len(files) > 1 or not option or option.endswith("/"):
            raise NotRun(f"-o must be a folder here, and there is no folder '{option}'")
    place = _place(name, option, ending)
    for other in files:
        if other != name and _place(other, option, ending) == place:
            raise NotRun(f"'{place}' would be written for '{other}' too")
    return place


def _place(name: str, option: Optional[str], ending: str) -> Path:
    """A file's place by its name and the option alone."""
    beside = labels.with_ending(name, ending)
    if option is None:
        return beside
    return Path(option, beside.name) if os.path.isdir(option) else Path(option)


def check_places(places: Sequence[Path], inputs: Sequence[str]) -> None:
    """Sees to it that nothing is overwritten that is read, or is no file.

    >>> check_places([Path("examples/../examples/path.net")], ["examples/path.net"])
    Traceback (most recent call last):
    gishwabel.running.NotRun: 'examples/../examples/path.net' is read, and would be overwritten
    """
    for place in places:
        if os.path.exists(place) and not os.path.isfile(place):
            raise NotRun(f"'{place}' is there and is no file")
        if any(os.path.realpath(place) == os.path.realpath(name) for name in inputs):
            raise NotRun(f"'{place}' is read, and would be overwritten")
