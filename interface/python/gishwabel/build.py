"""Makes the shared object of the proved library, which the calls load.

The shared object is linked by ``cc`` from the archive ``libshare_sheet_c.a`` in
``crates/share_sheet_c/out``. The archive is proved and built first, by Rattle's command ``rt``, if
it is missing or older than a source. Both happen by themselves when the first call is made;
``python3 -m gishwabel build`` does them ahead of time and prints where the shared object is.
"""

from __future__ import annotations

import contextlib
import fcntl
import hashlib
import os
import platform
import subprocess
import sys
from collections.abc import Iterator
from pathlib import Path

ROOT = Path(__file__).resolve().parents[3]
"""The top of the repository that the package stands in."""

_LIBRARY = ROOT / "crates" / "share_sheet_c"
_ARCHIVE = _LIBRARY / "out" / "libshare_sheet_c.a"
_SHARED = ROOT / "target" / "python" / "libshare_sheet_c.so"
_RECORD = _SHARED.with_suffix(".built")


class BuildError(Exception):
    """The proved library is not there and could not be built."""


def library() -> Path:
    """Gives the path of the shared object, which is built first if it is missing or old.

    It is old if it, or a source of the library, is not what it was when it was built. That goes by
    checksums and not by dates, so that a copy of a built tree needs neither ``rt`` nor ``cc``.

    >>> library().name
    'libshare_sheet_c.so'
    """
    if not _is_built():
        _build()
    return _SHARED


def version() -> str:
    """The version of the repository that the package stands in.

    >>> version()[:2]
    '1.'
    """
    return _at_top("VERSION").read_text().strip()


def _at_top(name: str) -> Path:
    """A file at the top of the repository, which must be there."""
    path = ROOT / name
    if not path.is_file():
        raise BuildError(
            "the package must stand in the folder interface/python of its repository: "
            f"there is no file {path}"
        )
    return path


def _sources() -> list[Path]:
    """The list of crates, and all files of the library's code, definitions and proofs.

    What Rattle makes, in the folder ``out`` of a crate, is none of them.
    """
    found = [_at_top("crates.txt")]
    for part in (ROOT / "crates").glob("*/*"):
        if part.name != "out":
            for folder, _, files in os.walk(part):
                found += [Path(folder, name) for name in files if name.endswith((".rt", ".antt"))]
    return sorted(found)


def _checksum(paths: list[Path]) -> str:
    """A checksum over the names and contents of files."""
    whole = hashlib.sha256()
    for path in paths:
        whole.update(f"{path.relative_to(ROOT)}\n".encode())
        whole.update(hashlib.sha256(path.read_bytes()).digest())
    return whole.hexdigest()


def _is_built() -> bool:
    """Whether the shared object and the sources are what they were when it was built."""
    try:
        return _RECORD.read_text() == f"{_checksum(_sources())} {_checksum([_SHARED])}"
    except (OSError, ValueError):  # no record, or none that can be read
        return False


def _build() -> None:
    """Links the shared object, and proves and builds the archive first if that is needed."""
    if platform.system() != "Linux" or platform.machine() != "x86_64":
        raise BuildError("the library is built for Linux on x86-64 only")
    try:
        _SHARED.parent.mkdir(parents=True, exist_ok=True)
        with _lock():
            if _is_built():  # by another process, while this one waited
                return
            # from before, so that a source which changes during the build is seen next time
            sources = _checksum(_sources())
            newest = max(path.stat().st_mtime_ns for path in _sources())
            if not _ARCHIVE.exists() or _ARCHIVE.stat().st_mtime_ns < newest:
                _prove()
                # its date is that of its newest source, by which the Rust package goes, too
                os.utime(_ARCHIVE, ns=(newest, newest))
            _link()
            _RECORD.write_text(f"{sources} {_checksum([_SHARED])}")
    except OSError as why:
        raise BuildError(f"the library could not be built: {why}") from why


@contextlib.contextmanager
def _lock() -> Iterator[None]:
    """Waits until no command of the repository builds, and keeps others from it."""
    with open(ROOT / "target" / "build.lock", "w") as lock:
        fcntl.flock(lock, fcntl.LOCK_EX)
        yield


def _prove() -> None:
    """Lets Rattle prove the library and write its archive."""
    print("gishwabel: building the library, which takes a minute or two", file=sys.stderr)
    with contextlib.suppress(FileNotFoundError):
        _ARCHIVE.unlink()  # a failed proof leaves no archive behind
    _run(["rt", "lib"], _LIBRARY, "Rattle's command 'rt', which proves and builds it,")
    if not _ARCHIVE.exists():
        raise BuildError(f"rt built no archive {_ARCHIVE}")


def _link() -> None:
    """Links the shared object from the archive, beside its place and then into it."""
    new = _SHARED.with_suffix(".new")
    whole = ["-Wl,--whole-archive", str(_ARCHIVE), "-Wl,--no-whole-archive", "-Wl,-z,defs"]
    _run(["cc", "-shared", *whole, "-o", str(new)], ROOT, "the C compiler 'cc', which links it,")
    new.replace(_SHARED)


def _run(command: list[str], folder: Path, called: str) -> None:
    """Runs a command in a folder. Its output is shown only if it fails."""
    try:
        done = subprocess.run(
            command, cwd=folder, stdin=subprocess.DEVNULL, stdout=subprocess.PIPE,
            stderr=subprocess.STDOUT, check=False,
        )
    except FileNotFoundError as why:
        raise BuildError(
            f"the library is missing or was built from other sources, and {called} "
            "is not on the PATH"
        ) from why
    if done.returncode != 0:
        sys.stderr.write(done.stdout.decode(errors="replace"))
        raise BuildError(f"the library was not built; {command[0]} says why above")
