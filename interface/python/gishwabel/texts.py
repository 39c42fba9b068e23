"""Texts as planners have them: their encodings, tables with a header, and names of buses."""

from __future__ import annotations

import csv
import io
import unicodedata
from collections import Counter
from collections.abc import Iterator
from fractions import Fraction
from typing import NamedTuple


MOST_BYTES = 16 * 2**20
"""The bytes of the largest text that is read; a case of 512 buses has some hundred thousand."""


class Fault(NamedTuple):
    """What is wrong with a text, and in which of its lines; line 0 stands for the whole text."""

    line: int
    words: str

    def __str__(self) -> str:
        return f"line {self.line}: {self.words}" if self.line else self.words


class TextError(ValueError):
    """A text that cannot be taken, with all that is known to be wrong with it."""

    def __init__(self, *faults: Fault) -> None:
        super().__init__(*faults)
        self.faults = faults

    def __str__(self) -> str:
        return "; ".join(str(fault) for fault in self.faults)

    def of(self, name: object) -> TextError:
        """The same faults, told with the name of the text that they are in."""
        return TextError(*(Fault(0, f"{name}: {fault}") for fault in self.faults))


def decode(data: bytes) -> str:
    """The text that bytes stand for: UTF-8, or UTF-16 with a mark; lines end in a newline alone.

    >>> decode(b"\\xef\\xbb\\xbffrom,to\\r\\n1,2\\r\\n")
    'from,to\\n1,2\\n'
    """
    if len(data) > MOST_BYTES:
        raise TextError(Fault(0, f"the text has more than {MOST_BYTES // 2**20} MB"))
    encoding = "utf-16" if data[:2] in (b"\xff\xfe", b"\xfe\xff") else "utf-8-sig"
    try:
        text = data.decode(encoding)
    except UnicodeDecodeError as why:
        before = why.object[: why.start].replace(b"\r\n", b"\n").replace(b"\r", b"\n")
        line = 0 if encoding == "utf-16" else 1 + before.count(b"\n")
        words = f"this is no text in {encoding.replace('-sig', '').upper()}; save it as UTF-8"
        raise TextError(Fault(line, words)) from why
    text = text.replace("\r\n", "\n").replace("\r", "\n")
    if "\0" in text:
        line = 1 + text.count("\n", 0, text.index("\0"))
        raise TextError(Fault(line, "a zero byte stands here; save the text as UTF-8"))
    return text


def tidy(text: str) -> str:
    """A name with no blanks around it, one for each run of blanks, and accents in one form.

    >>> tidy("  Bus 1     HV ")
    'Bus 1 HV'
    """
    return " ".join(unicodedata.normalize("NFC", text).split())


def clean_label(text: str, line: int) -> str:
    """A bus's name as it is kept, so that names that look the same are the same.

    A name that is empty, would be taken for a comment, or would spoil a line of a sheet is a
    :class:`TextError`.

    >>> clean_label("  Bus 1     HV ", 4)
    'Bus 1 HV'
    """
    label = tidy(text)
    if not label:
        raise TextError(Fault(line, "a bus has no name here"))
    if is_comment(label):
        raise TextError(Fault(line, f"the name {label!r} begins as a comment does"))
    if any(unicodedata.category(character) in ("Cc", "Cf", "Cs") for character in label):
        raise TextError(Fault(line, f"the name {label!r} has a character that cannot be printed"))
    return label


class Row(NamedTuple):
    """A row of a table with a header: its line in the text, and its cells by their columns."""

    line: int
    cells: dict[str, str]


def read_table(text: str) -> tuple[list[str], Iterator[Row]]:
    """Reads a table with a header: the names of its columns, and its rows.

    Cells stand apart by commas, semicolons or tabs, whichever the header has most of. The names of
    columns are taken in lower case, with an underscore for a blank or a hyphen. Blank lines and
    comments, which begin with #, are passed over; a row that begins so is a :class:`TextError`,
    since it may be a comment or a name.

    >>> columns, rows = read_table("From bus;To bus\\n1;2\\n")
    >>> columns, list(rows)
    (['from_bus', 'to_bus'], [Row(line=2, cells={'from_bus': '1', 'to_bus': '2'})])
    """
    lines = ["" if is_comment(line) else line for line in text.split("\n")]
    heading = next((line for line in lines if line.strip()), "")
    delimiter = max(",;\t", key=heading.count)
    cells = _cells("\n".join(lines), delimiter)
    line, header = next(cells, (0, []))
    if not header:
        raise TextError(Fault(0, "the text has no header"))
    columns = [column_name(name) for name in header]
    for name, count in Counter(columns).items():
        if name and count > 1:
            raise TextError(Fault(line, f"the header has the column {name!r} twice"))
    for number, row in enumerate(text.split("\n"), start=1):
        if number > line and is_comment(row) and row.count(delimiter) + 1 >= len(columns):
            words = "this row begins with #, as a comment or as a name: take it out, or rename"
            raise TextError(Fault(number, words))
    return columns, _rows(columns, line, cells)


def is_comment(line: str) -> bool:
    """Whether a line of a table is a comment.

    >>> is_comment(" # 1,2"), is_comment("1,2 # 3")
    (True, False)
    """
    return line.lstrip().startswith("#")


def column_name(text: str) -> str:
    """The name of a column as it is looked up.

    >>> column_name("From bus"), column_name("to-bus")
    ('from_bus', 'to_bus')
    """
    return "_".join(text.lower().replace("-", " ").split())


def _cells(text: str, delimiter: str) -> Iterator[tuple[int, list[str]]]:
    """The lines of a table that are not blank, each with its number and its cells."""
    reader = csv.reader(
        io.StringIO(text), delimiter=delimiter, strict=True, skipinitialspace=True
    )
    try:
        for row in reader:
            cells = [cell.strip() for cell in row]
            if any(cells):
                yield reader.line_num, cells
    except csv.Error as why:
        raise TextError(Fault(reader.line_num, f"this is no row of a table: {why}")) from why


def _rows(
    columns: list[str], header: int, cells: Iterator[tuple[int, list[str]]]
) -> Iterator[Row]:
    """The rows below a header, each with as many cells as that has columns."""
    for line, row in cells:
        if len(row) != len(columns):
            words = f"{len(row)} cells, where the header in line {header} has {len(columns)}"
            raise TextError(Fault(line, words))
        yield Row(line, dict(zip(columns, row)))


def decimal(number: Fraction, places: int = 6) -> str:
    """A fraction as a decimal number, rounded to places; a tie goes to the even digit.

    >>> decimal(Fraction(4, 3)), decimal(Fraction(-1, 2), 2)
    ('1.333333', '-0.50')
    """
    whole, rest = divmod(abs(round(number * 10**places)), 10**places)
    sign = "-" if number < 0 and (whole or rest) else ""
    return f"{sign}{whole}.{rest:0{places}}"
