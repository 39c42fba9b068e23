"""The buses and branches of a MATPOWER case file.

A case file is a program in MATLAB's language that gives tables. Only the tables are read here, and
no statement is run: one that is not known to leave buses and branches as they are is refused.
"""

from __future__ import annotations

import re
from collections.abc import Iterator
from typing import NamedTuple

from gishwabel.texts import Fault, TextError, clean_label

ISOLATED = 4
"""The type of a bus that is out of service, with all its branches."""


class Bus(NamedTuple):
    """A row of mpc.bus: its number, its type, its name or nothing, and its line in the text."""

    number: int
    kind: int
    name: str
    line: int


class Branch(NamedTuple):
    """A row of mpc.branch: the numbers of its buses, and its line in the text."""

    first: int
    second: int
    in_service: bool
    line: int


class Tables(NamedTuple):
    """What a case file has of buses and branches."""

    buses: list[Bus]
    branches: list[Branch]


def read(text: str, names: bool = False) -> Tables:
    """Reads mpc.bus and mpc.branch, and mpc.bus_name if the names of buses are wanted.

    Each branch ends in two buses of the case, which are numbered from 1, each once. Anything else
    is a :class:`TextError` with all its faults.

    >>> tables = read("mpc.bus = [1 3; 2 1]; mpc.branch = [1 2 0 0 0 0 0 0 0 0 1];")
    >>> [bus.number for bus in tables.buses], tables.branches
    ([1, 2], [Branch(first=1, second=2, in_service=True, line=1)])
    """
    tables = _tables(text, names)
    faults: list[Fault] = []
    buses: dict[int, Bus] = {}
    name_of = _names(tables) if names else []
    for place, row in enumerate(_numbers(tables, "bus", 2)):
        number, kind = _whole(row, 1), _whole(row, 2)
        if number < 1:
            faults.append(Fault(row.line, f"bus number {number} is below 1"))
        elif number in buses:
            words = f"bus {number} stands in line {buses[number].line} already"
            faults.append(Fault(row.line, words))
        elif not 1 <= kind <= 4:
            faults.append(Fault(row.line, f"bus {number} has type {kind}, which is not 1 to 4"))
        else:
            buses[number] = Bus(number, kind, name_of[place] if names else "", row.line)
    branches = []
    for row in _numbers(tables, "branch", 11):
        first, second, status = (_whole(row, column) for column in (1, 2, 11))
        unknown = [number for number in (first, second) if number not in buses]
        if unknown:
            words = f"a branch ends in bus {unknown[0]}, which mpc.bus does not have"
            faults.append(Fault(row.line, words))
        elif status not in (0, 1):
            words = f"branch {first}-{second} has status {status}, which is not 0 or 1"
            faults.append(Fault(row.line, words))
        branches.append(Branch(first, second, status == 1, row.line))
    if faults:
        raise TextError(*faults)
    return Tables(list(buses.values()), branches)


class _Token(NamedTuple):
    """A piece of a case file: what it is, its text, and its line."""

    kind: str
    text: str
    line: int


class _Row(NamedTuple):
    """A row of a table: its line in the text, and its entries."""

    line: int
    entries: list[str]


# A comment, or "..." and the rest of its line, is skipped. A quote begins a text unless it stands
# right behind something, which it transposes.
_TOKEN = re.compile(
    r"""
    (?P<skip> [^\S\n]+ | [%\#][^\n]* | \.\.\.[^\n]*\n )
  | (?P<text> (?<![\w)\]}.'])'(?:[^'\n]|'')*' | "(?:[^"\n]|"")*" )
  | (?P<newline> \n )
  | (?P<word> (?:(?!\.\.\.)[^\s,;=\[\]{}()'"%\#])+ )
  | (?P<mark> == | . )
    """,
    re.VERBOSE,
)
_NUMBER = re.compile(r"(?ai)[-+]?(?:(?:\d+\.?\d*|\.\d+)(?:e[-+]?\d+)?|inf|nan)")
_CLOSE = {"(": ")", "[": "]", "{": "}"}

# What MATPOWER's functions idx_bus and idx_brch give, in this order: the columns among them are
# those behind the types of buses, and all for branches.
_CONSTANTS = {
    "idx_bus": "PQ PV REF NONE BUS_I BUS_TYPE PD QD GS BS BUS_AREA VM VA BASE_KV ZONE VMAX VMIN "
    "LAM_P LAM_Q MU_VMAX MU_VMIN".split(),
    "idx_brch": "F_BUS T_BUS BR_R BR_X BR_B RATE_A RATE_B RATE_C TAP SHIFT BR_STATUS PF QF PT QT "
    "MU_SF MU_ST ANGMIN ANGMAX MU_ANGMIN MU_ANGMAX".split(),
}
# Columns that tell nothing of who is joined with whom, by name and by number.
_ELECTRICAL = {
    "bus": {*_CONSTANTS["idx_bus"][6:], *map(str, range(3, 14))},
    "branch": {*_CONSTANTS["idx_brch"], *map(str, range(3, 14))}
    - {"F_BUS", "T_BUS", "BR_STATUS", "11"},
}


def _tokens(text: str) -> Iterator[_Token]:
    """The pieces of a case file, without comments."""
    line = 1
    for found in _TOKEN.finditer(_without_blocks(text)):
        if found.lastgroup != "skip":
            yield _Token(str(found.lastgroup), found[0], line)
        line += found[0].count("\n")


def _without_blocks(text: str) -> str:
    """A text with blank lines for its block comments, which stand between %{ and %}."""
    depth, lines = 0, text.split("\n")
    for place, line in enumerate(lines):
        mark = line.strip()
        depth += mark in ("%{", "#{")
        if depth:
            lines[place] = ""
        depth -= depth > 0 and mark in ("%}", "#}")
    return "\n".join(lines)


def _statements(text: str) -> Iterator[list[_Token]]:
    """The statements of a case file. Inside brackets a newline or semicolon ends no statement."""
    statement: list[_Token] = []
    closing: list[str] = []
    for token in _tokens(text):
        if not closing and (token.kind == "newline" or token.text in (";", ",")):
            if statement:
                yield statement
            statement = []
            continue
        statement.append(token)
        if token.kind == "mark" and token.text in _CLOSE:
            closing.append(_CLOSE[token.text])
        elif closing and token.text == closing[-1]:
            closing.pop()
    if closing:
        words = f"{statement[0].text} begins here and does not end; the file is cut off"
        raise TextError(Fault(statement[0].line, words))
    if statement:
        yield statement


def _tables(text: str, names: bool) -> dict[str, list[_Row]]:
    """The tables bus and branch of a case file, and bus_name if its names are wanted."""
    tables: dict[str, list[_Row]] = {}
    wanted = ["bus", "branch", "bus_name"] if names else ["bus", "branch"]
    faults = []
    kept = {"mpc", *wanted, *(name for known in _CONSTANTS.values() for name in known)}
    for statement in _statements(text):
        head, marks = statement[0], [token.text for token in statement]
        name = head.text.rpartition(".")[2]
        if marks[1:2] == ["="] and name in wanted and re.fullmatch(r"(\w+\.)?\w+", head.text):
            if name in tables:
                raise TextError(Fault(head.line, f"{head.text} is given a second time"))
            if len(marks) < 4 or _CLOSE.get(marks[2]) != marks[-1]:
                raise TextError(Fault(head.line, f"{head.text} is not given as a table"))
            tables[name] = list(_rows(statement[3:-1]))
            kept.add(head.text.partition(".")[0])
        elif not _is_harmless(statement, marks, wanted, kept):
            words = "this statement is not run here, and may change who is joined with whom"
            faults.append(Fault(head.line, f"{words}: save the case with savecase"))
    for name in wanted:
        if name not in tables:
            raise TextError(Fault(0, f"there is no table mpc.{name}"))
    if faults:
        raise TextError(*faults)
    return tables


def _is_harmless(
    statement: list[_Token], marks: list[str], wanted: list[str], kept: set[str]
) -> bool:
    """Whether a statement that gives no table leaves the wanted tables as they are.

    Case files have such statements for other tables and for units, which some of them convert
    below their tables. What is not known to be harmless is not. ``kept`` are the names of what
    must not be assigned to as a whole: the case, its tables, and MATPOWER's names for columns.
    """
    head = marks[0]
    if head == "function" or marks in (["end"], ["endfunction"], ["return"], ["define_constants"]):
        return True
    if "=" not in marks or any(re.fullmatch(r"eval\w*|assignin", mark) for mark in marks):
        return False
    equals = marks.index("=")
    target, value = marks[:equals], statement[equals + 1 :]
    if head == "[" and len(value) == 1:
        names = [mark for mark in target[1:-1] if mark != ","]
        if value[0].text in ("idx_gen", "idx_cost", "idx_dcline"):
            return not kept & set(names)
        return names == _CONSTANTS.get(value[0].text, [])[: len(names)]
    path = head.split(".")
    if not re.fullmatch(r"\w+(\.\w+)*", head) or not _is_index(target[1:]):
        return False
    if path[-1] in _ELECTRICAL and len(path) < 3 and len(target) > 1:
        return bool(value) and value[0].kind == "word" and _is_electrical(path[-1], target[1:])
    if len(path) > 1:
        return path[1] not in wanted  # another part of the case
    return head not in kept


def _is_index(marks: list[str]) -> bool:
    """Whether this is nothing, or one pair of brackets with all else inside it."""
    depth = 0
    for place, mark in enumerate(marks):
        if depth == 0 and (place > 0 or mark not in _CLOSE):
            return False
        depth += (mark in _CLOSE) - (mark in _CLOSE.values())
    return depth == 0


def _is_electrical(name: str, index: list[str]) -> bool:
    """Whether an index names electrical columns of all rows of a table, and nothing else."""
    if index[:3] != ["(", ":", ","]:
        return False
    columns: list[str] = []
    for mark in index[3:-1]:
        span = re.fullmatch(r"(\d{1,2}):(\d{1,2})", mark)
        if span:
            columns += map(str, range(int(span[1]), int(span[2]) + 1))
        elif mark not in ("[", "]", ","):
            columns.append(mark)
    return bool(columns) and set(columns) <= _ELECTRICAL[name]


def _rows(tokens: list[_Token]) -> Iterator[_Row]:
    """The rows of a table, from what stands between its brackets."""
    row: list[_Token] = []
    comma = True  # one may not stand in front of the first entry, nor behind another comma
    for token in [*tokens, _Token("newline", "\n", 0)]:
        if token.kind == "newline" or token.text == ";":
            if row:
                yield _Row(row[0].line, [entry.text for entry in row])
            row, comma = [], True
        elif token.kind in ("word", "text"):
            row.append(token)
            comma = False
        elif token.text != "," or comma:
            raise TextError(Fault(token.line, f"{token.text!r} is no entry of a table"))
        else:
            comma = True


def _numbers(tables: dict[str, list[_Row]], name: str, needed: int) -> Iterator[_Row]:
    """The rows of a table of numbers, which all have the same columns, and all that are needed."""
    rows = tables[name]
    for row in rows:
        wrong = [entry for entry in row.entries if not _NUMBER.fullmatch(entry)]
        if wrong:
            raise TextError(Fault(row.line, f"{wrong[0]!r} is not a number"))
        if len(row.entries) != len(rows[0].entries):
            words = f"{len(row.entries)} columns, where line {rows[0].line} has"
            raise TextError(Fault(row.line, f"{words} {len(rows[0].entries)}"))
        if len(row.entries) < needed:
            words = f"mpc.{name} has {len(row.entries)} columns, and column {needed} is needed"
            raise TextError(Fault(row.line, words))
        yield row


def _whole(row: _Row, column: int) -> int:
    """The whole number in a column of a row; columns are counted from 1."""
    entry = row.entries[column - 1]
    value = float(entry)
    if not value.is_integer():
        raise TextError(Fault(row.line, f"{entry!r} in column {column} is not a whole number"))
    return int(value)


def _names(tables: dict[str, list[_Row]]) -> list[str]:
    """The names of mpc.bus_name, one for each bus and all different, in one column or row."""
    found: dict[str, int] = {}
    rows = tables["bus_name"]
    for row in rows:
        if len(rows) > 1 and len(row.entries) > 1:
            words = "mpc.bus_name has rows and columns, where one name stands for each bus"
            raise TextError(Fault(row.line, words))
        for entry in row.entries:
            quote = entry[0]
            if quote not in "'\"":
                raise TextError(Fault(row.line, f"the name {entry} is not quoted"))
            label = clean_label(entry[1:-1].replace(2 * quote, quote), row.line)
            if label in found:
                words = f"the name {label!r} stands in line {found[label]} already"
                raise TextError(Fault(row.line, words))
            found[label] = row.line
    if len(found) != len(tables["bus"]):
        words = f"mpc.bus_name has {len(found)} names for {len(tables['bus'])} buses"
        raise TextError(Fault(0, words))
    return list(found)
