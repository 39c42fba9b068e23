"""The planners' own files: MATPOWER cases, edge lists and texts, and the networks in them."""

from __future__ import annotations

import re
import subprocess
import unicodedata
from collections import defaultdict
from collections.abc import Iterable, Iterator
from dataclasses import dataclass, field
from difflib import get_close_matches
from typing import NamedTuple

from gishwabel import calls, matpower
from gishwabel.build import ROOT
from gishwabel.network import Network, encode
from gishwabel.texts import Fault, Row, TextError
from gishwabel.texts import clean_label, column_name, is_comment, read_table

# The library's limits that no call of it gives; a test holds them against what it refuses.
MAX_NEIGHBOURS = 23
MAX_RECORDS = 5888
MAX_NEED = 24
MAX_WEIGHT = 1000


class Branch(NamedTuple):
    """A branch of a case: the names of its two buses, and its line in the text."""

    first: str
    second: str
    line: int

    def __str__(self) -> str:
        return f"{self.first}-{self.second}"


@dataclass
class Case:
    """What a planner's file has: its buses by their names, in order, and the branches in service.

    ``lines`` has for each bus its line in the text; ``notes`` say what was left out and why, and
    ``isolated`` has the buses among that. A bus without a need or weight has 1.
    """

    kind: str
    lines: dict[str, int] = field(default_factory=dict)
    branches: list[Branch] = field(default_factory=list)
    needs: dict[str, int] = field(default_factory=dict)
    weights: dict[str, int] = field(default_factory=dict)
    notes: list[str] = field(default_factory=list)
    isolated: set[str] = field(default_factory=set)

    def leave_out(self, what: str, line: int, why: str) -> None:
        """Notes that something of the text is left out."""
        self.notes.append(f"left out: {what}, line {line}: {why}")


def kind_of(name: str, text: str) -> str:
    """What kind of file a text is, by the ending of its name or else by its contents.

    >>> kind_of("case14.m", ""), kind_of("lines", "buses 3\\nneeds all 1\\n"), kind_of("x", "a,b")
    ('matpower', 'text', 'csv')
    """
    endings = {".m": "matpower", ".csv": "csv", ".tsv": "csv", ".txt": "text"}
    for ending, kind in endings.items():
        if name.lower().endswith(ending):
            return kind
    if re.search(r"^[ \t]*(\w+\.)?(bus|branch)[ \t]*=", text, re.MULTILINE):
        return "matpower"
    return "text" if re.search(r"^[ \t]*buses[ \t]", text, re.MULTILINE) else "csv"


def parse(kind: str, text: str, names: bool = False) -> Case:
    """Reads a planner's file of a kind: matpower, csv or text.

    ``names`` takes the names of ``mpc.bus_name`` for labels, in place of bus numbers. What cannot
    be taken is a :class:`TextError` with its faults.

    >>> case = parse("csv", "from,to\\nNord,Süd\\nSüd,Ost\\n")
    >>> list(case.lines), [str(branch) for branch in case.branches]
    (['Nord', 'Ost', 'Süd'], ['Nord-Süd', 'Süd-Ost'])
    """
    if kind == "matpower":
        return _parse_matpower(text, names)
    return _parse_edges(text) if kind == "csv" else _parse_text(text)


def _parse_matpower(text: str, names: bool) -> Case:
    """Reads a MATPOWER case, without what is out of service and without isolated buses.

    MATPOWER itself takes a bus of type 4, and all branches at it, for out of service.
    """
    case = Case("MATPOWER case")
    tables = matpower.read(text, names)
    label_of = {bus.number: bus.name if names else str(bus.number) for bus in tables.buses}
    for bus in tables.buses:
        label = label_of[bus.number]
        if bus.kind == matpower.ISOLATED:
            case.isolated.add(label)
            case.leave_out(f"bus {label}", bus.line, "isolated, type 4")
        else:
            case.lines[label] = bus.line
    for found in tables.branches:
        branch = Branch(label_of[found.first], label_of[found.second], found.line)
        if not found.in_service:
            case.leave_out(f"branch {branch}", branch.line, "out of service")
        elif case.isolated & {branch.first, branch.second}:
            case.leave_out(f"branch {branch}", branch.line, "it ends in an isolated bus, type 4")
        else:
            case.branches.append(branch)
    return case


_ENDS = [
    ("from", "to"), ("from_bus", "to_bus"), ("fbus", "tbus"), ("f_bus", "t_bus"),
    ("source", "target"), ("bus0", "bus1"), ("bus1", "bus2"), ("bus_1", "bus_2"),
    ("bus_a", "bus_b"),
]
_STATUS = ("status", "in_service", "br_status")
_IN_SERVICE = {
    "1": True, "1.0": True, "true": True, "yes": True,
    "0": False, "0.0": False, "false": False, "no": False,
}


def _parse_edges(text: str) -> Case:
    """Reads an edge list: a row for each branch, with its two ends and perhaps its status.

    Buses are numbered in the order of their names, so that the order of rows does not matter.
    """
    case = Case("edge list")
    columns, rows = read_table(text)
    ends = [pair for pair in _ENDS if set(pair) <= set(columns)]
    if len(ends) != 1:
        words = f"the header has {', '.join(columns)}; " + (
            "which columns are the ends is not clear" if ends
            else "columns for the two ends are missing, such as from and to"
        )
        raise TextError(Fault(0, words))
    status = [name for name in _STATUS if name in columns]
    _note_unused(case, columns, [*ends[0], *status])
    comments = [str(line) for line, words in enumerate(text.split("\n"), 1) if is_comment(words)]
    if comments:
        case.notes.append(f"left out: comments in line {', '.join(comments)}")
    lines: dict[str, int] = {}
    for row in rows:
        if {column_name(row.cells[name]) for name in ends[0]} == set(ends[0]):
            raise TextError(Fault(row.line, "the header stands here again"))
        first, second = (clean_label(row.cells[name], row.line) for name in ends[0])
        branch = Branch(first, second, row.line)
        for label in (first, second):
            lines.setdefault(label, row.line)
        if all(_in_service(row, name) for name in status):
            case.branches.append(branch)
        else:
            case.leave_out(f"branch {branch}", branch.line, "out of service")
    case.lines = {label: lines[label] for label in sorted(lines, key=_natural)}
    return case


def _in_service(row: Row, column: str) -> bool:
    """Whether a branch of an edge list is in service."""
    word = row.cells[column].lower()
    if word not in _IN_SERVICE:
        raise TextError(Fault(row.line, f"{column} {word!r} is neither 1 nor 0, true nor false"))
    return _IN_SERVICE[word]


def _natural(label: str) -> tuple[list[tuple[int, str]], str]:
    """By what names are sorted: Bus 2 comes before Bus 10."""
    parts = []
    for place, part in enumerate(re.split(r"(\d+)", label)):
        digits = part.lstrip("0") if place % 2 else part
        parts.append((len(digits) if place % 2 else 0, digits))
    return parts, label


def _note_unused(case: Case, columns: list[str], used: list[str]) -> None:
    """Notes the columns of a table that nothing is taken from."""
    unused = [name or "without a name" for name in columns if name not in used]
    if unused:
        case.notes.append(f"columns not used: {', '.join(unused)}")


def _parse_text(text: str) -> Case:
    """Reads a text of ./network-file, which judges it. Buses are called by their numbers."""
    done = subprocess.run(
        [str(ROOT / "network-file"), "-"], input=text.encode(), capture_output=True, check=False
    )
    if done.returncode != 0:
        words = done.stderr.decode(errors="replace").strip()
        words = words.replace("network-file: standard input: ", "")
        if done.returncode != 2:
            raise OSError(words)
        raise TextError(Fault(0, words))
    case = Case("text")
    values: dict[str, list[int]] = {"needs": [], "weights": []}
    for line, raw in enumerate(text.split("\n"), start=1):
        word, *rest = raw.partition("#")[0].split() or [""]
        numbers = [int(digits.lstrip("0") or "0") for digits in rest if digits != "all"]
        if word == "buses":
            case.lines = {str(bus): line for bus in range(numbers[0])}
        elif word == "line":
            case.branches.append(Branch(str(numbers[0]), str(numbers[1]), line))
        elif word in values:
            values[word] += numbers * len(case.lines) if rest[0] == "all" else numbers
    case.needs = dict(zip(case.lines, values["needs"]))
    case.weights = dict(zip(case.lines, values["weights"]))
    return case


def add_values(case: Case, text: str) -> None:
    """Adds the needs and weights of a table with the columns bus, need and weight to a case.

    Buses stand there by their names in the case. A bus that does not stand there, or whose cell is
    empty, keeps what it has.

    >>> case = parse("csv", "from,to\\nA,B\\n")
    >>> add_values(case, "bus,weight\\nB,10\\n")
    >>> case.weights
    {'B': 10}
    """
    columns, rows = read_table(text)
    values = {"need": (case.needs, MAX_NEED), "weight": (case.weights, MAX_WEIGHT)}
    if "bus" not in columns or not set(values) & set(columns):
        words = f"the header has {', '.join(columns)}; bus, and need or weight, must be there"
        raise TextError(Fault(0, words))
    _note_unused(case, columns, ["bus", *values])
    seen: dict[str, int] = {}
    faults: list[Fault] = []
    for row in rows:
        label = clean_label(row.cells["bus"], row.line)
        if label in case.isolated:
            continue  # it is left out already, and that was said
        if label not in case.lines:
            hint = similar(label, case.lines) if len(faults) < 3 else ""
            faults.append(Fault(row.line, f"the case has no bus {label!r}{hint}"))
        elif label in seen:
            faults.append(Fault(row.line, f"bus {label!r} stands in line {seen[label]} already"))
        seen[label] = row.line
        for name, (value_of, most) in values.items():
            cell = row.cells.get(name, "")
            if cell and not (re.fullmatch(r"[0-9]{1,9}", cell) and 1 <= int(cell) <= most):
                words = f"bus {label} has {name} {cell!r}, which is not 1 to {most}"
                faults.append(Fault(row.line, words))
            elif cell:
                value_of[label] = int(cell)
    if faults:
        raise TextError(*faults)


def similar(label: str, labels: Iterable[str]) -> str:
    """A hint at names that are much like one that does not exist, or nothing.

    >>> similar("Nrod", ["Nord", "West"])
    "; is 'Nord' meant?"
    """
    close = get_close_matches(label, list(labels), n=3)
    return f"; is {' or '.join(map(repr, close))} meant?" if close else ""


class Settled(NamedTuple):
    """A case as a network, how many records its file has, and what is to be said of it."""

    network: Network
    records: int
    notes: list[str]


def settle(case: Case) -> Settled:
    """Makes the network file of a case, as the proved library reads it.

    Each branch is a record; branches from a bus to itself are left out. What no network file can
    hold is a :class:`TextError`, told by the case's own names and lines.

    >>> settle(parse("csv", "from,to\\nA,B\\nB,A\\n")).notes
    ['merged: A-B, lines 2 and 3: parallel circuits, one line']
    """
    notes = list(case.notes)
    lines_of: dict[tuple[str, str], list[int]] = defaultdict(list)
    place = {label: bus for bus, label in enumerate(case.lines)}
    records = []
    faults = []
    for branch in case.branches:
        unknown = [label for label in branch[:2] if label not in place]
        if unknown:
            faults.append(Fault(branch.line, f"there is no bus {unknown[0]}"))
        elif branch.first == branch.second:
            notes.append(f"left out: branch {branch}, line {branch.line}: from a bus to itself")
        else:
            records.append((place[branch.first], place[branch.second]))
            ends = sorted(branch[:2], key=place.__getitem__)
            lines_of[ends[0], ends[1]].append(branch.line)
    for (first, second), lines in lines_of.items():
        if len(lines) > 1:
            listed = ", ".join(map(str, lines[:-1])) + f" and {lines[-1]}"
            notes.append(f"merged: {first}-{second}, lines {listed}: parallel circuits, one line")
    neighbours: dict[str, list[str]] = {label: [] for label in case.lines}
    for first, second in lines_of:
        neighbours[first].append(second)
        neighbours[second].append(first)
    notes += _notes_on_buses(neighbours)
    faults += _limits_passed(case, len(records), neighbours)
    if faults:
        raise TextError(*faults)
    needs = [case.needs.get(label, 1) for label in case.lines]
    weights = [case.weights.get(label, 1) for label in case.lines]
    network = Network(encode(needs, records, weights), list(case.lines))
    return Settled(network, len(records), notes)


def _notes_on_buses(neighbours: dict[str, list[str]]) -> Iterator[str]:
    """Buses without lines, and names that differ in capitals only."""
    spelled: dict[str, str] = {}
    for label, others in neighbours.items():
        if not others:
            yield f"bus {label} has no line"
        before = spelled.setdefault(label.casefold(), label)
        if before != label:
            yield f"buses {before} and {label} differ in capitals only; they are two buses"


def _limits_passed(case: Case, records: int, neighbours: dict[str, list[str]]) -> Iterator[Fault]:
    """What keeps a case from being a network."""
    most = calls.max_buses()
    labels = list(case.lines)
    if not labels:
        yield Fault(0, "there is no bus")
    if len(labels) > most:
        first = labels[most]
        words = f"{len(labels)} buses, and a network has {most} at most"
        yield Fault(case.lines[first], f"{words}: bus {first} is one too many")
        return
    if records > MAX_RECORDS:
        yield Fault(0, f"{records} branches, and a network file has {MAX_RECORDS} at most")
    spelled: dict[str, str] = {}
    for label, others in neighbours.items():
        line, degree = case.lines[label], len(others)
        need, weight = case.needs.get(label, 1), case.weights.get(label, 1)
        if spelled.setdefault(_number_in(label), label) != label:
            before = spelled[_number_in(label)]
            words = f"buses {before} and {label} are one number, spelled in two ways"
            yield Fault(line, words)
        if degree > MAX_NEIGHBOURS:
            words = f"bus {label} has {degree} neighbours, and {MAX_NEIGHBOURS} is the most"
            yield Fault(line, f"{words}: {', '.join(others)}")
        elif not 1 <= need <= MAX_NEED:
            yield Fault(0, f"bus {label} has need {need}, which is not 1 to {MAX_NEED}")
        elif need > max(degree, 1):
            yield Fault(0, f"bus {label} has need {need} and only {degree} neighbours")
        if not 1 <= weight <= MAX_WEIGHT:
            yield Fault(0, f"bus {label} has weight {weight}, which is not 1 to {MAX_WEIGHT}")


def _number_in(label: str) -> str:
    """A name that is a number, in one spelling: 7 for 007, 7.0 and full-width digits."""
    plain = unicodedata.normalize("NFKC", label).replace(",", "")
    found = re.fullmatch(r"0*([0-9]+)(?:\.0*)?", plain)
    return found[1] if found else label
