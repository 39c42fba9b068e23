"""The command for planners: from their own files to sheets, explanations, studies and pictures."""

from __future__ import annotations

import argparse
import contextlib
import csv
import io
import os
import sys
import unicodedata
from argparse import Namespace
from collections.abc import Callable, Sequence
from fractions import Fraction
from pathlib import Path
from typing import TYPE_CHECKING, NoReturn, Optional

from gishwabel import build, calls, cases, explain, labels, picture
from gishwabel.network import Network
from gishwabel.running import (
    DISAGREES,
    DONE,
    NOT_RUN,
    NotRun,
    Progress,
    check_places,
    each,
    place_for,
    read_network,
    read_text,
    say,
    write,
)
from gishwabel.texts import Fault, TextError, decimal, tidy

if TYPE_CHECKING:
    from _typeshed import SupportsWrite

_STATUSES = """\
Exit status, the worst of all files:
  0  all was done, and all of it written
  2  a file, bus or line is refused: standard error says why
  1  something could not be run, read or written: standard error says why
  3  explain alone: a sum is not the proved numerator, which must never be"""


def main(arguments: Optional[Sequence[str]] = None) -> int:
    """Runs the command with arguments, by default those of the process, and gives its status.

    >>> main(["outage", str(build.ROOT / "examples" / "path.net"), "0-1"])
    line 0 out 0-1 over 6
    0 1
    1 -2
    2 1
    0
    """
    if sys.stdout is None:
        return say("standard output cannot be written", NOT_RUN)
    for stream in (sys.stdout, sys.stderr):
        if isinstance(stream, io.TextIOWrapper):
            stream.reconfigure(encoding="utf-8", errors="surrogateescape", newline="\n")
    try:
        try:
            options = _parse(sys.argv[1:] if arguments is None else arguments)
            status = int(options.run(options))
        except SystemExit as end:  # of --help, of --version, or of arguments that are wrong
            status = int(end.code or 0)
        sys.stdout.flush()
        return status
    except build.BuildError as why:
        return say(str(why), NOT_RUN)
    except OSError as why:
        with contextlib.suppress(OSError):  # nothing more is written there when Python ends
            os.dup2(os.open(os.devnull, os.O_WRONLY), sys.stdout.fileno())
        if isinstance(why, BrokenPipeError):  # a reader that goes away, as head does, has enough
            return NOT_RUN
        return say("standard output cannot be written", NOT_RUN)
    except KeyboardInterrupt:
        return say("interrupted", NOT_RUN)


class _Parser(argparse.ArgumentParser):
    """A parser that ends in status 1 where arguments are wrong, as the other commands do."""

    def error(self, message: str) -> NoReturn:
        sys.exit(say(f"{message}; --help explains", NOT_RUN))

    def _print_message(self, message: str, file: Optional[SupportsWrite[str]] = None) -> None:
        (file or sys.stderr).write(message)  # argparse itself passes over a full disk


def _parse(words: Sequence[str]) -> Namespace:
    """What people typed. Behind the subcommand, options and files may stand in any order."""
    parser, subcommands = _parsers()
    if words and words[0] in subcommands:
        return subcommands[words[0]].parse_intermixed_args(words[1:])
    return parser.parse_args(words)  # --help, --version, or something wrong


def _parsers() -> tuple[_Parser, dict[str, _Parser]]:
    """The options of the command, and of each of its subcommands."""
    layout = argparse.RawDescriptionHelpFormatter
    parser = _Parser(
        prog="gishwabel", allow_abbrev=False, epilog=_STATUSES, formatter_class=layout,
        description="Share sheets from the planners' own files, by the planners' own names.",
    )
    version = f"gishwabel {build.version()}"
    parser.add_argument("--version", action="version", version=version)
    commands = parser.add_subparsers(title="subcommands", metavar="SUBCOMMAND", required=True)

    def add(name: str, run: Callable[[Namespace], int], what: str, more: str) -> _Parser:
        added = commands.add_parser(
            name, help=what, allow_abbrev=False, epilog=_STATUSES, formatter_class=layout,
            description=f"{what.capitalize()}.\n{more}",
        )
        added.set_defaults(run=run)
        return added

    command = add("import", _import, "make network files and tables of labels of cases", """
CASE is a MATPOWER case file (.m, with mpc.bus and mpc.branch), an edge list with a
header (.csv or .tsv, with the columns from and to, or the like), or a text as
./network-file takes it (.txt). CASE.net and CASE.labels are written beside it. What
was merged or left out is told by the case's own names and lines.""")
    command.add_argument("files", nargs="+", metavar="CASE")
    command.add_argument("-o", dest="out", metavar="OUT.net",
                         help="where to write the network file; for several cases, a folder")
    command.add_argument("--buses", metavar="TABLE",
                         help="a .csv with the columns bus, need and weight, by the case's names")
    command.add_argument("--names", action="store_true",
                         help="label buses by mpc.bus_name and not by their numbers in the case")
    command.add_argument("--as", dest="kind", choices=("matpower", "csv", "text"),
                         help="what CASE is, where its name does not tell")

    command = add("sheet", _sheet, "print the proved share sheets of network files", """
Without options a sheet is what ./share-sheet prints, byte by byte.""")
    command.add_argument("files", nargs="+", metavar="FILE", help="- is standard input")
    command.add_argument("--labels", action="store_true",
                         help="print each bus's label in place of its number")
    command.add_argument("--rank", action="store_true", help="largest shares first, ties by bus")
    command.add_argument("--csv", action="store_true",
                         help="print a table for spreadsheets, with decimals beside the fractions")

    command = add("explain", _explain, "show the share of a bus as its sum, term by term", """
The sum is worked out apart from the proved library, and compared with its numerator.""")
    command.add_argument("files", nargs="+", metavar="FILE", help="- is standard input")
    command.add_argument("bus", metavar="BUS", help="its label, or its number if it has none")
    _add_numbers(command)

    command = add("outage", _outage, "print what the loss of a line does to every share", """
For one line: each bus with its change over L. With --all: a row for each line, those
first whose loss moves most, which is what all falls add up to, and all rises.""")
    command.usage = "gishwabel outage [--numbers] FILE [FILE ...] (LINE | --all)"
    command.add_argument("words", nargs="+", metavar="FILE ... LINE",
                         help="network files, and behind them the number of a line, or A-B for "
                         "the line between the buses A and B")
    command.add_argument("--all", action="store_true", help="study each line, and name none")
    _add_numbers(command)

    command = add("picture", _picture, "draw networks, buses sized and shaded by share", """
Without -o, FILE.svg is written beside FILE.net.""")
    command.add_argument("files", nargs="+", metavar="FILE", help="- is standard input")
    command.add_argument("-o", dest="out", metavar="OUT.svg",
                         help="where to write the picture; for several files, a folder")
    command.add_argument("--outage", metavar="LINE",
                         help="mark a line as out, by its number or as A-B, and colour the changes")
    _add_numbers(command)

    add("build", _build, "build the proved library, if it has to be built", """
The others do that by themselves. It prints where the shared object is.""")
    return parser, commands.choices


def _add_numbers(command: argparse.ArgumentParser) -> None:
    """Adds the option that a subcommand has if it takes labels where they are there."""
    command.add_argument("--numbers", action="store_true",
                         help="call buses by their numbers, though they have labels")


# the subcommands


def _import(options: Namespace) -> int:
    """Makes the network file and the table of labels of each case."""

    def work(name: str, _: Progress) -> int:
        text = read_text(name)
        path = place_for(name, options.out, ".net", options.files)
        table = labels.beside(path)
        check_places([path, table], [*options.files, *([options.buses] if options.buses else [])])
        case = cases.parse(options.kind or cases.kind_of(name, text), text, options.names)
        if options.buses is not None:
            try:
                cases.add_values(case, read_text(options.buses))
            except TextError as why:
                raise why.of(options.buses) from why
            except NotRun as why:
                raise NotRun(f"{options.buses}: {why}") from why
        network, records, notes = cases.settle(case)
        names = _names(network)
        write(path, network.file)
        write(table, labels.encode(path.name, network.file, names))
        print(f"{name}: {case.kind}, {len(names)} buses, {records} branches in service")
        print("".join(f"{note}\n" for note in notes), end="")
        print(f"wrote {path}: {network.buses} buses, {records} records, {network.lines} lines")
        print(f"wrote {table}")
        return DONE

    return each(options.files, work)


def _sheet(options: Namespace) -> int:
    """Prints the sheet of each file."""

    def work(name: str, _: Progress) -> int:
        network = read_network(name, options.labels)
        sheet = network.sheet().decode()
        if not (options.labels or options.rank or options.csv):
            print(sheet, end="")
            return DONE
        heading, *lines = sheet.splitlines()
        numerators, over = network.numerators()
        order = list(range(network.buses))
        if options.rank:
            order.sort(key=lambda bus: (-numerators[bus], bus))
        names = _names(network)
        if not options.csv:
            print(heading)
            for bus in order:
                print(names[bus], lines[bus].split(" ", 1)[1])
            return DONE
        rows = csv.writer(sys.stdout, lineterminator="\n")
        file = [name] if len(options.files) > 1 else []
        for bus in order:
            need, degree, numerator, share = lines[bus].split()[1:]
            label = [names[bus]] if options.labels else []
            value = decimal(Fraction(numerators[bus], over))
            weight = network.weights[bus]
            rows.writerow([*file, bus, *label, need, degree, weight, numerator, over, share, value])
        return DONE

    if options.csv:
        file = ["file"] if len(options.files) > 1 else []
        label = ["label"] if options.labels else []
        columns = ["need", "degree", "weight", "numerator", "over", "share", "decimal"]
        print(",".join([*file, "bus", *label, *columns]))
    return each(options.files, work, headings=not options.csv)


def _explain(options: Namespace) -> int:
    """Shows the share of a bus in each file."""

    def work(name: str, _: Progress) -> int:
        network = read_network(name, _labelled(options))
        bus, names = _bus(network, options.bus), _names(network)
        terms, over = explain.terms(network, bus), explain.common_denominator(network)
        total = sum((term.value for term in terms), Fraction())
        proved = calls.share(network.table, bus)
        number = f", number {bus}" if names[bus] != str(bus) else ""
        print(f"bus {names[bus]}{number}: share {total} = {decimal(total)}")
        print(f"L = {over}, the least common multiple of 1 to {1 + max(map(len, network.rows))}, "
              "which is 1 plus the largest degree")
        rows = [["term of", "number", "need", "degree", "weight", "formula", "", "", "times L"]]
        for place, term in enumerate(terms):
            whose = "the bus itself" if place == 0 else f"neighbour {names[term.bus]}"
            values = [str(term.bus), str(term.need), str(term.degree), str(term.weight)]
            times = str(term.value * over)
            rows.append([whose, *values, term.formula, "=", str(term.value), times])
        rows.append(["sum", *[""] * 7, str(total * over)])
        rows.append(["proved numerator", *[""] * 7, str(proved.numerator)])
        _print_columns(rows, left={0, 5})
        if total * over == proved.numerator and over == proved.denominator:
            print(f"The sum is the proved numerator over {proved.denominator}.")
            return DONE
        print("THE SUM IS NOT THE PROVED NUMERATOR.")
        return say(
            f"{name}: bus {names[bus]}: THE SUM, {total * over} over {over}, IS NOT THE PROVED "
            f"NUMERATOR, {proved.numerator} over {proved.denominator}: use neither, and report it",
            DISAGREES,
        )

    return each(options.files, work)


def _outage(options: Namespace) -> int:
    """Prints the study of one line, or of all lines, of each file."""
    files = options.words if options.all else options.words[:-1]
    if not files:
        return say("a file and a line, or --all, are wanted; --help explains", NOT_RUN)

    def work(name: str, progress: Progress) -> int:
        network = read_network(name, _labelled(options))
        if options.all:
            _print_all_outages(network, progress)
            return DONE
        names = _names(network)
        line = _line(network, options.words[-1])
        changes, over = network.outage(line)
        print(f"line {line} out {_ends(network, names, line)} over {over}")
        for bus, change in enumerate(changes):
            print(names[bus], change)
        return DONE

    return each(files, work)


def _print_all_outages(network: Network, progress: Progress) -> None:
    """Prints a row for each line, those first whose loss moves most."""
    names = _names(network)
    studies = []
    for line in range(network.lines):
        changes = network.outage(line).changes
        moved = sum(change for change in changes if change > 0)
        falls, rises = (changes.index(most(changes)) for most in (min, max))
        studies.append((-moved, line, falls, changes[falls], rises, changes[rises]))
        progress(line + 1, network.lines)
    over = network.numerators()[1]
    print(f"buses {network.buses} lines {network.lines} over {over}")
    rows = [["line", "ends", "moves", "decimal", "falls most", "by", "rises most", "by"]]
    for moved, line, falls, fall, rises, rise in sorted(studies):
        share = decimal(Fraction(-moved, over))
        most = [names[falls], str(fall), names[rises], f"+{rise}"]
        rows.append([str(line), _ends(network, names, line), str(-moved), share, *most])
    _print_columns(rows, left={1, 4, 6})


def _picture(options: Namespace) -> int:
    """Draws each file."""

    def work(name: str, progress: Progress) -> int:
        network = read_network(name, _labelled(options))
        path = place_for(name, options.out, ".svg", options.files)
        check_places([path], [*options.files, *map(str, map(labels.beside, options.files))])
        numerators, over = network.numerators()
        line = None if options.outage is None else _line(network, options.outage)
        changes = None if line is None else network.outage(line).changes
        title = "standard input" if name == "-" else Path(name).name
        drawn = picture.draw(
            title, _names(network), network.pairs, numerators, over,
            out=line, changes=changes, progress=progress,
        )
        write(path, drawn.encode())
        print(f"wrote {path}")
        return DONE

    return each(options.files, work)


def _build(_: Namespace) -> int:
    """Builds the library, if it has to be built, and prints where it is."""
    print(build.library())
    return DONE


# buses and lines by their names


def _labelled(options: Namespace) -> Optional[bool]:
    """Whether labels are taken where they are there, or not at all."""
    return False if options.numbers else None


def _names(network: Network) -> list[str]:
    """What the buses of a network are called."""
    return [str(label) for label in network.labels]


def _bus(network: Network, word: str) -> int:
    """The bus that somebody has typed."""
    label = tidy(word)
    try:
        return network.bus(label)
    except KeyError:
        hint = cases.similar(label, _names(network))
        raise TextError(Fault(0, f"there is no bus {label!r}{hint}")) from None


def _ends(network: Network, names: Sequence[str], line: int) -> str:
    """A line by the names of its ends."""
    return "-".join(names[bus] for bus in network.pairs[line])


def _line(network: Network, word: str) -> int:
    """The line that somebody has typed: its number, or the names of its ends with a hyphen."""
    if word.isascii() and word.isdigit():
        digits = word.lstrip("0") or "0"
        if len(digits) < 10 and int(digits) < network.lines:
            return int(digits)
        words = f"there is no line {digits}: the network has {network.lines}, numbered from 0"
        raise TextError(Fault(0, words))
    parts = word.split("-")
    splits = [("-".join(parts[:at]), "-".join(parts[at:])) for at in range(1, len(parts))]
    names = _names(network)
    ends = [pair for pair in splits if all(tidy(end) in names for end in pair)]
    if len(ends) != 1:
        words = "names no two buses" if not ends else "can be read in more than one way"
        raise TextError(Fault(0, f"the line {word!r} {words}; it may be given by its number"))
    first, second = (_bus(network, end) for end in ends[0])
    try:
        return network.line(first, second)
    except ValueError:
        raise TextError(Fault(0, f"no line joins {ends[0][0]} and {ends[0][1]}")) from None


def _print_columns(rows: Sequence[Sequence[str]], left: set[int]) -> None:
    """Prints rows in columns, those in ``left`` with their text on the left."""

    def width(text: str) -> int:
        wide = sum(unicodedata.east_asian_width(letter) in "WF" for letter in text)
        return len(text) + wide - sum(unicodedata.combining(letter) > 0 for letter in text)

    widths = [max(width(row[column]) for row in rows) for column in range(len(rows[0]))]
    for row in rows:
        cells = []
        for column, text in enumerate(row):
            blanks = " " * (widths[column] - width(text))
            cells.append(text + blanks if column in left else blanks + text)
        print("  ".join(cells).rstrip())
