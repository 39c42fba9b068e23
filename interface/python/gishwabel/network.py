"""A network with the planners' own names for its buses, over the proved calls."""

from __future__ import annotations

import operator
import struct
from array import array
from collections.abc import Hashable, Iterable, Sequence
from fractions import Fraction
from typing import Any, NamedTuple, Optional

from gishwabel import calls


class Study(NamedTuple):
    """What the loss of a line changes: a number for each bus, all over one denominator."""

    changes: Sequence[int]
    over: int


class Network:
    """A network that the proved library has read, and the labels of its buses.

    ``file`` has the bytes of a network file; it is refused as :func:`calls.read` refuses it.
    ``labels`` are different things that can be hashed, one for each bus; without any, a bus is
    called by its number.

    >>> path = Network(bytes([3, 0, 1, 1, 1, 2, 0, 0, 0, 1, 0, 1, 0, 2, 0]), ["A", "B", "C"])
    >>> path.buses, path.lines, path.pairs
    (3, 2, [(0, 1), (1, 2)])
    >>> path.shares()["B"]
    Fraction(4, 3)
    """

    def __init__(self, file: bytes, labels: Optional[Sequence[Hashable]] = None) -> None:
        table = array("H", bytes(2 * calls.max_entries()))
        self.file = file
        self.buses, self.lines = calls.read(file, table)
        n = self.buses
        self.table = table[: 3 * n + 2 + 2 * self.lines]
        self.needs = self.table[1 : 1 + n]
        self.weights = self.table[1 + n : 1 + 2 * n]
        starts, entries = self.table[1 + 2 * n : 2 + 3 * n], self.table[2 + 3 * n :]
        self.rows = [entries[starts[bus] : starts[bus + 1]].tolist() for bus in range(n)]
        self.pairs = [(bus, other) for bus in range(n) for other in self.rows[bus] if other > bus]
        self.label(range(n) if labels is None else labels)

    @classmethod
    def of(
        cls,
        labels: Sequence[Hashable],
        lines: Iterable[tuple[Hashable, Hashable]],
        needs: Optional[Sequence[int]] = None,
        weights: Optional[Sequence[int]] = None,
    ) -> Network:
        """Makes a network of buses by their labels, and of lines by the labels of their ends.

        Lines may stand in any order and from either end; a pair that stands again is a parallel
        circuit. Needs and weights stand in the order of ``labels`` and are 1 where none are given.
        A label that a line has and ``labels`` have not is a ``KeyError``.

        >>> Network.of("ABC", [("C", "B"), ("A", "B"), ("B", "A")]).sheet().decode().splitlines()[0]
        'buses 3 lines 2 over 6'
        """
        bus_of = {label: bus for bus, label in enumerate(labels)}
        records = [(bus_of[first], bus_of[second]) for first, second in lines]
        needs = [1] * len(labels) if needs is None else needs
        weights = [1] * len(labels) if weights is None else weights
        if len(needs) != len(labels) or len(weights) != len(labels):
            raise ValueError(f"{len(labels)} buses want as many needs and weights")
        return cls(encode(needs, records, weights), labels)

    @classmethod
    def from_networkx(cls, graph: Any, need: str = "need", weight: str = "weight") -> Network:
        """Makes a network of a graph of networkx: a bus for each node, labelled by the node.

        Buses are numbered in the order of the graph's nodes. ``need`` and ``weight`` name the
        attributes of nodes that have these; a node without one has 1. Edges of a multigraph that
        join the same nodes are parallel circuits, and make one line. A directed graph is a
        ``ValueError``, since lines run both ways here. networkx itself is not imported.

        >>> import networkx  # doctest: +SKIP
        >>> network = Network.from_networkx(networkx.path_graph(["A", "B", "C"]))  # doctest: +SKIP
        >>> network.shares()["B"]  # doctest: +SKIP
        Fraction(4, 3)
        """
        if graph.is_directed():
            raise ValueError("the graph is directed, and lines run both ways: see to_undirected()")
        nodes = dict(graph.nodes(data=True))
        needs = [attributes.get(need, 1) for attributes in nodes.values()]
        weights = [attributes.get(weight, 1) for attributes in nodes.values()]
        return cls.of(list(nodes), graph.edges(), needs, weights)

    def label(self, labels: Sequence[Hashable]) -> None:
        """Gives the buses other labels.

        >>> path = Network.of("ABC", ["AB", "BC"])
        >>> path.label(["Nord", "Mitte", "Süd"])
        >>> path.bus("Mitte")
        1
        """
        bus_of = {label: bus for bus, label in enumerate(labels)}
        if len(labels) != self.buses or len(bus_of) != self.buses:
            raise ValueError(f"{self.buses} buses want {self.buses} different labels")
        self.labels, self._bus_of = list(labels), bus_of

    def bus(self, label: Hashable) -> int:
        """The number of the bus with a label; a ``KeyError`` if there is none.

        >>> Network.of("AB", ["AB"]).bus("B")
        1
        """
        return self._bus_of[label]

    def line(self, bus: int, other: int) -> int:
        """The number of the line between two buses; a ``ValueError`` if there is none.

        >>> Network.of("ABC", ["AB", "BC"]).line(2, 1)
        1
        """
        return self.pairs.index((min(bus, other), max(bus, other)))

    def numerators(self) -> tuple[Sequence[int], int]:
        """The proved numerators of all buses, and the denominator that they are over.

        >>> Network.of("ABC", ["AB", "BC"]).numerators()
        (array('Q', [5, 8, 5]), 6)
        """
        stored = array("Q", bytes(8 * self.buses))
        return stored, calls.shares(self.table, stored)

    def shares(self) -> dict[Hashable, Fraction]:
        """The proved shares of all buses, by their labels.

        >>> Network.of("AB", ["AB"]).shares()
        {'A': Fraction(1, 1), 'B': Fraction(1, 1)}
        """
        stored, over = self.numerators()
        return {label: Fraction(top, over) for label, top in zip(self.labels, stored)}

    def sheet(self) -> bytes:
        """The proved share sheet.

        >>> Network.of("A", []).sheet()
        b'buses 1 lines 0 over 1\\n0 1 0 1 1/1\\n'
        """
        text = bytearray(calls.max_text())
        return bytes(text[: calls.whole_sheet(self.table, text)])

    def outage(self, line: int) -> Study:
        """The proved changes of all buses when a line goes out, by the line's number.

        >>> Network.of("ABC", ["AB", "BC"]).outage(0)
        Study(changes=array('q', [1, -2, 1]), over=6)
        """
        stored = array("q", bytes(8 * self.buses))
        over = calls.outage(self.table, line, stored)
        return Study(stored, over)


def encode(
    needs: Sequence[int], records: Iterable[tuple[int, int]], weights: Sequence[int]
) -> bytes:
    """The network file of buses and records, which are written in the one order that files have.

    Each record is kept, parallel circuits too. The weights follow unless all are 1. Nothing is
    judged here: that is for the proved library. A number that does not fit its place is written as
    the largest or smallest that does, which is refused for the same cause.

    >>> encode([1, 1, 1], [(2, 1), (0, 1)], [1, 1, 1]).hex(" ")
    '03 00 01 01 01 02 00 00 00 01 00 01 00 02 00'
    """

    def fitting(number: int, most: int) -> int:
        return max(0, min(operator.index(number), most))

    def words(numbers: Iterable[int]) -> bytes:
        return b"".join(struct.pack("<H", fitting(number, 65535)) for number in numbers)

    pairs = sorted((min(record), max(record)) for record in records)
    file = words([len(needs)]) + bytes(fitting(need, 255) for need in needs)
    file += words([len(pairs)]) + b"".join(words(pair) for pair in pairs)
    if any(weight != 1 for weight in weights):
        file += words([len(weights), *weights])
    return file
