"""Where the buses of a network are drawn.

The same input gives the same places on every machine. For that, floats are only added, subtracted,
multiplied, divided and put under square roots, and are not added up by ``sum``, whose rounding
differs between versions of Python.
"""

from __future__ import annotations

import math
import random
from collections.abc import Callable, Sequence
from typing import NamedTuple

Place = tuple[float, float]
Line = tuple[int, int]

# The least room between circles, and the usual length of a line.
_GAP, _SPACING = 7.0, 74.0
LARGEST = 25.0
"""The radius of the largest circle."""


class Box(NamedTuple):
    """An upright rectangle."""

    left: float
    top: float
    right: float
    bottom: float


class _Island(NamedTuple):
    """Buses that hang together, and how to lay them out."""

    buses: list[int]
    lines: list[Line]  # These and the neighbours are given by places in the list of buses.
    neighbours: list[list[int]]
    radii: list[float]
    wanted: list[list[float]]  # The distances that the buses should have.
    sizes: list[float]  # The step sizes of the descent to these distances.
    passes: int  # The number of times that buses may be moved after that.
    tries: int  # The number of layouts of which the best is taken.


class _Surroundings(NamedTuple):
    """What a bus can come near to when it is moved."""

    radius: float
    ends: list[Place]  # The places of its neighbours.
    circles: list[tuple[Place, float, float]]  # With radii, and distances to be kept.
    lines: list[tuple[Place, Place, list[tuple[Place, bool]]]]  # With the sides of the ends.


def lay_out(
    pairs: Sequence[Line], radii: Sequence[float], progress: Callable[[int, int], None]
) -> list[Place]:
    """Places all buses, island by island, so that circles with these radii do not overlap.

    ``progress`` is called with the rounds that are done and with their number.

    >>> (a, b), radii = (0, 1), [10.0, 10.0]
    >>> places = lay_out([(a, b)], radii, lambda done, total: None)
    >>> distance(places[a], places[b]) > 20.0
    True
    """
    neighbours: list[list[int]] = [[] for _ in radii]
    for low, high in pairs:
        neighbours[low].append(high)
        neighbours[high].append(low)
    single = [bus for bus, near in enumerate(neighbours) if not near]
    seen = list(single)
    islands = []
    for start in range(len(radii)):
        if start not in seen:
            buses = [bus for bus, steps in enumerate(_walk(start, neighbours)) if steps >= 0]
            islands.append(_island(buses, pairs, neighbours, radii))
            seen += buses
    islands.sort(key=lambda island: -len(island.buses))
    done, total = 0, 1
    for island in islands:
        total += island.tries * (len(island.sizes) + island.passes)

    def tick() -> None:
        nonlocal done
        done += 1
        progress(done, total)

    blocks = [(island.buses, _lay_out_island(island, tick)) for island in islands]
    if single:
        cell, columns = 2.0 * LARGEST + _GAP, max(12, math.isqrt(3 * len(single)))
        rows = [(cell * (k % columns), cell * (k // columns)) for k in range(len(single))]
        blocks.append((single, rows))
    places = _pack(blocks, radii)
    tick()
    return places


def _walk(start: int, neighbours: Sequence[Sequence[int]]) -> list[int]:
    """The numbers of lines from one bus to every bus, and -1 where there is no way."""
    steps = [-1] * len(neighbours)
    steps[start] = 0
    reached = [start]
    for bus in reached:
        for other in neighbours[bus]:
            if steps[other] < 0:
                steps[other] = steps[bus] + 1
                reached.append(other)
    return steps


def _island(
    buses: list[int],
    pairs: Sequence[Line],
    neighbours: Sequence[Sequence[int]],
    radii: Sequence[float],
) -> _Island:
    """Plans the layout of an island: a star, a circle, or by the ways along lines."""
    count = len(buses)
    index = {bus: k for k, bus in enumerate(buses)}
    lines = [(index[low], index[high]) for low, high in pairs if low in index]
    near = [[index[other] for other in neighbours[bus]] for bus in buses]
    degrees = [len(ends) for ends in near]
    passes = 30 if count <= 200 else 12
    if count > 4 and len(lines) == max(degrees):
        wanted, passes = _circle(count, degrees.index(count - 1)), 0
    elif count > 4 and 4 * len(lines) > count * (count - 1):
        wanted, passes = _circle(count, -1), 0
    else:
        wanted = [[float(steps) for steps in _walk(bus, near)] for bus in range(count)]
        # Let an island that would become very large grow less than its ways do.
        if max(max(row) for row in wanted) > (20.0 if 4 * len(lines) > 5 * count else 100.0):
            wanted = [[math.sqrt(way * math.sqrt(way)) for way in row] for row in wanted]
    farthest = max(max(row) for row in wanted)
    if len(lines) > 3 * count or (count > 60 and count > 4.0 * farthest * farthest):
        passes = 0
    sizes = [farthest * farthest]
    while sizes[-1] > 0.05:
        sizes.append(sizes[-1] * (0.8 if count <= 200 else 0.7))
    tries = 4 if count <= 60 else 2 if count <= 130 else 1
    return _Island(buses, lines, near, [radii[k] for k in buses], wanted, sizes, passes, tries)


def _circle(count: int, hub: int) -> list[list[float]]:
    """The distances of buses in a circle, or around one of them if that is not -1."""
    ring = [bus for bus in range(count) if bus != hub]
    unit = 1.0 if hub < 0 else max(0.6, 6.28 / len(ring))
    wanted = [[unit * len(ring) / 6.28] * count for _ in range(count)]
    for k, a in enumerate(ring):
        for other, b in enumerate(ring):
            wanted[a][b] = unit * min(abs(k - other), len(ring) - abs(k - other))
    return wanted


def _lay_out_island(island: _Island, tick: Callable[[], None]) -> list[Place]:
    """Takes, out of a few layouts, the one that is least tangled."""
    best: list[Place] = []
    least = math.inf
    for seed in range(island.tries):
        rng = random.Random(seed)
        places = _stretch(_descend(island, rng, tick), island)
        _untangle(island, places, rng, tick)
        places = _push_apart(places, island.radii)
        tangle = _tangle(island, places) if island.tries > 1 else 0.0
        if tangle < least:
            best, least = places, tangle
    return _turn(best)


def _descend(island: _Island, rng: random.Random, tick: Callable[[], None]) -> list[Place]:
    """Gives the buses about the distances that they should have (Zheng and others, 2018)."""
    x = [rng.random() for _ in island.buses]
    y = [rng.random() for _ in island.buses]
    terms = []
    for i, row in enumerate(island.wanted):
        terms += [(i, j, row[j]) for j in range(i)]
    for size in island.sizes:
        for last in range(len(terms) - 1, 0, -1):
            other = int(rng.random() * (last + 1))
            terms[last], terms[other] = terms[other], terms[last]
        for i, j, wanted in terms:
            across, down = x[i] - x[j], y[i] - y[j]
            far = math.sqrt(across * across + down * down) + 1e-9
            part = size / (wanted * wanted)
            move = (far - wanted) / far * (0.5 if part > 1.0 else 0.5 * part)
            across *= move
            down *= move
            x[i] -= across
            y[i] -= down
            x[j] += across
            y[j] += down
        tick()
    return list(zip(x, y))


def _stretch(places: list[Place], island: _Island) -> list[Place]:
    """Enlarges a layout so that the lines are long enough and the circles have room."""
    left, top, right, bottom = box_around(circle_boxes(places, [0.25] * len(places)))
    room = 0.0
    for radius in island.radii:
        room += (2.0 * radius + _GAP) * (2.0 * radius + _GAP)
    scale = max(_SPACING, math.sqrt(2.0 * room / ((right - left) * (bottom - top))))
    for bus, near in enumerate(island.neighbours):
        around = reach = 0.0
        for other in near:
            around += 2.0 * (island.radii[other] + _GAP)
            reach += 6.0 * distance(places[bus], places[other])
        scale = max(scale, around * len(near) / reach)
    return [(x * scale, y * scale) for x, y in places]


def _untangle(
    island: _Island, places: list[Place], rng: random.Random, tick: Callable[[], None]
) -> None:
    """Moves single buses to where they cause less trouble, and at first sometimes a bit more."""
    for k in range(island.passes):
        patience = 2.0 - 2.0 * (k + 1) / island.passes
        for bus, ends in enumerate(island.neighbours):
            around = _surroundings(bus, island, places)
            now = _trouble(places[bus], around, math.inf)
            if now < 0.3:
                continue
            middle = _middle([places[end] for end in ends])
            for near, reach in ((middle, 1.5), (places[bus], 0.8), (middle, 1.5)):
                x = near[0] + (2.0 * rng.random() - 1.0) * reach * _SPACING
                y = near[1] + (2.0 * rng.random() - 1.0) * reach * _SPACING
                limit = now + patience * rng.random()
                then = _trouble((x, y), around, limit)
                if then < limit:
                    now, places[bus] = then, (x, y)
        tick()


def _surroundings(bus: int, island: _Island, places: Sequence[Place]) -> _Surroundings:
    """The buses and lines near the places that a bus may be moved to."""
    ends = [places[end] for end in island.neighbours[bus]]
    corners = ends + [places[bus]]
    box = box_around(circle_boxes(corners, [1.5 * _SPACING + LARGEST] * len(corners)))
    buses, near = within(box, places, island.lines)
    circles = []
    for other in buses:
        if other != bus:
            need = island.radii[bus] + island.radii[other] + 2.0 * _GAP
            need += 2.0 * _GAP if places[other] in ends else 0.0
            circles.append((places[other], island.radii[other], need))
    lines = []
    for low, high in near:
        if bus not in (low, high):
            a, b = places[low], places[high]
            lines.append((a, b, [(end, _left(a, b, end)) for end in ends if end not in (a, b)]))
    return _Surroundings(island.radii[bus], ends, circles, lines)


def within(
    box: Box, places: Sequence[Place], lines: Sequence[Line]
) -> tuple[list[int], list[Line]]:
    """The buses in a box, and the lines that may pass it.

    >>> within(Box(0.0, 0.0, 2.0, 2.0), [(1.0, 1.0), (5.0, 1.0), (5.0, 9.0)], [(0, 1), (1, 2)])
    ([0], [(0, 1)])
    """
    left, top, right, bottom = box
    buses = [k for k, (x, y) in enumerate(places) if left < x < right and top < y < bottom]
    near = []
    for line in lines:
        (ax, ay), (bx, by) = places[line[0]], places[line[1]]
        if (ax > left or bx > left) and (ax < right or bx < right):
            if (ay > top or by > top) and (ay < bottom or by < bottom):
                near.append(line)
    return buses, near


def _trouble(at: Place, around: _Surroundings, limit: float) -> float:
    """How bad a place is for a bus; the count stops when it comes to the limit."""
    trouble = 0.0
    for end in around.ends:
        excess = distance(at, end) / _SPACING - 1.0
        trouble += 0.15 * excess * excess
    for place, _, need in around.circles:
        if abs(at[0] - place[0]) < need:
            trouble += 3.0 * max(0.0, 1.0 - distance(at, place) / need)
    for a, b, ends in around.lines:
        if trouble >= limit:
            return trouble
        trouble += _on_line(at, around.radius, a, b)
        left = _left(a, b, at)
        for end, side in ends:
            if side != left and _left(at, end, a) != _left(at, end, b):
                trouble += 1.0
    for end in around.ends:
        if trouble >= limit:
            return trouble
        for place, radius, _ in around.circles:
            if place != end:
                trouble += _on_line(place, radius, at, end)
    return trouble


def _on_line(at: Place, radius: float, a: Place, b: Place) -> float:
    """How bad the place of a circle is for a line that does not end in it."""
    need = radius + _GAP
    (x, y), (ax, ay), (bx, by) = at, a, b
    if (x > ax + need and x > bx + need) or (x < ax - need and x < bx - need):
        return 0.0
    if (y > ay + need and y > by + need) or (y < ay - need and y < by - need):
        return 0.0
    across, down = bx - ax, by - ay
    part = ((x - ax) * across + (y - ay) * down) / (across * across + down * down + 1e-9)
    part = min(max(part, 0.0), 1.0)
    return 3.0 * max(0.0, 1.0 - distance(at, (ax + part * across, ay + part * down)) / need)


def distance(a: Place, b: Place) -> float:
    """The distance of two places.

    >>> distance((0.0, 0.0), (3.0, 4.0))
    5.0
    """
    return math.sqrt((a[0] - b[0]) * (a[0] - b[0]) + (a[1] - b[1]) * (a[1] - b[1]))


def _left(a: Place, b: Place, p: Place) -> bool:
    """Whether p is on a certain one of the two sides of the line from a to b."""
    return (b[0] - a[0]) * (p[1] - a[1]) > (b[1] - a[1]) * (p[0] - a[0])


def crosses(a: Place, b: Place, p: Place, q: Place) -> bool:
    """Whether the line from a to b crosses the line from p to q.

    >>> crosses((0.0, 0.0), (2.0, 2.0), (0.0, 2.0), (2.0, 0.0))
    True
    """
    return _left(a, b, p) != _left(a, b, q) and _left(p, q, a) != _left(p, q, b)


def _tangle(island: _Island, places: Sequence[Place]) -> float:
    """What is bad about a layout: crossings, and circles on lines that do not end in them."""
    tangle = 0.0
    for k, (a, b) in enumerate(island.lines):
        for p, q in island.lines[:k]:
            if a not in (p, q) and b not in (p, q):
                tangle += crosses(places[a], places[b], places[p], places[q])
        for bus, radius in enumerate(island.radii):
            if bus not in (a, b):
                tangle += _on_line(places[bus], radius, places[a], places[b])
    return tangle


def _push_apart(places: list[Place], radii: Sequence[float]) -> list[Place]:
    """Moves circles away from each other until all have room."""
    for _ in range(500):
        tight = False
        for i in range(len(places)):
            for j in range(i):
                (ax, ay), (bx, by) = places[i], places[j]
                need = radii[i] + radii[j] + _GAP
                if abs(ax - bx) < need and abs(ay - by) < need:
                    far = distance(places[i], places[j]) + 1e-9
                    if far < need:
                        tight = True
                        part = 0.5 * (need + 0.1 - far) / far
                        places[i] = ax + part * (ax - bx), ay + part * (ay - by)
                        places[j] = bx - part * (ax - bx), by - part * (ay - by)
        if not tight:
            break
        places = [(1.005 * x, 1.005 * y) for x, y in places]
    return places


def _middle(places: Sequence[Place]) -> Place:
    """The centre of gravity of some places."""
    x = y = 0.0
    for place in places:
        x += place[0]
        y += place[1]
    return x / len(places), y / len(places)


def _turn(places: list[Place]) -> list[Place]:
    """Turns a layout so that it is wide and its first bus is in the upper left."""
    centre = _middle(places)
    centred = [(x - centre[0], y - centre[1]) for x, y in places]
    half = mixed = 0.0
    for x, y in centred:
        half += 0.5 * (x * x - y * y)
        mixed += x * y
    across = half + math.sqrt(half * half + mixed * mixed) + 1e-9
    size = math.sqrt(across * across + mixed * mixed)
    c, s = across / size, mixed / size
    turned = [(c * x + s * y, c * y - s * x) for x, y in centred]
    flip, lift = (-1.0 if part > 0.0 else 1.0 for part in turned[0])
    return [(flip * x, lift * y) for x, y in turned]


def _pack(
    blocks: Sequence[tuple[Sequence[int], Sequence[Place]]], radii: Sequence[float]
) -> list[Place]:
    """Puts the islands side by side in rows."""
    boxes = [
        box_around(circle_boxes(places, [radii[bus] for bus in buses])) for buses, places in blocks
    ]
    area = widest = 0.0
    for left, top, right, bottom in boxes:
        area += (right - left + _SPACING) * (bottom - top + _SPACING)
        widest = max(widest, right - left)
    result = [(0.0, 0.0)] * len(radii)
    x = y = height = 0.0
    for (buses, places), (left, top, right, bottom) in zip(blocks, boxes):
        if x > 0.0 and x + right - left > max(widest, math.sqrt(1.6 * area)):
            x, y, height = 0.0, y + height, 0.0
        for bus, place in zip(buses, places):
            result[bus] = place[0] - left + x, place[1] - top + y
        x += right - left + 0.6 * _SPACING
        height = max(height, bottom - top + 0.6 * _SPACING)
    return result


def circle_boxes(places: Sequence[Place], radii: Sequence[float]) -> list[Box]:
    """The boxes of circles.

    >>> circle_boxes([(5.0, 5.0)], [2.0])
    [Box(left=3.0, top=3.0, right=7.0, bottom=7.0)]
    """
    return [Box(x - r, y - r, x + r, y + r) for (x, y), r in zip(places, radii)]


def box_around(boxes: Sequence[Box]) -> Box:
    """The box around all boxes.

    >>> box_around(circle_boxes([(0.0, 0.0), (9.0, 1.0)], [1.0, 1.0]))
    Box(left=-1.0, top=-1.0, right=10.0, bottom=2.0)
    """
    left, top = min(box.left for box in boxes), min(box.top for box in boxes)
    return Box(left, top, max(box.right for box in boxes), max(box.bottom for box in boxes))
