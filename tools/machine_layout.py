"""Where the parts of a machine stand in a picture.

Used by tools/draw; neither proved nor part of the program.
"""
import collections
import re

from report import NotAReport, Operation

EAST, WEST, SOUTH, NORTH = (1, 0), (-1, 0), (0, 1), (0, -1)
# How many parts that are joined to none stand in a row.
ALONE = 6


def opposite(direction):
    """The other way."""
    return (-direction[0], -direction[1])


def moved(cell, direction):
    """The next cell in a direction."""
    return (cell[0] + direction[0], cell[1] + direction[1])


def ends_told_by(words):
    """The segment and the end that an operation of these words shows to be joined, or None. An end is a trap's name and
    `left` or `right`, or a junction's name and an empty word."""
    if words[0] == "split":
        return words[3], (words[1], words[2])
    if words[0] == "merge":
        return words[1], (words[2], words[3])
    if words[0] == "enter":
        return words[1], (words[2], "")
    if words[0] == "leave":
        return words[2], (words[1], "")
    return None


def joins_of(report):
    """What the operations of a report show of the ends of each segment: a list of two, one or no ends."""
    joins = {f"S{number}": [] for number in range(report.segments)}
    names = set(report.places())
    missing = 2 * report.segments
    shown = (b"split", b"merge", b"enter", b"leave")
    known = set()
    for line in report.lines():
        words = line.split()[3:]
        if not words or words[0] not in shown or tuple(words) in known:
            continue
        known.add(tuple(words))
        segment, end = ends_told_by(Operation(line).words)
        if segment not in names or end[0] not in names or len(set(joins[segment] + [end])) > 2:
            raise NotAReport(f"there is no such place: {line.decode('ascii', 'replace').strip()}")
        if end not in joins[segment]:
            joins[segment].append(end)
            missing -= 1
            if missing == 0:
                break
    return joins


def preset(name):
    """The capacities and the joins of a machine that is known by name, or None."""
    found = re.fullmatch(r"@(single|L6|G2x3)(?::([0-9]+))?", name)
    capacity = int(found and found.group(2) or 16)
    if not found or not 2 <= capacity <= 32:
        return None
    ends = []
    if found.group(1) == "L6":
        ends = [(f"T{trap}.right", f"T{trap + 1}.left") for trap in range(5)]
    elif found.group(1) == "G2x3":
        for trap, junction in ((0, 0), (1, 1), (3, 2), (4, 3)):
            ends += [(f"T{trap}.right", f"J{junction}"), (f"J{junction}", f"T{trap + 1}.left")]
        ends += [("J0", "J2"), ("J1", "J3")]
    traps = 1 if found.group(1) == "single" else 6
    return [capacity] * traps, {f"S{number}": list(map(end_of, pair)) for number, pair in enumerate(ends)}


def end_of(text):
    """An end as `T3.left` or `J0`: its part and its side."""
    part, _, side = text.partition(".")
    return part, side


def machine_in(text):
    """The capacities and the joins of a machine's file. Needs Python 3.11, which reads TOML."""
    import tomllib
    tables = tomllib.loads(text)
    joins = {f"S{number}": [end_of(segment["a"]), end_of(segment["b"])]
             for number, segment in enumerate(tables.get("segment", []))}
    return [trap["capacity"] for trap in tables["trap"]], joins


class Spot:
    """A part's cell, and for a trap the direction from its left end to its right one."""

    def __init__(self, cell, heading=EAST):
        self.cell, self.heading = cell, heading

    def side(self, port):
        """To which side an end of a trap looks."""
        return self.heading if port == "right" else opposite(self.heading)


class Layout:
    """Spots for the traps and junctions of a machine, with about so many in a row.

    Traps and junctions stand in cells of a grid, neighbours next to each other where that can be. Of two ways to lay it
    out the one with fewer bent segments is taken, then the one with fewer rows. A ring, and a line that is
    too long, is folded into rows.
    """

    def __init__(self, traps, junctions, joins, longest):
        self.joins, self.longest = joins, longest
        names = [f"T{number}" for number in range(traps)] + [f"J{number}" for number in range(junctions)]
        self.neighbours = collections.defaultdict(list)
        for ends in joins.values():
            if len(ends) == 2:
                for end, other in (ends, ends[::-1]):
                    self.neighbours[end[0]].append((end[1], other))
        ways = [self.spots_of(names, first) for first in (SOUTH, EAST)]
        self.spots = min(ways, key=lambda spots: (self.bends(spots), len({spot.cell[1] for spot in spots.values()})))
        self.fold()

    def ways_out(self, spot, name, port, other, first):
        """The directions in which a neighbour may stand, the best one first."""
        if name[0] == "T":
            return [spot.side(port)]
        if other[0][0] == "J":
            return [first, SOUTH, EAST, NORTH, WEST]
        along = EAST if other[1] == "left" else WEST
        return [along, SOUTH, NORTH, opposite(along)]

    def spots_of(self, names, first):
        """A spot for each part: those that are joined from part to part, then the others below."""
        spots, taken = {}, set()
        for root in sorted(names, key=lambda name: (not self.neighbours[name], name[0] != "T")):
            if root in spots:
                continue
            self.put(spots, taken, root, Spot(self.free_cell(taken, not self.neighbours[root])))
            waiting = collections.deque([root])
            while waiting:
                name = waiting.popleft()
                for port, other in self.neighbours[name]:
                    if other[0] not in spots:
                        ways = self.ways_out(spots[name], name, port, other, first)
                        self.put(spots, taken, other[0], self.spot_next_to(spots[name], ways, other[1], taken))
                        waiting.append(other[0])
        return spots

    @staticmethod
    def put(spots, taken, name, spot):
        """Puts a part on its spot."""
        spots[name] = spot
        taken.add(spot.cell)

    @staticmethod
    def free_cell(taken, is_alone):
        """A cell for a part that is joined to none before it: at the left below all, or, if it is joined to none at
        all, the next one in a row below."""
        if not taken:
            return (0, 0)
        lowest = max(row for _, row in taken)
        left, right = min(column for column, _ in taken), max(column for column, _ in taken)
        after = max(column for column, row in taken if row == lowest) + 1
        if is_alone and after - left <= max(right - left, ALONE - 1):
            return (after, lowest)
        return (left, lowest + 1)

    @staticmethod
    def spot_next_to(spot, ways, port, taken):
        """A free spot in one of these directions, with the port turned to it; else one below all others."""
        for way in ways:
            cell = moved(spot.cell, way)
            if cell not in taken:
                return Spot(cell, opposite(way) if port == "right" else way)
        return Spot((spot.cell[0], max(row for _, row in taken) + 1))

    def is_straight(self, ends):
        """Whether a segment between these ends is a straight line between neighbours."""
        (name, port), (other, other_port) = ends
        spot, other_spot = self.spots[name], self.spots[other]
        way = (other_spot.cell[0] - spot.cell[0], other_spot.cell[1] - spot.cell[1])
        return (way in (EAST, WEST, SOUTH, NORTH) and (name[0] == "J" or spot.side(port) == way)
                and (other[0] == "J" or other_spot.side(other_port) == opposite(way)))

    def bends(self, spots):
        """How many segments are bent if the parts stand so."""
        self.spots = spots
        return sum(len(ends) == 2 and not self.is_straight(ends) for ends in self.joins.values())

    def fold(self):
        """Folds a ring, which has one bent segment in one row, into two rows, and a long line into as many as it
        needs."""
        joined = [name for name in self.spots if self.neighbours[name]]
        if len({self.spots[name].cell[1] for name in joined}) != 1 or self.bends(self.spots) > 1:
            return
        row = sorted(joined, key=lambda name: self.spots[name].cell[0])
        rows = 2 if self.bends(self.spots) == 1 and len(row) > 2 else -(-len(row) // self.longest)
        length = -(-len(row) // rows)
        if rows == 1:
            return
        if self.bends(self.spots) == 1:
            first = row.index(next(iter(self.spots)))
            row = row[first:] + row[:first]
        for name in self.spots:
            if name not in joined:
                self.spots[name].cell = moved(self.spots[name].cell, (0, rows - 1))
        for number, name in enumerate(row):
            line, place = divmod(number, length)
            self.spots[name].cell = (place, line)
            if line % 2 == 1:
                self.spots[name].cell = (length - 1 - place, line)
                self.spots[name].heading = opposite(self.spots[name].heading)
