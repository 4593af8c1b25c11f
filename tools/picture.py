"""Pictures of a machine and of a run on it, as SVG.

Used by tools/draw; neither proved nor part of the program.
"""
import html

# The colour of each kind of operation, and of the letters on it; and the name in the legend.
COLOURS = {"gate1": ("#a6cbec", "#10304d"), "gate2": ("#2f6db3", "#ffffff"), "measure": ("#7b52ab", "#ffffff"),
           "reset": ("#c9b3e0", "#2d1745"), "fence": ("#333333", "#ffffff"), "split": ("#f08c2e", "#3d2000"),
           "merge": ("#f5c04a", "#3d2c00"), "move": ("#58b368", "#06290d"), "enter": ("#1f9e94", "#ffffff"),
           "leave": ("#7fd0c4", "#06332e"), "rot": ("#d4545f", "#ffffff"), "gswap": ("#9c6b4a", "#ffffff")}
NAMES = {"gate1": "gate", "gate2": "gate on two", "fence": "barrier", "enter": "enter", "leave": "leave"}
FONT = "font-family:'DejaVu Sans',Verdana,Arial,sans-serif"
STYLE = f"""
text {{ {FONT}; font-size:11px; fill:#333 }}
.title {{ font-size:15px; font-weight:bold; fill:#111 }}
.head {{ font-size:12px; font-weight:bold; fill:#444 }}
.faint {{ fill:#777 }}
.small {{ font-size:9px }}
.mid {{ text-anchor:middle }}
.right {{ text-anchor:end }}
.halo {{ paint-order:stroke; stroke:#fff; stroke-width:4px }}
.wire {{ fill:none; stroke:#b8bec6; stroke-width:5; stroke-linecap:round }}
.trap {{ fill:#f3f6fa; stroke:#7c8896; stroke-width:1.5 }}
.junction {{ fill:#fff; stroke:#7c8896; stroke-width:1.5 }}
.ion {{ fill:#fff; stroke:#2f6db3; stroke-width:1.5 }}
.slot {{ fill:none; stroke:#c3cad3; stroke-width:1; stroke-dasharray:2 2 }}
.o:hover rect {{ stroke:#000; stroke-width:1.5 }}
.o text {{ pointer-events:none }}
"""

ION = 9          # the radius of an ion
PITCH = 21       # from ion to ion in a chain
ZIGZAG = 12      # the same in a long chain, which is drawn in zigzag
LONG = 8         # the most ions that are drawn in a straight chain
GAP = 58         # between two columns of parts
LINE_GAP = 44    # between two rows of parts
BENT_GAP = 150   # twice what is free beside all parts, where segments are bent


def escaped(text):
    """The text as it may stand in SVG."""
    return html.escape(str(text), quote=True)


def grouped(number):
    """A number with a comma for each thousand."""
    return f"{number:,}"


def text_at(x, y, text, names="", more=""):
    """A text at a place."""
    return f'<text x="{x:.1f}" y="{y:.1f}" class="{names}"{more}>{escaped(text)}</text>'


def trap_size(room, is_long):
    """The length and the height of a trap for so many ions, in a straight chain or a long one."""
    if is_long:
        return (max(room, 3) * ZIGZAG + 20, 44)
    return (max(room, 2) * PITCH + 10, 30)


class MachinePicture:
    """A machine: traps with the ions in them, segments and junctions.

    held: the ions that each place holds, each with the number that is drawn and what it says, a trap's from its left
    end to its right one; rooms: for how many ions each trap is drawn; is_known: whether that is how many it can hold.
    """

    def __init__(self, layout, held, rooms, is_known):
        self.layout, self.held, self.rooms, self.is_known = layout, held, rooms, is_known
        self.parts, self.ions, self.heights = [], [], []
        self.are_long = max(rooms) > LONG
        self.lay_out()

    def size_of(self, name):
        """The width and the height of a part."""
        if name[0] == "J":
            return (30, 30)
        long, high = trap_size(self.rooms[int(name[1:])], self.are_long)
        return (long, high) if self.layout.spots[name].heading[1] == 0 else (high, long)

    def lay_out(self):
        """Finds the middle of each part, and the size of all."""
        spots = self.layout.spots
        self.columns, self.lines = {}, {}
        for name, spot in spots.items():
            wide, high = self.size_of(name)
            self.columns[spot.cell[0]] = max(self.columns.get(spot.cell[0], 0), wide)
            self.lines[spot.cell[1]] = max(self.lines.get(spot.cell[1], 0), high)
        sides = BENT_GAP if self.layout.bends(spots) else GAP
        self.middle_x, self.width = self.middles(self.columns, GAP, sides)
        self.middle_y, self.height = self.middles(self.lines, LINE_GAP, LINE_GAP)

    @staticmethod
    def middles(sizes, gap, sides):
        """The middle of each column (or row) of these sizes, and the size of all."""
        middles, at = {}, sides / 2
        for number in sorted(sizes):
            middles[number] = at + sizes[number] / 2
            at += sizes[number] + gap
        return middles, at - gap + sides / 2

    def middle(self, name):
        """The middle of a part."""
        column, line = self.layout.spots[name].cell
        return self.middle_x[column], self.middle_y[line]

    def way_of(self, end, other):
        """The direction in which a segment leaves an end, towards another."""
        name, port = end
        if name[0] == "T":
            return self.layout.spots[name].side(port)
        (x, y), (to_x, to_y) = self.middle(name), self.middle(other[0])
        if other[0][0] == "T" and not self.layout.is_straight((end, other)):
            return self.layout.spots[other[0]].side(other[1])
        if abs(to_x - x) >= abs(to_y - y):
            return (1 if to_x > x else -1, 0)
        return (0, 1 if to_y > y else -1)

    def port(self, name, way):
        """The point at which a segment leaves a part in a direction."""
        x, y = self.middle(name)
        wide, high = self.size_of(name)
        return x + way[0] * wide / 2, y + way[1] * high / 2

    def add_segment(self, name, ends, nth):
        """Draws a segment; the nth of several between the same parts is bent aside."""
        ways = self.way_of(ends[0], ends[1]), self.way_of(ends[1], ends[0])
        (x, y), (to_x, to_y) = (self.port(end[0], way) for end, way in zip(ends, ways))
        if self.layout.is_straight(ends):
            aside = (-40 * nth * (ways[0][1] != 0), -40 * nth * (ways[0][0] != 0))
            reach = 0.4 * (abs(to_x - x) + abs(to_y - y))
        else:
            aside, reach = (0, 0), 46 + 0.1 * (abs(to_x - x) + abs(to_y - y))
        bends = [(point[0] + way[0] * reach + aside[0], point[1] + way[1] * reach + aside[1])
                 for point, way in (((x, y), ways[0]), ((to_x, to_y), ways[1]))]
        curve = " ".join(f"{bend[0]:.1f} {bend[1]:.1f}" for bend in bends + [(to_x, to_y)])
        self.parts.append(f'<path class="wire" d="M{x:.1f} {y:.1f} C{curve}"/>')
        middle = [(a + 3 * b + 3 * c + d) / 8 for a, b, c, d in zip((x, y), bends[0], bends[1], (to_x, to_y))]
        for t in (0.25, 0.5, 0.75):
            sides = (1 - t) ** 3 * y + t ** 3 * to_y
            self.heights.append(sides + 3 * t * (1 - t) * ((1 - t) * bends[0][1] + t * bends[1][1]))
        for ion in self.held.get(name, []):
            self.add_ion(middle, ion)
        room = ION + 3 if self.held.get(name) else 6
        if ways[0][0] != 0 and abs(y - to_y) < 1:
            self.parts.append(text_at(middle[0], middle[1] - room - 2, name, "mid faint halo"))
        else:
            self.parts.append(text_at(middle[0] + room + 3, middle[1] + 4, name, "faint halo"))

    def add_stub(self, name, end):
        """Draws a segment of which only one end is known."""
        if end[0][0] != "T":
            return
        way = self.layout.spots[end[0]].side(end[1])
        x, y = self.port(end[0], way)
        self.parts.append(f'<path class="wire" stroke-dasharray="1 9" d="M{x:.1f} {y:.1f} '
                          f'l{way[0] * 24} {way[1] * 24}"/>')
        self.parts.append(text_at(x + way[0] * 16, y + way[1] * 16 - 8, name, "mid faint halo"))

    def add_trap(self, number):
        """Draws a trap with its chain."""
        name = f"T{number}"
        (x, y), (wide, high) = self.middle(name), self.size_of(name)
        self.parts.append(f'<rect class="trap" x="{x - wide / 2:.1f}" y="{y - high / 2:.1f}" width="{wide}" '
                          f'height="{high}" rx="15"/>')
        if self.layout.spots[name].heading[1] == 0:
            self.parts.append(text_at(x, y - high / 2 - 6, name, "mid head halo"))
        else:
            self.parts.append(text_at(x + wide / 2 + 6, y + 4, name, "head halo"))
        chain, room = self.held.get(name, []), self.rooms[number]
        places = room if self.is_known else len(chain)
        for place in range(places):
            at = self.spot_of_ion(name, place, places)
            if place < len(chain):
                self.add_ion(at, chain[place])
            else:
                self.parts.append(f'<circle class="slot" cx="{at[0]:.1f}" cy="{at[1]:.1f}" r="{ION - 2}"/>')

    def spot_of_ion(self, name, place, places):
        """Where the ion at a position stands, in a trap that is drawn with so many."""
        (x, y), way = self.middle(name), self.layout.spots[name].heading
        along = (place - (places - 1) / 2) * (ZIGZAG if self.are_long else PITCH)
        aside = (7 if place % 2 else -7) * self.are_long
        return (x + along * way[0] + aside * abs(way[1]), y + along * way[1] + aside * abs(way[0]))

    def add_ion(self, at, ion):
        """Draws an ion at a point."""
        names = "mid small" if ion[0] > 99 else "mid"
        self.ions.append(f'<g><title>{escaped(ion[1])}</title><circle class="ion" cx="{at[0]:.1f}" cy="{at[1]:.1f}" '
                         f'r="{ION}"/>{text_at(at[0], at[1] + 4 - (ion[0] > 99), ion[0], names)}</g>')

    def add_junction(self, name):
        """Draws a junction."""
        x, y = self.middle(name)
        self.parts.append(f'<circle class="junction" cx="{x:.1f}" cy="{y:.1f}" r="15"/>')
        self.parts.append(text_at(x, y + 4, name, "mid"))
        for ion in self.held.get(name, []):
            self.add_ion((x + 13, y + 13), ion)

    def drawn(self):
        """The picture's lines of SVG."""
        between = {}
        for name, ends in self.layout.joins.items():
            if len(ends) == 2:
                pair = frozenset(end[0] for end in ends)
                between[pair] = between.get(pair, -1) + 1
                self.add_segment(name, ends, between[pair])
            elif ends:
                self.add_stub(name, ends[0])
        for name in self.layout.spots:
            if name[0] == "T":
                self.add_trap(int(name[1:]))
            else:
                self.add_junction(name)
        return self.with_room_for_bends(self.parts + self.ions)

    def with_room_for_bends(self, parts):
        """The lines of SVG, moved down if segments are bent above all parts; the height grows by what they need."""
        up = max([0] + [10 - height for height in self.heights])
        down = max([0] + [height + 16 - self.height for height in self.heights])
        self.height += up + down
        return moved_by(parts, 0, up) if up > 0 else parts


def step_of_axis(time, marks):
    """The least round step that divides the time into no more marks than these."""
    power = 1
    while True:
        for step in (1, 2, 5):
            if time <= step * power * marks:
                return step * power
        power *= 10


class RunPicture:
    """A run over time: a row for each place, a bar for each operation in each row that it touches."""

    LEFT, RIGHT, ROW, BAR = 46, 128, 24, 18

    def __init__(self, width, first, last, places, rests):
        self.first, self.last, self.rests = first, last, rests
        self.hottest = max([rest.heat for rest in rests], default=0)
        self.scale = (width - self.LEFT - self.RIGHT) / (last - first)
        self.top = 24
        self.tops, at = {}, self.top
        for before, place in zip([""] + places, places):
            at += 8 if before and before[0] != place[0] else 0
            self.tops[place] = at
            at += self.ROW
        self.bottom = at
        self.height = at + 4
        self.parts = []
        self.add_grid()

    def x_of(self, time):
        """Where a time stands."""
        return self.LEFT + (min(max(time, self.first), self.last) - self.first) * self.scale

    def add_grid(self):
        """Draws the rows, the times and what is hot at the end."""
        end = self.x_of(self.last)
        for place, top in self.tops.items():
            self.parts.append(f'<rect x="{self.LEFT}" y="{top}" width="{end - self.LEFT:.1f}" height="{self.ROW - 2}" '
                              f'fill="{"#f3f6fa" if place[0] == "T" else "#f8f8f8"}"/>')
            self.parts.append(text_at(self.LEFT - 8, top + 15, place, "right" + (" head" if place[0] == "T" else "")))
        step = step_of_axis(self.last - self.first, 12)
        for time in range(-(-self.first // step) * step, self.last + 1, step):
            x = self.x_of(time)
            self.parts.append(f'<path d="M{x:.1f} {self.top - 5}V{self.bottom}" stroke="#d5dae0"/>')
            self.parts.append(text_at(x, self.top - 9, grouped(time), "mid faint"))
        self.parts.append(text_at(0, self.top - 9, "\u00b5s", "faint"))
        self.parts.append(text_at(end + self.RIGHT, self.top - 9, "final heat", "right faint"))
        for rest in self.rests:
            if rest.place in self.tops and (rest.heat or rest.place[0] == "T"):
                self.add_heat(rest, end + 10)

    def add_heat(self, rest, x):
        """Draws the heat of a place at the end."""
        top = self.tops[rest.place]
        long = 56 * rest.heat / self.hottest if self.hottest else 0
        ions = ", ".join(f"ion {ion} with qubit {qubit}" for ion, qubit in rest.ions) or "no ions"
        self.parts.append(f'<g><title>{escaped(rest.place)} at the end: heat {rest.heat}; {ions}</title>'
                          f'<rect x="{x:.1f}" y="{top + 5}" width="{long:.1f}" height="{self.BAR - 6}" fill="#e0603c"/>'
                          f'{text_at(x + long + 4, top + 15, grouped(rest.heat))}</g>')

    def add(self, operation, labels, more):
        """Draws an operation's bars, with the first of the labels for which they have room, and with more in words."""
        x, end = self.x_of(operation.start), self.x_of(operation.finish)
        long = max(end - x, 1.2)
        colour, ink = COLOURS[operation.kind]
        title = f"{operation}\n{grouped(operation.finish - operation.start)} \u00b5s{more}"
        label = next((label for label in labels if len(label) * 6.6 + 5 < long), "")
        names = "mid" if label else "mid small"
        label = label or next((label for label in labels if len(label) * 5.4 + 3 < long), "")
        bars = [f'<g class="o"><title>{escaped(title)}</title>']
        for place in operation.places:
            if place in self.tops:
                top = self.tops[place] + (self.ROW - 2 - self.BAR) / 2
                bars.append(f'<rect x="{x:.2f}" y="{top:.1f}" width="{max(long - 0.6, 1):.2f}" height="{self.BAR}" '
                            f'rx="{min(3, long / 4):.1f}" fill="{colour}"/>')
                if label:
                    bars.append(text_at(x + long / 2, top + 13, label, names, f' style="fill:{ink}"'))
        self.parts.append("".join(bars) + "</g>")


def legend(kinds, width):
    """What the colours mean, with how many operations there are of each; and the height."""
    parts, x, y = [], 46, 14
    for kind in COLOURS:
        if kind not in kinds:
            continue
        label = f"{NAMES.get(kind, kind)} {grouped(kinds[kind])}"
        if x + 30 + len(label) * 6.5 > width:
            x, y = 46, y + 20
        parts.append(f'<rect x="{x:.1f}" y="{y - 10}" width="14" height="12" rx="2" fill="{COLOURS[kind][0]}"/>')
        parts.append(text_at(x + 20, y, label))
        x += 44 + len(label) * 6.5
    return parts, y + 12


def moved_by(parts, x, y, scale=1):
    """Parts of a picture at another place."""
    return [f'<g transform="translate({x:.1f} {y:.1f}) scale({scale:.3f})">'] + parts + ["</g>"]


def document(parts, width, height, title):
    """A whole SVG file."""
    head = [f'<svg xmlns="http://www.w3.org/2000/svg" width="{width:.0f}" height="{height:.0f}" '
            f'viewBox="0 0 {width:.0f} {height:.0f}" role="img">', f"<title>{escaped(title)}</title>",
            f"<style>{STYLE}</style>", '<rect width="100%" height="100%" fill="#fff"/>']
    return "\n".join(head + parts + ["</svg>", ""])
