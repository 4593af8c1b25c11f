"""Reports of `qccd run` and `qccd exec`, read as streams, and what tools on reports have in common.

Used by tools/csv, tools/timeline and tools/draw; neither proved nor part of the program.

A report in a file is never held in memory, so that one of millions of operations can be read. One from a pipe is.
"""
import io
import os
import re
import sys

# The kinds of operations, as the line `counts` of a report names them.
KINDS = ["split", "merge", "move", "enter", "leave", "rot", "gswap", "gate1", "gate2", "measure", "reset", "fence"]
# The line of an operation, as every report has it.
LINE = re.compile(rb"""(\d+)[ ](\d+)[ ](\d+)[ ]
    ( split[ ]T\d+[ ](?:left|right)[ ]S\d+ | move[ ]S\d+ | enter[ ]S\d+[ ]J\d+ | leave[ ]J\d+[ ]S\d+
    | merge[ ]S\d+[ ]T\d+[ ](?:left|right) | rot[ ]T\d+[ ]\d+ | gswap[ ]T\d+[ ]\d+[ ]\d+
    | item[ ]\d+[ ][!-~]+[ ]T\d+(?:[ ]q\d+@\d+){1,2}(?:[ ]b\d+)? | fence[ ]\d+(?:[ ]T\d+)+(?:[ ]q\d+)+ )\s*""",
    re.VERBOSE)
# The last lines of a report, from the first `end` on, never have more bytes than this, nor has any other line.
TAIL = 1 << 16
HEAD = b"QCCD report 1\n"


class CannotRead(Exception):
    """A file that can't be read, by its name."""


class NotAReport(Exception):
    """A text that is no report, and where that was seen."""


class WrongWords(Exception):
    """The words of the command line have no reading."""


class Operation:
    """One operation of a run: its number, start and finish, and the words that say what it does."""

    __slots__ = ("number", "start", "finish", "words")

    def __init__(self, line):
        found = LINE.fullmatch(line)
        if not found:
            raise NotAReport(f"no operation: {line.decode('ascii', 'replace').strip()}")
        self.number, self.start, self.finish = int(found[1]), int(found[2]), int(found[3])
        self.words = found[4].decode("ascii").split(" ")

    def __str__(self):
        return " ".join([str(self.number), str(self.start), str(self.finish)] + self.words)

    @property
    def kind(self):
        """Its kind, one of KINDS."""
        if self.words[0] != "item":
            return self.words[0]
        if self.words[2] in ("measure", "reset"):
            return self.words[2]
        return "gate2" if self.words[-2][0] == "q" else "gate1"

    @property
    def item(self):
        """The number of the circuit's item that it does, or None."""
        return int(self.words[1]) if self.words[0] in ("item", "fence") else None

    @property
    def gate(self):
        """What the item is, with its angles, or None."""
        if self.words[0] == "fence":
            return "barrier"
        return self.words[2] if self.words[0] == "item" else None

    @property
    def qubits(self):
        """The numbers of the item's qubits."""
        words = self.words[4:] if self.words[0] == "item" else self.words[2:] if self.words[0] == "fence" else []
        return [int(word[1:].split("@")[0]) for word in words if word[0] == "q"]

    @property
    def places(self):
        """The traps, segments and junctions that it touches, as `T0`, `S0` or `J0`."""
        if self.words[0] == "item":
            return [self.words[3]]
        return [word for word in self.words[1:] if word[0] in "TSJ"]


class Rest:
    """What a place holds at the end of a run: its heat, and its ions with the qubits that they carry. A segment's
    ion also has the end at which it stands, `a` or `b`."""

    def __init__(self, words):
        self.place = words[1]
        self.end = words[2] if words[2] != "heat" else None
        self.heat = int(words[words.index("heat") + 1])
        pairs = words[words.index("heat") + 2:]
        self.ions = [tuple(int(number) for number in pair.replace("q", "").split(":")) for pair in pairs]


class Report:
    """A report: what stands at its head and at its end, and its operations one after another.

    qubits, bits, traps, segments, junctions: how many there are
    starts: the ions of each trap before the first operation, from left to right; ion 3 carries qubit 3
    total: how many operations there are
    rests: what each trap, and each ion outside the traps, is like at the end
    counts: how many operations there are of each kind
    finish: when the last one ends, in microseconds
    """

    def __init__(self, file):
        """Reads the head and the end of a binary file that can be sought in."""
        self.file = file
        try:
            self.read_head()
            self.read_end()
        except (ValueError, IndexError, KeyError):
            raise NotAReport("not a report") from None

    def next_words(self, first):
        """The words of the next line, which begins with these."""
        words = self.file.readline(TAIL).decode("ascii", "replace").split()
        if words[:len(first)] != first:
            raise NotAReport(f"not a report: no line `{' '.join(first)}`")
        return words[len(first):]

    def read_head(self):
        """Reads what stands before the operations, and keeps where they begin."""
        self.next_words(["QCCD", "report", "1"])
        sizes = ["qubits"] + self.next_words(["qubits"])
        numbers = dict(zip(sizes[::2], map(int, sizes[1::2])))
        self.qubits, self.bits = numbers["qubits"], numbers["bits"]
        self.traps, self.segments, self.junctions = numbers["traps"], numbers["segments"], numbers["junctions"]
        if self.traps > 32 or self.segments > 128 or self.junctions > 64:
            raise ValueError
        self.starts = [[int(word) for word in self.next_words(["start", f"T{trap}"])] for trap in range(self.traps)]
        self.total = int(self.next_words(["ops"])[0])
        self.first = self.file.tell()

    def read_end(self):
        """Reads what stands behind the operations."""
        size = self.file.seek(0, os.SEEK_END)
        self.file.seek(max(self.first, size - TAIL))
        self.rests, self.counts, self.finish = [], {}, None
        for line in self.file:
            words = line.decode("ascii", "replace").split()
            if words[:1] == ["end"]:
                self.rests.append(Rest(words))
            elif words[:1] == ["counts"]:
                self.counts = dict(zip(words[1::2], map(int, words[2::2])))
            elif words[:1] == ["finish"]:
                self.finish = int(words[1])
        if self.finish is None:
            raise NotAReport("not a whole report: no line `finish`")

    def lines(self):
        """The lines of the operations, one after another, from the first."""
        self.file.seek(self.first)
        for _ in range(self.total):
            yield self.file.readline(TAIL)

    def operations(self):
        """The operations, by start and then by number."""
        return map(Operation, self.lines())

    def operations_within(self, first, last):
        """The operations of which some part is between these two times, in their order; one that takes no time
        counts where it stands."""
        for line in self.lines():
            try:
                start, finish = (int(word) for word in line.split(None, 3)[1:3])
            except ValueError:
                raise NotAReport(f"no operation: {line.decode('ascii', 'replace').strip()}") from None
            if start > last:
                return
            if (start < last and finish > first) or first <= start == finish:
                yield Operation(line)

    def places(self):
        """The names of all traps, segments and junctions."""
        sizes = [("T", self.traps), ("S", self.segments), ("J", self.junctions)]
        return [letter + str(number) for letter, size in sizes for number in range(size)]


def held(pipe):
    """What comes out of a pipe; only the beginning if that is no report's, since such a text may never end."""
    text = pipe.read(len(HEAD))
    return text + pipe.read() if text == HEAD else text


def open_report(name):
    """The report in a file of this name; `-` is standard input."""
    try:
        file = sys.stdin.buffer if name == "-" else open(name, "rb")
        if not file.seekable():
            file = io.BytesIO(held(file))
    except OSError:
        raise CannotRead(name) from None
    return Report(file)


def take_options(words, values, flags=()):
    """Splits words into the options that take a value, those that don't, and the rest: a dictionary and a list."""
    found, names = {}, []
    rest = iter(words)
    for word in rest:
        if word in values:
            found[word] = next(rest, None)
            if found[word] is None:
                raise WrongWords
        elif word in flags:
            found[word] = True
        elif word.startswith("-") and word != "-":
            raise WrongWords
        else:
            names.append(word)
    return found, names


def number_of(text, least=0):
    """The number that a word spells, if it is not below the least one."""
    if not re.fullmatch(r"[0-9]{1,15}", text) or int(text) < least:
        raise WrongWords
    return int(text)


def window_of(options, report):
    """The times that --from and --to ask for; without them, the whole run."""
    first = number_of(options.get("--from", "0"))
    last = number_of(options["--to"]) if "--to" in options else max(report.finish, first + 1)
    if last <= first:
        raise WrongWords
    return first, last


def write_no_more():
    """What is still to be written to standard output goes nowhere, as where nobody reads it."""
    os.dup2(os.open(os.devnull, os.O_WRONLY), 1)


def run_tool(usage, main):
    """Runs a tool as a command: `main` gets the words. Ends with its status; 2 for words without a reading, 3 for a
    file that can't be read, 4 for one that is no report."""
    name = os.path.basename(sys.argv[0])
    status = 0
    try:
        if sys.argv[1:] in (["--help"], ["-h"]):
            print(usage)
        else:
            status = main(sys.argv[1:]) or 0
        sys.stdout.flush()
    except WrongWords:
        print(usage, file=sys.stderr)
        status = 2
    except CannotRead as fault:
        print(f"{name}: cannot read {fault}", file=sys.stderr)
        status = 3
    except NotAReport as fault:
        print(f"{name}: {fault}", file=sys.stderr)
        status = 4
    except BrokenPipeError:
        write_no_more()
    except OSError as fault:
        print(f"{name}: cannot write: {fault.strerror}", file=sys.stderr)
        write_no_more()
        status = 1
    except KeyboardInterrupt:
        status = 130
    sys.exit(status)
