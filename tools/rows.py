"""What one circuit costs on one machine, as a row, and many such rows made side by side.

Used by tools/compare and tools/study; neither proved nor part of the program.
"""
import concurrent.futures
import os
import re
import subprocess
import sys

TOP = os.path.dirname(os.path.dirname(os.path.abspath(__file__)))
BUILT = os.path.join(TOP, "crates", "qccd", "out", "qccd")
SWAPS = {"ion": ["ion"], "gate": ["gate"], "both": ["ion", "gate"]}
FIELDS = ["machine", "swap", "status", "operations", "splits", "moves", "crossings", "merges", "rots", "gate_swaps",
          "gates", "heat", "hottest_heat", "hottest_trap", "finish", "message"]
# Which kind of operation each of these fields counts, by its name in a report. An ion that crosses a junction enters
# it once.
COUNTED = {"splits": "split", "moves": "move", "crossings": "enter", "merges": "merge", "rots": "rot",
           "gate_swaps": "gswap"}


def program():
    """The program's file: the environment's QCCD, or the script at the top of the repository."""
    return os.environ.get("QCCD") or os.path.join(TOP, "qccd")


def why_not_ready():
    """Why no row can be made, in a line, or None. A program that isn't built is not built here: that takes long, and
    nobody asked for it."""
    chosen = program()
    if chosen == os.path.join(TOP, "qccd") and not os.path.exists(BUILT):
        return "the program is not built yet: call ./qccd run first, or name a program by QCCD"
    words = [chosen, "run", "@single:2", os.path.join(TOP, "examples", "bell.qasm")]
    try:
        answer = subprocess.run(words, stdin=subprocess.DEVNULL, stdout=subprocess.DEVNULL)
    except OSError:
        return f"cannot run {chosen}"
    return None if answer.returncode == 0 else f"{chosen} does not run"


def machines_of(word):
    """The machines that a word stands for: each capacity of a range as `@L6:2-32`, and any other word for itself. None
    where the range is empty or not within 2 to 32."""
    found = re.fullmatch(r"(@[^:]*):([0-9]+)-([0-9]+)", word)
    if not found:
        return [word]
    least, most = int(found.group(2)), int(found.group(3))
    if not 2 <= least <= most <= 32:
        return None
    return [f"{found.group(1)}:{capacity}" for capacity in range(least, most + 1)]


def costs_of(lines):
    """The fields that the lines of a report give."""
    row = {"heat": 0}
    for line in lines:
        words = line.split()
        if words[0] == "ops":
            row["operations"] = int(words[1])
        elif words[0] == "end":
            heat = int(words[words.index("heat") + 1])
            row["heat"] += heat
            if words[1].startswith("T") and heat > row.get("hottest_heat", -1):
                row["hottest_heat"], row["hottest_trap"] = heat, words[1]
        elif words[0] == "counts":
            counts = dict(zip(words[1::2], map(int, words[2::2])))
            row.update({field: counts[kind] for field, kind in COUNTED.items()})
            row["gates"] = counts["gate1"] + counts["gate2"]
        elif words[0] == "finish":
            row["finish"] = int(words[1])
    return row


def message_of(status, text):
    """Why there is no report, in a line."""
    if status == 2:
        return "no such machine"
    if status < 0:
        return f"ended by signal {-status}"
    return text.split("\n")[0]


def row_of(circuit, machine, swap):
    """The row of a circuit's file on a machine: its costs, or the status and the message of the refusal."""
    words = [program(), "run", machine, circuit, "--swap", swap]
    with subprocess.Popen(words, stdin=subprocess.DEVNULL, stdout=subprocess.PIPE, stderr=subprocess.PIPE) as process:
        lines = [line.decode() for line in process.stdout if not line[:1].isdigit()]
        text = process.stderr.read().decode(errors="replace")
    status = process.returncode
    row = {"machine": machine, "swap": swap, "status": status, "message": ""}
    if status == 0:
        row.update(costs_of(lines))
    else:
        row["message"] = message_of(status, text)
    return row


def tell_progress(text):
    """Writes the text in the place of the one before, on standard error; only where that is a terminal."""
    if sys.stderr.isatty():
        sys.stderr.write("\r\033[K" + text)
        sys.stderr.flush()


def rows_of(jobs):
    """The rows of jobs (circuit, machine, swap), in their order. They are made on all processors, and each is given as
    soon as those before it were."""
    ready = {}
    given = 0
    with concurrent.futures.ThreadPoolExecutor(len(os.sched_getaffinity(0))) as pool:
        places = {pool.submit(row_of, *job): place for place, job in enumerate(jobs)}
        try:
            for made, future in enumerate(concurrent.futures.as_completed(places), 1):
                ready[places[future]] = future.result()
                tell_progress("")
                while given in ready:
                    yield ready.pop(given)
                    given += 1
                tell_progress(f"{made} of {len(jobs)} rows")
        finally:
            tell_progress("")
            for future in places:
                future.cancel()
