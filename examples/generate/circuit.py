"""What the generators of circuits share: their words, their numbers by chance, and the head of a circuit's text."""
import os
import random
import sys

MOST_QUBITS = 256
SEED = 1


def below(chance, limit):
    """A number from 0 to below the limit. It is made of `random()` alone, the one sequence that every Python keeps."""
    return int(chance.random() * limit)


def shuffled(chance, things):
    """The things in an order by chance."""
    things = list(things)
    for last in range(len(things) - 1, 0, -1):
        other = below(chance, last + 1)
        things[last], things[other] = things[other], things[last]
    return things


def numbers_of(words, most_words):
    """The numbers that the words are, or None where one is none or there are too few or too many."""
    if not 1 <= len(words) <= most_words or not all(w.isascii() and w.isdigit() and len(w) < 10 for w in words):
        return None
    return [int(word) for word in words]


def answer(usage, is_size, lines_of, has_seed):
    """Prints the circuit that the words of the command line ask for, and gives the status."""
    words = sys.argv[1:]
    if words in (["--help"], ["-h"]):
        print(usage)
        return 0
    numbers = numbers_of(words, 2 if has_seed else 1)
    if numbers is None or not is_size(numbers[0]):
        print(usage, file=sys.stderr)
        return 2
    lines = ["OPENQASM 2.0;", 'include "qelib1.inc";']
    if has_seed:
        seed = numbers[1] if len(numbers) == 2 else SEED
        lines += lines_of(numbers[0], random.Random(seed))
    else:
        lines += lines_of(numbers[0])
    sys.stdout.write("\n".join(lines) + "\n")
    sys.stdout.flush()
    return 0


def run(usage, is_size, lines_of, has_seed=False):
    """Does what `answer` does and ends the process. `lines_of` takes the number of qubits and, with a seed, chance."""
    try:
        sys.exit(answer(usage, is_size, lines_of, has_seed))
    except BrokenPipeError:
        os.dup2(os.open(os.devnull, os.O_WRONLY), 1)
        sys.exit(0)
