"""Steps files, read to the first fault."""
import re
from collections import namedtuple

from .flow_text import BAD_VALUE, SYNTAX, UNKNOWN_NAME, parts_of, read_lines, refuse_over, require

GAPS = " \t"
LAST_NUMBER = 4294967295
POSITIVE = re.compile("[1-9][0-9]*")

# How many numbers stand after each word: those after the first are of a port, and then of a place or of an entry.
NUMBERS_AFTER = {
    "edit": 0, "rx": 1, "snap": 2, "settle": 2, "sweep": 1, "check": 2, "put": 2, "swept": 1, "open": 1,
}

Step = namedtuple("Step", "word numbers")


def read_steps(data, ports):
    """The steps of a file, for a switch of these ports. Raises its first fault, or what is above its limit."""
    refuse_over(len(data), "steps-bytes")
    steps = []
    read_lines(data, read_line, ports, steps)
    return steps


def read_line(line, ports, steps):
    """Adds the step of a line, where one stands in it."""
    words = parts_of(line.partition("#")[0], GAPS)
    if words:
        refuse_over(len(steps) + 1, "steps")
        steps.append(read_step(*words, ports=ports))


def read_step(first, *rest, ports):
    require(first.text in NUMBERS_AFTER, UNKNOWN_NAME, first)
    require(len(rest) == NUMBERS_AFTER[first.text], SYNTAX, first)
    numbers = []
    for word in rest:
        is_number = POSITIVE.fullmatch(word.text) and int(word.text) <= LAST_NUMBER
        require(is_number and (numbers or int(word.text) in ports), BAD_VALUE, word)
        numbers.append(int(word.text))
    return Step(first.text, numbers)
