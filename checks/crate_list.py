"""The crates as crates.txt lists them."""
import os
from collections import namedtuple

TOP = os.path.join(os.path.dirname(os.path.realpath(__file__)), "..")

# A crate: the heading above it, and the crates that it is named with.
Listed = namedtuple("Listed", "name heading below")


def listed_crates():
    """The crates in their order."""
    crates, heading = [], ""
    with open(os.path.join(TOP, "crates.txt")) as file:
        lines = file.read().splitlines()
    for line in lines:
        if line.startswith("#"):
            heading = line.lstrip("# ")
        elif line.strip():
            name, _, below = line.partition(":")
            crates.append(Listed(name.split()[0], heading, below.split()))
    return crates


def program_of(name):
    """A crate and all that are below it, each with the crates of the list that it is named with, lowest first."""
    named = {crate.name: crate.below for crate in listed_crates()}
    below = {name: [other for other in others if other in named] for name, others in named.items()}
    found = {}

    def visit(name):
        if name not in found:
            for other in below[name]:
                visit(other)
            found[name] = below[name]

    visit(name)
    return found
