"""A whole run of the program, or of the simulation: what it is given, and what it ends with."""
import os
import subprocess
import tempfile
from collections import namedtuple

from simulation.switch import simulate

# The status, the text on standard output, and the files that were made, by name.
Ended = namedtuple("Ended", "status text files")


def journal_of(ended):
    """The text of the journal that a run has made, or None where it has made none."""
    return next((data.decode() for name, data in ended.files.items() if name.endswith(".journal")), None)


def ran_in(folder, program, words, given, patience=None):
    """How the program ends in an empty folder with the given files, which are left there. It may have so many seconds."""
    for name, data in given.items():
        with open(os.path.join(folder, name), "wb") as file:
            file.write(data)
    ran = subprocess.run(
        [program, *words], cwd=folder, stdin=subprocess.DEVNULL, stdout=subprocess.PIPE, timeout=patience
    )
    files = {}
    for name in set(os.listdir(folder)) - set(given):
        with open(os.path.join(folder, name), "rb") as file:
            files[name] = file.read()
    return Ended(ran.returncode, ran.stdout.decode(), files)


def ran(program, words, given):
    with tempfile.TemporaryDirectory() as room:
        return ran_in(room, program, words, given)


def simulated(words, given, journal=None):
    """How the simulation ends a run of these files, and of this journal where workers chose it."""

    def contents(name):
        if name not in given:
            raise FileNotFoundError(name)
        return given[name]

    status, text, files = simulate(words, contents, journal)
    return Ended(status, text, dict(files))


def ended(program, words, given):
    """How the program ends, or where none is named the simulation."""
    return ran(program, words, given) if program else simulated(words, given)
