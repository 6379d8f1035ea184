#!/usr/bin/env python3
"""Runs the program with workers, again and again, and holds what it writes against the simulation.

    python3 workers.py PROGRAM ROUNDS TIMES BUSY

The runs are those of made_runs.py, without given steps, and each of them again with all edits before the first frame; each
with 1, 2, 4 and 16 workers, so many times. The journal tells which steps threads chose: the simulation takes just these,
finds each legal and the whole complete, and makes of them the files and the summary, which have to be the same byte by
byte. Where no block has both edits and frames, the files of the ports and of the rules also have to be those of the run
without workers. A run that doesn't end in time is told as one that hangs.

Then come busy runs (busy_runs.py), which are held to the same, until each port was swept by threads, its upcalls settled,
and its frames found by their keys and by masks, some of them after an upcall was settled under a version of the block,
before the end of a block does what threads have left (thread_marks.py): no proof says that they do anything. So many rounds
have to be enough for that, also on a machine that has other work.

A journal doesn't tell which thread took a step, nor how many there are, nor what waits for whom. Who makes fewer workers,
or gives ports to them otherwise, writes journals like any other; the tests of thread_tests and worker_tests, and
refused_threads.py, tell of those.

It prints the first run that is wrong and keeps its folder, or what threads never did, and ends with 1; else it prints how
many runs there were, in how many of them threads did what one thread alone doesn't do, and how often threads did what in
busy runs.
"""
import os
import shutil
import subprocess
import sys
import tempfile
from collections import Counter, defaultdict

sys.dont_write_bytecode = True
from busy_runs import PORTS, busy_run
from made_runs import made_run
from simulation.caches import EXACT, MEGA
from simulation.command_words import read_words
from simulation.refusals import Refused
from simulation.replay import Unlawful
from simulation.schedule import blocks_of
from simulation.switch import read_input
from thread_marks import NEWER, SETTLE, SWEEP, marks_of, most_sweeps
from whole_run import journal_of, ran_in, simulated

WORKERS = [1, 2, 4, 16]
# In seconds. A run takes some hundredths of one.
PATIENCE = 60

# What threads have to do at each port, by the words of the journal.
DONE_BY_THREADS = [SWEEP, SETTLE, EXACT, MEGA, NEWER]

# How often a port is swept in a block: twice by the revalidator, and once by the end of the block.
MOST_SWEEPS = 3


def without_steps(words):
    """The words of a run, of which no step is given."""
    if "--steps" in words:
        at = words.index("--steps")
        words = words[:at] + words[at + 2 :]
    return [word for word in words if not word.startswith(("--steps", "--workers"))]


def with_edits_first(given):
    """The files with all edits in a block before the frames."""
    lines = [line for line in given["edits"].split(b"\n") if not line.strip().startswith(b"sync")]
    return given | {"edits": b"\n".join([*lines, b"sync 0"])}


def has_edits_apart(words, given):
    """Whether no block has both edits and frames."""
    command = read_words(words)
    known = read_input(command, given.__getitem__)
    blocks = [block for frames in known.frames.values() for block in blocks_of(frames, known.script)]
    return all(block.lo == block.hi for block in blocks if block.frames)


def same_for_all(files):
    """The files that don't depend on what threads choose, where edits are apart from frames."""
    return {name: data for name, data in files.items() if name.endswith((".pcap", ".rules"))}


def wrong_in(got, wanted):
    """What of a run isn't as it is to be, or None."""
    if (got.status, got.text) != (wanted.status, wanted.text):
        return f"status {got.status} and {got.text!r}, not {wanted.status} and {wanted.text!r}"
    wrong = sorted(name for name in got.files.keys() | wanted.files.keys() if got.files.get(name) != wanted.files.get(name))
    return ", ".join(wrong) or None


class Runs:
    """Runs of the program with workers, how many of them are which, and what threads did by port."""

    def __init__(self, program):
        self.program, self.tried, self.threaded = program, 0, 0
        self.marks = defaultdict(Counter)

    def try_run(self, words, given, workers, alone, folder):
        """Makes a run in an empty folder, and tells what is wrong."""
        words = [f"--workers={workers}", *words]
        try:
            got = ran_in(folder, self.program, words, given, PATIENCE)
            wrong = wrong_in(got, simulated(words, given, journal_of(got)))
        except subprocess.TimeoutExpired:
            return f"{words} hangs"
        except Unlawful as unlawful:
            return f"{words}: the journal has no such step: {unlawful}"
        self.tried += 1
        self.threaded += journal_of(got) != journal_of(alone)
        if not wrong and got.files and has_edits_apart(words, given):
            if same_for_all(got.files) != same_for_all(alone.files):
                wrong = "edits are apart from frames, and yet another run than without workers"
        if not wrong and most_sweeps(journal_of(got) or "") > MOST_SWEEPS:
            wrong = f"a port is swept more than {MOST_SWEEPS} times in a block"
        self.mark(got)
        return wrong and f"{words}: {wrong}"

    def mark(self, got):
        for port, marks in marks_of(journal_of(got) or "").items():
            self.marks[port].update(marks)

    def undone(self):
        """What no threads have done yet at some port."""
        return [f"{word} at port {port}" for port in map(str, PORTS) for word in DONE_BY_THREADS if not self.marks[port][word]]

    def try_times(self, words, given, times):
        """Makes a run with each number of workers so many times, and tells what is wrong, and in which folder."""
        alone = simulated(words, given)
        for workers in WORKERS * times:
            folder = tempfile.mkdtemp(prefix="megaswitch-")
            wrong = self.try_run(words, given, workers, alone, folder)
            if wrong:
                return f"{folder}: {wrong}"
            shutil.rmtree(folder)
        return None


def is_run(words):
    try:
        return read_words(words).number is None
    except Refused:
        return False


def try_made(runs, rounds, times):
    """What is wrong in the made runs, or None."""
    for number in range(rounds):
        words, given = made_run(number)
        words = without_steps(words)
        for files in [given, with_edits_first(given)] if is_run(words) else []:
            wrong = runs.try_times(words, files, times)
            if wrong:
                return f"round {number} is wrong, in {wrong}"
    return None


def try_busy(runs, most):
    """What is wrong in busy runs, or what threads never did in so many of them, or None."""
    for number in range(most):
        wrong = runs.try_times(*busy_run(number), 1)
        if wrong:
            return f"busy run {number} is wrong, in {wrong}"
        if not runs.undone():
            return None
    return "what no threads did: " + ", ".join(runs.undone())


def main(words):
    program, (rounds, times, busy) = os.path.abspath(words[0]), map(int, words[1:])
    made, busy_ones = Runs(program), Runs(program)
    wrong = try_made(made, rounds, times) or try_busy(busy_ones, busy)
    if wrong:
        print(wrong)
        return 1
    tried, threaded = made.tried + busy_ones.tried, made.threaded + busy_ones.threaded
    print(f"{tried} runs, {threaded} of them with a journal that one thread doesn't make; by threads:")
    for port, marks in busy_ones.marks.items():
        print(f"port {port}: " + " ".join(f"{word}={marks[word]}" for word in DONE_BY_THREADS))
    return 0


if __name__ == "__main__":
    sys.exit(main(sys.argv[1:]))
