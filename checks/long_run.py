#!/usr/bin/env python3
"""Runs tools/long-run, and compares what it puts together of parts with what one run writes.

    python3 long_run.py PROGRAM ROUNDS

On the examples, and on so many of the runs of made_runs.py, without given steps: in one to seven parts, with traces
read in small pieces in every second round. Files of ports, rules, flows and copies have to be those of the
simulation, byte by byte, and the sums of the summary its numbers. What one run refuses, parts have to refuse. Then
rows of what made-up runs hardly meet: many times at which rules change, flows that are full, times that go back,
frames of one time, and captures that are packed. It prints the first that is otherwise, and ends with 1; else how
many runs there were.
"""
import contextlib
import gzip
import io
import os
import re
import shutil
import subprocess
import sys
import tempfile
from unittest import mock

sys.dont_write_bytecode = True
TOP = os.path.dirname(os.path.dirname(os.path.abspath(__file__)))
sys.path.insert(0, os.path.join(TOP, "tools"))
from examples import examples
from longrun import captures, cutting, flows
from longrun.progress import Progress
from longrun.refusals import Refused
from longrun.running import run
from longrun.words import read_words
from made_runs import made_run
from run_rows import DATAGRAM, WEB, frame
from simulation import flow_text, netflow
from simulation.captures import MICROSECOND, SECOND, Frame, write_trace
from simulation.command_words import read_words as read_program_words
from simulation.refusals import BAD_TRACE, DONE, LIMIT, READ_FAULT
from simulation.refusals import Refused as Unread
from simulation.switch import read_input
from whole_run import Ended, simulated
from workers import without_steps

MOST_PARTS = 7
SIMULATION = os.path.join(TOP, "checks", "simulate")
# How traces are read in every second round: in pieces as small as a record, and few records at once.
SMALL = {"CHUNK": 300, "PROBED": 2, "MOST_ALIKE": 3, "MOST_MIXED": 4}
TOO_FAR = "times go back too far"
# What parts don't change of a summary.
KEPT = ["ports", "frames", "edits", "blocks", "sent", "dropped"]


class Otherwise(Exception):
    """What is otherwise in a run."""


# ---- one run in parts


@contextlib.contextmanager
def changed(module, **constants):
    """Has constants of a module other values."""
    with contextlib.ExitStack() as stack:
        for name, value in constants.items():
            stack.enter_context(mock.patch.object(module, name, value))
        yield


def in_parts(program, words, given, folder):
    """How a run in parts ends, in a folder with the given files. Only its outputs are told."""
    for name, data in given.items():
        with open(os.path.join(folder, name), "wb") as file:
            file.write(data)
    before = os.getcwd()
    os.chdir(folder)
    try:
        status, text = DONE, run(read_words("", ["--program", program, *words]), Progress(io.StringIO()))
    except Refused as refused:
        status, text = refused.status, refused.text
    finally:
        os.chdir(before)
    return Ended(status, text, outputs(folder, given))


def outputs(folder, given):
    files = {}
    for name in sorted(set(os.listdir(folder)) - set(given)):
        if os.path.isfile(os.path.join(folder, name)):
            with open(os.path.join(folder, name), "rb") as file:
                files[name] = file.read()
    return files


def counts_of(summary):
    return {name: int(count) for name, count in re.findall(r"([a-z]+)=(\d+)", summary)}


def joined(files):
    """The outputs that are put together of those of parts."""
    return {name: data for name, data in files.items() if name.endswith((".pcap", ".rules", ".netflow"))}


def wrong_in(got, wanted, folder, words, given):
    """What is otherwise in a run in parts, or None."""
    if wanted.status != DONE:
        return wrong_in_refusal(got, wanted, words, given)
    if got.status != DONE:
        return f"status {got.status} and {got.text!r}"
    wanted_files = joined(wanted.files)
    names = got.files.keys() | wanted_files.keys()
    wrong = sorted(name for name in names if got.files.get(name) != wanted_files.get(name))
    return ", ".join(wrong) or wrong_in_summary(counts_of(got.text), counts_of(wanted.text), folder)


def wrong_in_refusal(got, wanted, words, given):
    """Of several traces with a fault another one may be the first that is met. It has this fault by itself, too."""
    if got.status == DONE or got.files:
        return f"status {got.status} and files {sorted(got.files)}, where one run has {wanted.text!r}"
    if got.text == wanted.text:
        return None
    if got.text != simulated([only_trace(word, got.text) for word in words], given).text:
        return f"{got.text!r}, not {wanted.text!r}"
    return None


def only_trace(word, text):
    """A word, without the name of a trace of which a text doesn't tell."""
    port, _, name = word.partition("=")
    is_told = text.startswith(f"{name}: ") or text == f"read fault: {name}\n"
    return f"{port}=" if port.isdecimal() and not is_told else word


def wrong_in_summary(got, wanted, folder):
    wrong = [name for name in KEPT if got[name] != wanted[name]]
    if got["exact"] + got["mega"] + got["miss"] != got["frames"]:
        wrong.append("lookups")
    if got["installed"] + got["present"] + got["full"] != got["miss"]:
        wrong.append("misses")
    parts = sorted(os.listdir(os.path.join(folder, "out.parts")))
    if parts != [f"{number:06}" for number in range(1, got["parts"] + 1)]:
        wrong.append("parts")
    if any(sorted(os.listdir(os.path.join(folder, "out.parts", part))) != KEPT_OF_PART for part in parts):
        wrong.append("files of parts")
    return wrong and f"{', '.join(wrong)} of {got}, where one run has {wanted}"


KEPT_OF_PART = ["edits", "out.journal", "out.megaflows", "out.rules", "summary"]


class Runs:
    """Runs in parts, and how many there were of them."""

    def __init__(self, program):
        self.program, self.count, self.parts = program, 0, 0
        # Whether times go back so far, perhaps, that a run in parts is refused.
        self.may_refuse = False

    def compare(self, what, words, given, wanted, most=None):
        """Compares a run in parts with one run."""
        folder = tempfile.mkdtemp(prefix="long-run-")
        words = [f"--part-frames={most or MOST_PARTS}", "--jobs=2", *words]
        got = in_parts(self.program, words, given, folder)
        wrong = wrong_in(got, wanted, folder, words[2:], given)
        if wrong and not (self.may_refuse and TOO_FAR in got.text):
            raise Otherwise(f"{what}, {' '.join(words)}, in {folder}: {wrong}")
        self.count += 1
        self.parts += counts_of(got.text).get("parts", 0)
        shutil.rmtree(folder)
        return got


def frames_of_part(wanted, parts):
    """How many frames parts may have, so that there are about so many of them."""
    return max(1, -(-counts_of(wanted.text).get("frames", 1) // parts))


# ---- examples and made-up runs


def compare_examples(runs):
    for number, example in enumerate(examples()):
        given, words = {}, []
        for word in [*without_steps(split(example.options)), example.edits, "out", *example.ports]:
            begin, equals, name = word.rpartition("=")
            path = os.path.join(TOP, name)
            if "/" in name:
                name = name.replace("/", "-")
                with open(path, "rb") as file:
                    given[name] = file.read()
            words.append(begin + equals + name)
        wanted = simulated(words, given)
        for parts in range(1, MOST_PARTS + 1):
            runs.compare(f"example {example.name}", words, given, wanted, frames_of_part(wanted, parts))


def split(options):
    """Options with their values after a `=`."""
    joined_words = []
    for word in options:
        if joined_words and not word.startswith("-"):
            joined_words[-1] += f"={word}"
        else:
            joined_words.append(word)
    return joined_words


def is_taken(words):
    """Whether the program takes these words, and so that they name files."""
    try:
        return read_program_words(words).number is None
    except Unread:
        return False


def falls(words, given):
    """Whether the times of a trace go back."""
    frames = read_input(read_program_words(words), given.__getitem__).frames
    return any(one.time > other.time for port in frames for one, other in zip(frames[port], frames[port][1:]))


def compare_made(runs, rounds):
    for number in range(rounds):
        words, given = made_run(number)
        words = without_steps(words)
        if is_taken(words):
            wanted, is_small = simulated(words, given), number // 2 % 2
            runs.may_refuse = is_small and wanted.status == DONE and falls(words, given)
            most = frames_of_part(wanted, number % MOST_PARTS + 1)
            with changed(captures, **(SMALL if is_small else {})):
                runs.compare(f"round {number}", words, given, wanted, most)
    runs.may_refuse = False


# ---- what made-up runs hardly meet


def trace(*timed):
    """A trace of frames, each with its time in nanoseconds."""
    return write_trace([Frame(time, 1, place, data) for place, (time, data) in enumerate(timed, 1)], MICROSECOND)


def sync(time):
    return f"sync {time // SECOND}.{time % SECOND:09}\n"


FLOOD = b"actions=flood\n"
ODD = 123000
MANY = 300


def many_changes(runs):
    """More sync lines than a run takes, some with several frames between them and some without one. In many of the
    blocks there is no edit."""
    lines, frames = ["add priority=1,actions=2\n"], []
    for number in range(MANY):
        time = SECOND + number * 1000 * ODD
        lines.append(sync(time))
        if number % 3:
            lines.append(f"modify actions={2 + number % 2}\n")
        if number % 5 < 3:
            frames += [(time + at * ODD, frame(at + 2)) for at in range(number % 4)]
    given = {"edits": "".join(lines).encode(), "a.pcap": trace(*frames)}
    words = ["edits", "out", "1=a.pcap", "2=", "3="]
    with changed(flow_text, LIMITS=flow_text.LIMITS | {"syncs": MANY}):
        wanted = simulated(words, given)
    for most in (1, 40, 1000):
        runs.compare("many changes", words, given, wanted, most)
    wrong = given | {"edits": given["edits"] + sync(0).encode() + b"foo\n"}
    with changed(flow_text, LIMITS=flow_text.LIMITS | {"syncs": MANY + 1}):
        runs.compare("many changes, and a fault", words, wrong, simulated(words, wrong))


def full_flows(runs):
    """Flows that have as many octets as they may, where that is little: within a part, and where parts meet."""
    times = [(SECOND + number * number * ODD, [WEB, DATAGRAM, WEB, bytes(20)][number % 4]) for number in range(24)]
    given = {"edits": FLOOD, "a.pcap": trace(*times[::2]), "b.pcap": trace(*times[1::2])}
    words = ["--netflow", "edits", "out", "2=a.pcap", "1=b.pcap"]
    for octets in (90, 130):
        with changed(netflow, MOST_OCTETS=octets), changed(flows, MOST_OCTETS=octets), with_octets(runs, octets):
            wanted = simulated(words, given)
            for most in (1, 5, 9):
                runs.compare(f"flows of {octets} octets", words, given, wanted, most)


@contextlib.contextmanager
def with_octets(runs, octets):
    """Has the simulation, whose flows have so many octets at most, in the place of the program."""
    with tempfile.NamedTemporaryFile("w", suffix=".py", delete=False) as script:
        script.write(f"#!{sys.executable}\nimport runpy, sys\nsys.dont_write_bytecode = True\n")
        script.write(f"sys.path.insert(0, {os.path.join(TOP, 'checks')!r})\nfrom simulation import netflow\n")
        script.write(f"netflow.MOST_OCTETS = {octets}\nrunpy.run_path({SIMULATION!r}, run_name='__main__')\n")
    os.chmod(script.name, 0o755)
    program, runs.program = runs.program, script.name
    try:
        yield
    finally:
        runs.program = program
        os.remove(script.name)


def no_frames(runs):
    """A run without a frame, and one without a trace, have their files too."""
    given = {"edits": FLOOD, "mirrors": b"select_all\n", "a.pcap": trace()}
    for traces in (["1=a.pcap", "2="], ["1=", "2="]):
        words = ["--netflow", "--mirrors=mirrors", "edits", "out", *traces]
        runs.compare("no frames", words, given, simulated(words, given))


def one_time(runs):
    """Frames of one time stay together, also where they are more than a part is to have."""
    given = {"edits": FLOOD, "a.pcap": trace(*[(SECOND, frame(at)) for at in range(9)], (2 * SECOND, WEB))}
    words = ["edits", "out", "1=a.pcap", "2=a.pcap", "3="]
    got = runs.compare("frames of one time", words, given, simulated(words, given), 4)
    expect("parts of frames of one time", counts_of(got.text)["parts"], 2)


def times_that_go_back(runs):
    """Where times go back, a trace isn't cut between: frames stay in the blocks in which they stand."""
    times = [1, 2, 5, 3, 4, 6, 7, 9, 8, 10, 11, 12]
    frames = [(time * SECOND, frame(time)) for time in times]
    changes = [sync(time * SECOND) + f"modify actions={2 + time % 2}\n" for time in (3, 4, 5, 9, 11)]
    edits = "".join(["actions=2\n", *changes])
    given = {"edits": edits.encode(), "a.pcap": trace(*frames), "b.pcap": trace(*frames[4:])}
    words = ["--netflow", "edits", "out", "1=a.pcap", "2=b.pcap", "3="]
    for most in range(1, 9):
        got = runs.compare("times that go back", words, given, simulated(words, given), most)
        if most == 1:
            expect("parts where times go back", counts_of(got.text)["parts"], 9)


def times_that_go_back_far(runs):
    """A time before a cut that was made is refused, with its place; so are too many frames that stay together."""
    frames = [(number * SECOND, WEB) for number in range(2, 40)]
    late = trace(*frames, (SECOND, WEB))
    words, given = ["--jobs=1", "--part-frames=2", "edits", "out", "1=a.pcap", "2="], {"edits": FLOOD, "a.pcap": late}
    place = len(late) - len(WEB) - 16
    with tempfile.TemporaryDirectory() as folder, changed(captures, **SMALL):
        got = in_parts(runs.program, words, given, folder)
        expect("a time far back", got, Ended(BAD_TRACE, f"a.pcap: {TOO_FAR} at {place}\n", {}))
    with tempfile.TemporaryDirectory() as folder, changed(cutting, MOST_FRAMES=20):
        got = in_parts(runs.program, words, given, folder)
        expect("too many frames that stay together", got, Ended(LIMIT, "limit: frames 20\n", {}))


def packed_captures(runs):
    """Captures in packed files and in the format pcapng, by what is installed for them."""
    frames = [(SECOND + number * ODD, [WEB, DATAGRAM][number % 2]) for number in range(50)]
    given = {"edits": FLOOD, "a.pcap": trace(*frames), "b.pcap": trace(*frames[:20])}
    words = ["edits", "out", "1=a.pcap", "2=b.pcap", "3="]
    wanted = simulated(words, given)
    runs.compare("a capture by gzip", words, given | {"a.pcap": gzip.compress(given["a.pcap"])}, wanted)
    if shutil.which("zstd"):
        runs.compare("a capture by zstd", words, given | {"a.pcap": through(["zstd", "-c"], given["a.pcap"])}, wanted)
    if shutil.which("editcap"):
        finer = given | {"a.pcap": through(["editcap", "-F", "nsecpcap", "-", "-"], given["a.pcap"])}
        wanted = simulated(words, finer)
        ng = through(["editcap", "-F", "pcapng", "-", "-"], finer["a.pcap"])
        for data in (ng, gzip.compress(ng)):
            runs.compare("a capture of pcapng", words, given | {"a.pcap": data}, wanted)
        cut_short(runs, words, given | {"a.pcap": ng[:-20]})
    cut_short(runs, words, given | {"a.pcap": gzip.compress(given["a.pcap"])[:-20]})


def cut_short(runs, words, given):
    """A packed file that is cut is a read fault."""
    with tempfile.TemporaryDirectory() as folder:
        got = in_parts(runs.program, words, given, folder)
        expect("a packed capture that is cut", got, Ended(READ_FAULT, "read fault: a.pcap\n", {}))


def through(words, data):
    return subprocess.run(words, input=data, capture_output=True, check=True).stdout


def expect(what, got, wanted):
    if got != wanted:
        raise Otherwise(f"{what}: {got}, not {wanted}")


ROWS = [no_frames, many_changes, full_flows, one_time, times_that_go_back, times_that_go_back_far, packed_captures]


def main(program, rounds):
    runs = Runs(os.path.abspath(program))
    try:
        compare_examples(runs)
        compare_made(runs, rounds)
        for row in ROWS:
            row(runs)
    except Otherwise as otherwise:
        print(otherwise)
        return 1
    print(f"{runs.count} runs, in {runs.parts} parts")
    return 0


if __name__ == "__main__":
    sys.exit(main(sys.argv[1], int(sys.argv[2])))
