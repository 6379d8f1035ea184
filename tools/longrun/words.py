"""The command line."""
import argparse
import os
import re
from collections import namedtuple

from .captures import MOST_FRAMES

LAST_PORT, MOST_PORTS = 65279, 32
MOST_FLOWS, MOST_WORKERS, MOST_JOBS = 65536, 16, 1024
NUMBER = re.compile(r"0|[1-9][0-9]{0,9}")
PORT_WORD = re.compile(r"([1-9][0-9]{0,4})=(.*)", re.DOTALL)

# The names of the edits and of the mirrors file, or None; the start of the names of outputs; the name of each port's
# trace; options that are handed on to the program; how parts are run, and by which program.
Command = namedtuple("Command", "edits mirrors out traces options netflow jobs scheduler part_frames program")


def number(least, most):
    """Reads a decimal number without leading zeros, in this range."""

    def read(text):
        if not NUMBER.fullmatch(text) or not least <= int(text) <= most:
            raise argparse.ArgumentTypeError(f"{text!r} is no number from {least} to {most}")
        return int(text)

    return read


def name(text):
    if not text:
        raise argparse.ArgumentTypeError("a name is empty")
    return text


class NotTaken(argparse.Action):
    """An option of the program that stands for one run alone."""

    def __call__(self, reader, namespace, values, option_string=None):
        reader.error(self.help)


def reader_of_words(about):
    reader = argparse.ArgumentParser(prog="long-run", description=about, allow_abbrev=False)
    side = reader.add_mutually_exclusive_group()
    side.add_argument(
        "--jobs", metavar="N", type=number(1, MOST_JOBS), default=len(os.sched_getaffinity(0)),
        help="how many parts are run side by side on this machine; as many as it has processors",
    )
    side.add_argument("--scheduler", metavar="ADDRESS", help="a Dask scheduler, by whose workers parts are run")
    reader.add_argument(
        "--part-frames", metavar="N", type=number(1, MOST_FRAMES), default=MOST_FRAMES,
        help="the most frames of a part, but for frames that are not told apart by their times",
    )
    reader.add_argument("--program", metavar="PATH", type=name, help="the program; ./megaswitch of this repository")
    reader.add_argument("--flow-limit", metavar="N", type=number(1, MOST_FLOWS), help="as the program's")
    reader.add_argument("--workers", metavar="N", type=number(0, MOST_WORKERS), help="as the program's")
    reader.add_argument("--netflow", action="store_true", help="as the program's")
    reader.add_argument("--mirrors", metavar="FILE", type=name, help="as the program's")
    reader.add_argument(
        "--steps", action=NotTaken, nargs="?", help="--steps isn't taken: a steps file is of the steps of one run"
    )
    reader.add_argument(
        "--generate", action=NotTaken, nargs="?", help="--generate isn't taken: what it makes is one run"
    )
    reader.add_argument("edits", metavar="EDITS", type=name, help="the file of edits")
    reader.add_argument("out", metavar="OUT", type=name, help="how the names of the output files begin")
    reader.add_argument("ports", metavar="PORT=[FILE]", nargs="+", help="a port, and the capture of it")
    return reader


def read_ports(reader, words):
    """The name of each port's trace."""
    traces = {}
    if len(words) > MOST_PORTS:
        reader.error(f"there are more than {MOST_PORTS} ports")
    for word in words:
        found = PORT_WORD.fullmatch(word)
        if not found or int(found[1]) > LAST_PORT:
            reader.error(f"{word!r} is no PORT=FILE")
        if int(found[1]) in traces:
            reader.error(f"port {found[1]} stands twice")
        traces[int(found[1])] = found[2]
    return traces


def read_words(about, words):
    """The command of these words. Others are told on standard error, and end with the program's status for them."""
    reader = reader_of_words(about)
    given = reader.parse_intermixed_args(words)
    numbers = {"--flow-limit": given.flow_limit, "--workers": given.workers}
    options = [f"{option}={value}" for option, value in numbers.items() if value is not None]
    options += ["--netflow"] * given.netflow
    return Command(
        given.edits, given.mirrors, given.out, read_ports(reader, given.ports), options, given.netflow, given.jobs,
        given.scheduler, given.part_frames, given.program,
    )
