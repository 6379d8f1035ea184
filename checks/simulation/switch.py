"""The switch: words and files in, and the status, the text and the files that a run ends with."""
import functools
from collections import namedtuple

from .captures import read_traces, write_trace
from .command_words import read_words
from .dumps import journal_text, megaflows_text, rules_text, summary_text
from .flow_rules import last_version
from .flow_text import OverLimit, TextFault, read_script
from .generator import EDITS, PORTS, generate, trace_name
from .mirrors import copied_frames, read_mirrors
from .netflow import netflow_bytes
from .refusals import BAD_TEXT, DONE, LIMIT, READ_FAULT, Refused
from .replay import replayed
from .rewriting import sent
from .schedule import Schedule
from .steps import read_steps

# What a run is made of: its bundles of edits and its sync points, the rules that all edits make, the frames of each port, the unit of
# the files that are written, and the steps, or None where none are given. And its mirrors.
Input = namedtuple("Input", "script rules frames unit steps mirrors", defaults=[()])
# How many steps were given, and how many of these weren't met.
Given = namedtuple("Given", "steps unmet")
Result = namedtuple("Result", "status text files")


# ---- what is read


def read_text(read, data, name):
    """What a reader of text makes of the bytes of a file."""
    try:
        return read(data)
    except TextFault as fault:
        raise Refused(BAD_TEXT, f"{name}:{fault.line}:{fault.column}: {fault.reason}")
    except OverLimit as over:
        raise Refused(LIMIT, f"limit: {over.quantity} {over.most}")


@functools.lru_cache(1)
def read_edits(data):
    """The bundles and sync points of a file, and the rules that all edits make. Those of the last file are remembered:
    made_runs.py reads it before it is run."""
    script = read_script(data)
    return script, last_version(script.edits)


def read_input(command, read):
    """Reads the edits, then the steps, then the mirrors, then the traces in the order of the words."""
    script, rules = read_text(read_edits, read(command.edits), command.edits)
    steps = None
    if command.steps is not None:
        steps = read_text(lambda data: read_steps(data, command.traces), read(command.steps), command.steps)
    mirrors = []
    if command.mirrors is not None:
        mirrors = read_text(lambda data: read_mirrors(data, command.traces), read(command.mirrors), command.mirrors)
    return Input(script, rules, *read_traces(command.traces, read), steps, mirrors)


def made_input(number):
    """The input that a number makes, as if it were read."""
    made = generate(number)
    script, rules = read_edits(made[EDITS])
    return Input(script, rules, *read_traces({port: trace_name(port) for port in PORTS}, made.__getitem__), None)


# ---- the switch


def decided_frames(boards):
    """The frames of all ports with their actions, in the order of time, ingress port and place."""
    return sorted((pair for board in boards for pair in board.decided), key=lambda pair: pair[0][:3])


def sent_frames(boards):
    """What leaves by each port, in the order of the decided frames and of the position in the actions."""
    leaving = {board.port: [] for board in boards}
    for frame, actions in decided_frames(boards):
        for port, data in sent(actions, frame.bytes):
            leaving[port].append(frame._replace(bytes=data))
    return leaving


def run(given, flow_limit):
    """The boards at the end of a run, and what there is to tell of given steps."""
    schedule = Schedule(given.script, given.frames, flow_limit)
    taken = None if given.steps is None else Given(len(given.steps), schedule.take(given.steps))
    schedule.finish()
    return list(schedule.boards.values()), taken


def files_of(command, given, boards, leaving):
    """The files of a run, in the order in which they are written."""
    out, decided = command.out, decided_frames(boards)
    ports = [(f"{out}.p{port}.pcap", write_trace(frames, given.unit)) for port, frames in leaving.items()]
    dumps = {
        "rules": rules_text(given.rules, boards),
        "megaflows": megaflows_text(boards),
        "journal": journal_text(boards),
    }
    flows = [(f"{out}.netflow", netflow_bytes(boards))] if command.netflow else []
    copies = [
        (f"{out}.m{number}.pcap", write_trace(copied_frames(mirror, decided), given.unit))
        for number, mirror in enumerate(given.mirrors, 1)
    ]
    return ports + [(f"{out}.{name}", text.encode()) for name, text in dumps.items()] + flows + copies


def simulate(words, contents, journal=None):
    """How a run ends, where contents gives the bytes of the file of a name or raises an OSError. With workers there are many
    ways, and a journal says which; without one it is taken as if there were none."""

    def read(name):
        try:
            return contents(name)
        except OSError:
            raise Refused(READ_FAULT, f"read fault: {name}")

    try:
        command = read_words(words)
        given = read_input(command, read) if command.number is None else made_input(command.number)
    except Refused as refused:
        return Result(refused.args[0], refused.args[1] + "\n", [])
    if command.workers and journal is not None:
        boards, steps = replayed(given.script, given.frames, command.flow_limit, journal), None
    else:
        boards, steps = run(given, command.flow_limit)
    leaving = sent_frames(boards)
    summary = summary_text(given.script, boards, sum(map(len, leaving.values())), steps)
    files = [] if command.out is None else files_of(command, given, boards, leaving)
    return Result(DONE, summary, files)
