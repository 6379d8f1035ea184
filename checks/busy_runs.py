"""Runs with so many frames and edits that all threads have something to do.

At each of a few ports frames to some subnets come again and again, and in each of two blocks rules for these subnets are
added or modified while they come. The frames of a block are more than upcalls find room for, also with the most workers:
so receive workers wait for handlers, and later frames find what these have settled.
"""
from simulation.captures import MICROSECOND, SECOND, Frame, write_trace
from simulation.generator import EDITS, FIRST_SOURCE_PORT, MILLISECOND, Draws, datagram, trace_name

PORTS = [1, 2, 3]
FRAMES_BY_PORT = 2_000
OCTETS, HOSTS, SOURCES = 16, 2, 4


def busy_run(number):
    """The words and the files of the run that a number makes."""
    draws = Draws(number)
    frames = [frame_by(draws, place, port) for place in range(FRAMES_BY_PORT) for port in PORTS]
    traces = {trace_name(port): write_trace([it for it in frames if it.port == port], MICROSECOND) for port in PORTS}
    words = [EDITS, "out", *(f"{port}={trace_name(port)}" for port in PORTS)]
    return words, {EDITS: edits_by(draws).encode(), **traces}


def frame_by(draws, place, port):
    """One of a millisecond's frames, which come in one port after the other."""
    subnet, host, source = (draws.below(count) for count in (OCTETS, HOSTS, SOURCES))
    data = datagram(bytes([10, 0, 0, 1]), bytes([10, 0, subnet, host]), FIRST_SOURCE_PORT + source)
    return Frame(SECOND + place * MILLISECOND, port, place + 1, data)


def edits_by(draws):
    """Rules for the subnets, and in the midst of the frames others in their place."""
    middle = SECOND + FRAMES_BY_PORT // 2 * MILLISECOND
    added, modified = (rules_by(draws, word) for word in ("add", "modify"))
    return "\n".join([*added, f"sync {middle // SECOND}.{middle % SECOND:09}", *modified, ""])


def rules_by(draws, word):
    return [f"{word} ip,nw_dst=10.0.{subnet}.0/24,actions={PORTS[draws.below(len(PORTS))]}" for subnet in range(OCTETS)]
