"""The flow tracer: words and a file of edits in, and the status and the text that a trace ends with."""
from collections import namedtuple

from .classifier import Tables
from .command_words import MOST_PORTS, NUMBER, is_text
from .dump_text import print_bits, print_datapath_actions, print_entry_match
from .dumps import text_of
from .flow_fields import KEY_FIELDS, full, unpacked
from .flow_text import LAST_PORT, TextFault, print_actions, print_match, read_flow, refuse_over
from .refusals import DONE, READ_FAULT, USAGE, Refused
from .switch import read_edits, read_text
from .translation import REGISTERS, trace

NO_PORT = 10
USAGE_TEXT = "usage: megatrace EDITS FLOW PORTS"
FLOW = "flow"

Command = namedtuple("Command", "edits flow ports")
Result = namedtuple("Result", "status text")


def check_words(holds):
    if not holds:
        raise Refused(USAGE, USAGE_TEXT)


def read_ports(text):
    words = text.split(",")
    check_words(len(words) <= MOST_PORTS and all(map(NUMBER.fullmatch, words)))
    ports = [int(word) for word in words]
    check_words(all(1 <= port <= LAST_PORT for port in ports) and len(set(ports)) == len(ports))
    return ports


def read_words(words):
    check_words(len(words) == 3 and all(map(is_text, words)))
    edits, flow, ports = words
    check_words(edits and flow and "\n" not in flow)
    return Command(edits, flow, read_ports(ports))


def read_key(flow):
    """The key that a flow states, read as what follows the word `delete` is. Its only line is line 1."""
    line = flow.encode().decode("latin-1")
    refuse_over(len(line), "line")
    try:
        said, _ = read_flow(line, 0, "delete")
    except TextFault as fault:
        raise TextFault(fault.reason, fault.column, 1) from None
    return said.matching.key & ~REGISTERS


def print_key(key):
    """Each field that isn't 0, by its own name."""
    values = unpacked(key)
    return ",".join(print_bits(it.name, values[it.name], full(it.width)) for it in KEY_FIELDS if values[it.name])


def lookup_line(lookup):
    head = f"{lookup.depth} table={lookup.table}"
    if lookup.rule is None:
        return f"{head} no match"
    rule = lookup.rule
    match = print_match(rule.matching)
    return f"{head} rule={rule.number} priority={rule.priority}{match and ' '}{match} actions={print_actions(rule.actions)}"


def traced_text(rules, ports, key):
    path, last, translated = trace(Tables(rules.live.values()), ports, key)
    return text_of([
        f"flow: {print_key(key)}",
        *map(lookup_line, path),
        f"last: {print_key(last)}",
        f"megaflow: {print_entry_match(key, translated.mask)}",
        f"datapath: {print_datapath_actions(translated.actions)}",
    ])


def traced(words, contents):
    """How a trace ends, where contents gives the bytes of the file of a name or raises an OSError."""
    try:
        command = read_words(words)
        try:
            data = contents(command.edits)
        except OSError:
            raise Refused(READ_FAULT, f"read fault: {command.edits}")
        _, rules = read_text(read_edits, data, command.edits)
        key = read_text(read_key, command.flow, FLOW)
        port = unpacked(key)["in_port"]
        if port not in command.ports:
            raise Refused(NO_PORT, f"no such port: {port}")
    except Refused as refused:
        return Result(refused.args[0], refused.args[1] + "\n")
    return Result(DONE, traced_text(rules, command.ports, key))
