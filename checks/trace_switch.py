#!/usr/bin/env python3
"""Compares traces with those of `ovs-appctl ofproto/trace`, on made-up flows over made-up tables.

    python3 trace_switch.py [PROGRAM [FLOWS]]

PROGRAM is a built `megatrace`; where none is named the simulation is compared. Of each flow the lookups have to be the same
in both, with their tables and rules, and so does what is sent: the same ports in the same order, each with the same fields
of the packet. Depths aren't compared, since Open vSwitch doesn't indent what a last action leads to; nor is the order of
the ports of a flood, which is open there. The tables keep to what docs/OPEN_VSWITCH.md tells to be alike in both: each rule
states what its writes need and has a priority of its own, and resubmits lead forward. It prints each flow that is
otherwise, and then ends with 1.
"""
import os
import random
import re
import sys
from collections import namedtuple
from itertools import groupby

sys.dont_write_bytecode = True
TOP = os.path.join(os.path.dirname(os.path.abspath(__file__)), "..")
sys.path.insert(0, os.path.join(TOP, "vectors"))
import open_vswitch
from trace_rows import ended
from simulation.flow_fields import KEY_FIELD, TAG, print_value, read_value, NAMED_FIELD

PORTS = [1, 2, 3, 4]
TABLES = [0, 1, 2, 3]
FLOWS, FLOWS_OF_TABLES = 200, 20
PRIORITY_SHIFT = 13

MACS = ["00:00:00:00:00:01", "00:00:00:00:00:02", "02:00:00:00:00:0a"]
ADDRESSES = ["10.0.0.1", "10.0.0.2", "10.0.1.7", "192.168.0.1"]
PREFIXES = ["10.0.0.0/8", "10.0.0.0/24", "192.168.0.0/16", *ADDRESSES]
NUMBERS = ["0", "1", "80", "443", "65535"]
TTLS = ["0", "1", "2", "64", "255"]
IP = {"nw_src": ADDRESSES, "nw_dst": ADDRESSES, "nw_ttl": TTLS, "nw_tos": ["0", "4", "32"]}
TCP = {"tcp_src": NUMBERS, "tcp_dst": NUMBERS}
UDP = {"udp_src": NUMBERS, "udp_dst": NUMBERS}
# What a flow of a kind states beside its addresses and its port.
KINDS = {
    "tcp": IP | TCP, "udp": IP | UDP, "icmp": IP | {"icmp_type": ["0", "8"], "icmp_code": ["0", "1"]},
    "arp": {"arp_spa": ADDRESSES, "arp_tpa": ADDRESSES, "arp_op": ["1", "2"], "arp_sha": MACS, "arp_tha": MACS},
    "dl_type=0x88b5": {},
}
# What may be written on it.
ON_IP = {"mod_nw_src": ADDRESSES, "mod_nw_dst": ADDRESSES, "mod_nw_tos": ["0", "4", "32"], "dec_ttl": None}
ON_TRANSPORT = {"mod_tp_src": NUMBERS, "mod_tp_dst": NUMBERS}
WRITES = {"tcp": ON_IP | ON_TRANSPORT, "udp": ON_IP | ON_TRANSPORT, "icmp": ON_IP, "arp": {}, "dl_type=0x88b5": {}}
ON_ALL = {"mod_dl_src": MACS, "mod_dl_dst": MACS, "mod_vlan_vid": ["0", "5", "4095"], "mod_vlan_pcp": ["0", "7"], "strip_vlan": None}

# A lookup: its table, and the number of its rule, or None.
Lookup = namedtuple("Lookup", "table rule")


# ---- what is made


class Maker:
    def __init__(self, number):
        self.pick = random.Random(number)

    def one(self, *of):
        return self.pick.choice(of)

    def some(self, names, most):
        return self.pick.sample(list(names), min(len(names), self.pick.randrange(most + 1)))

    def flow(self):
        """A whole packet, with a tag now and then."""
        kind = self.one(*KINDS)
        stated = {"dl_src": MACS, "dl_dst": MACS, **KINDS[kind]}
        items = [f"in_port={self.one(*PORTS)}", kind, *(f"{name}={self.one(*values)}" for name, values in stated.items())]
        if self.pick.random() < 0.3:
            items.append(f"dl_vlan={self.one(5, 7)}")
        return ",".join(items)

    def match(self, kind):
        stated = {"dl_dst": MACS, "in_port": PORTS, "reg0": ["1", "2"], **KINDS[kind]}
        items = [kind]
        for name in self.some(stated, 2):
            values = PREFIXES if name in ("nw_src", "nw_dst") else stated[name]
            items.append(f"{name}={self.one(*values)}")
        return items

    def action(self, kind, table):
        later = [it for it in TABLES if it > table]
        what = self.pick.random()
        if what < 0.35 and later:
            return f"resubmit(,{self.one(*later)})"
        if what < 0.55:
            return self.one(*(f"output:{port}" for port in PORTS), "in_port", "all", "output:reg1[0..15]")
        if what < 0.75:
            return self.one("load:1->reg0[]", "load:2->reg0[]", "load:3->reg1[]", "move:reg0[0..15]->reg1[0..15]")
        writes = ON_ALL | WRITES[kind]
        name = self.one(*writes)
        return name if writes[name] is None else f"{name}:{self.one(*writes[name])}"

    def rule(self, number):
        """A rule whose number is its cookie and, so that no two tie, its priority."""
        table = self.one(0, 0, *TABLES)
        kind = self.one(*KINDS)
        actions = [self.action(kind, table) for _ in range(self.one(1, 2, 3, 4))]
        items = [f"table={table}", f"priority={number}", f"cookie={number}", *self.match(kind)]
        return f"{','.join(items)},actions={','.join(actions)}"

    def rules(self):
        return [self.rule(number) for number in range(1, 40)]


# ---- what is sent


def outputs_of(key, steps):
    """What steps send of a packet: runs of ports, each with the packet as it then is. A step writes fields or is a port."""
    key, sent = dict(key), []
    for step in steps:
        if isinstance(step, int):
            sent.append((tuple(sorted(key.items())), step))
        else:
            for name, value, mask in step:
                key[name] = key.get(name, 0) & ~mask | value & mask
    return [(packet, sorted(port for _, port in run)) for packet, run in groupby(sent, key=lambda it: it[0])]


def split(text):
    """Items with commas between them outside of brackets."""
    return re.findall(r"(?:[^,()]|\((?:[^()]|\([^()]*\))*\))+", text)


def number_of(name, text):
    """The value and the mask of a field, in this project's form or in that of Open vSwitch."""
    field = NAMED_FIELD[name]
    value, _, mask = text.partition("/")
    whole = (1 << KEY_FIELD[field.key].width) - 1
    read = lambda it: int(it, 0) if re.fullmatch("0x[0-9a-f]+|[0-9]+", it) else read_value(field, it)[0]
    return field.key, read(value), read(mask) if mask and not mask.isdigit() else whole_or_prefix(whole, mask)


def whole_or_prefix(whole, mask):
    return whole & ~(whole >> int(mask)) if mask else whole


def tag_step(text):
    found = re.fullmatch(r"push_vlan\(vid=([0-9]+),pcp=([0-9]+)\)", text)
    return [("vlan_tci", TAG | int(found[1]) | int(found[2]) << PRIORITY_SHIFT, 0xFFFF)]


def step_here(text):
    if text.isdigit():
        return int(text)
    if text == "pop_vlan":
        return [("vlan_tci", 0, 0xFFFF)]
    if text.startswith("push_vlan"):
        return tag_step(text)
    name, _, value = text[len("set(") : -1].partition("=")
    return [number_of(name, value)]


# The fields of a header by the names that Open vSwitch has for them in a `set`.
THERE = {
    "eth": {"src": "dl_src", "dst": "dl_dst"},
    "ipv4": {"src": "nw_src", "dst": "nw_dst", "tos": "nw_tos", "ttl": "nw_ttl"},
    "tcp": {"src": "tp_src", "dst": "tp_dst"}, "udp": {"src": "tp_src", "dst": "tp_dst"},
}


def step_there(text):
    if text.startswith("p") and text[1:].isdigit():
        return int(text[1:])
    if text.startswith(("pop_vlan", "push_vlan")):
        return step_here(text)
    header, _, fields = text[len("set(") : -2].partition("(")
    pairs = [item.split("=") for item in fields.split(",")]
    return [number_of(THERE[header][name], value) for name, value in pairs]


# ---- what is told


def trace_here(text):
    """The lookups and the datapath actions of a trace of this project."""
    lines = text.splitlines()
    found = [re.fullmatch(r"[0-9]+ table=([0-9]+) (?:no match|rule=([0-9]+) .*)", line) for line in lines]
    path = [Lookup(int(it[1]), it[2] and int(it[2])) for it in found if it]
    actions = lines[-1].removeprefix("datapath: ")
    return path, [] if actions == "drop" else [step_here(it) for it in split(actions)]


LOOKUP_THERE = re.compile(r" *([0-9]+)\. (?:No match\.|(?:.*, )?priority [0-9]+(?:, cookie 0x([0-9a-f]+))?)")


def trace_there(text):
    """Those of a trace of Open vSwitch."""
    found = [LOOKUP_THERE.fullmatch(line) for line in text.splitlines()]
    path = [Lookup(int(it[1]), it[2] and int(it[2], 16)) for it in found if it]
    actions = re.search("^Datapath actions: (.*)$", text, re.MULTILINE)[1]
    # The bridge itself is a port of Open vSwitch, to which it floods.
    steps = [it for it in split(actions) if it not in ("drop", "br0")]
    return path, [step_there(it) for it in steps]


def key_here(text):
    """The packet of a trace."""
    items = [item.split("=") for item in text.splitlines()[0].removeprefix("flow: ").split(",")]
    return {name: number_of(name, value)[1] if name != "ip_frag" else 0 for name, value in items}


def difference(program, edits, flow, there):
    status, text = ended(program, ["edits", flow, ",".join(map(str, PORTS))], {"edits": edits})
    if status:
        return f"status {status}: {text}"
    here = trace_here(text)
    if here[0] != there[0]:
        return f"the lookups are {here[0]}, in Open vSwitch {there[0]}"
    key = key_here(text)
    sent = [outputs_of(key, steps) for steps in (here[1], there[1])]
    return None if sent[0] == sent[1] else f"{sent[0]} is sent, in Open vSwitch {sent[1]}"


def main(words):
    if not open_vswitch.is_installed():
        print(f"not compared: Open vSwitch is not installed ({open_vswitch.PACKAGE})")
        return 0
    program = os.path.abspath(words[0]) if words else None
    count = int(words[1]) if len(words) > 1 else FLOWS
    wrong = missed = sent = 0
    with open_vswitch.Switch(PORTS) as switch:
        for number in range(count):
            if number % FLOWS_OF_TABLES == 0:
                maker = Maker(number)
                rules = maker.rules()
                switch.replace_flows(rules)
                edits = "".join(rule + "\n" for rule in rules).encode()
            flow = maker.flow()
            there = trace_there(switch.traced(flow))
            missed += any(lookup.rule is None for lookup in there[0])
            sent += bool(there[1])
            if how := difference(program, edits, flow, there):
                wrong += 1
                print(f"{flow}: {how}")
    print(f"{count} flows, {missed} of them with a lookup that misses and {sent} that are sent; {wrong} are otherwise")
    return wrong > 0 or not missed or not sent


if __name__ == "__main__":
    sys.exit(main(sys.argv[1:]))
