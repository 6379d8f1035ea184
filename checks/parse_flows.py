#!/usr/bin/env python3
"""Compares how flow text is read and printed with `ovs-ofctl parse-flows` of Open vSwitch, which needs no daemon.

    python3 parse_flows.py [LAYERS]

takes the lines of flow_lines.txt and those of the examples' files of edits, but for sync lines. Of each line it is
compared whether it is accepted; where both accept it, what ovs-ofctl prints of it is read here and has to mean the
same, and what is printed here of it, as a line of dumped rules, is read by ovs-ofctl and has to mean the same. It is the
simulation that prints here. Where the program LAYERS is given, which crates/tool_layers is, it has to print the
match and the actions of each line that is accepted here alike.

docs/OPEN_VSWITCH.md says where the two differ by intention. Each such difference is a kind below, with its reason. A
line that differs otherwise is printed, as is a kind that no line shows, and the status is then 1.

ovs-ofctl speaks OpenFlow 1.0 here, as it does by default, but for lines that this version has no actions for.
"""
import glob
import os
import re
import shutil
import subprocess
import sys
import tempfile
from collections import namedtuple
from concurrent.futures import ThreadPoolExecutor
from itertools import zip_longest

sys.dont_write_bytecode = True
HERE = os.path.dirname(os.path.abspath(__file__))
EXAMPLES = os.path.join(HERE, "..", "examples")
from simulation.flow_text import DELETES, WORDS, OverLimit, Slice, TextFault, print_actions, print_match, read_script

# OpenFlow 1.0 has no masks of set_field, no tags to push and no goto_table.
NEEDS_NEWER = re.compile("set_field|push_vlan|goto_table")
OLD, NEW = "OpenFlow10", "OpenFlow15"

MOD = re.compile(r"\w+ (?:\(OF1\.5\) )?\(xid=0x[0-9a-f]+\): ADD ?(.*)")

# A kind of difference: the lines that have it, or the faults here, and the reason.
Kind = namedtuple("Kind", "pattern reason")

ACCEPTED_THERE = [
    Kind("^repeated", "bits, shorthands and numbers may be stated again there, and the last stands"),
    Kind("^unsupported", "fields and actions that are left out here, or aren't written"),
    Kind("^actions 64", "no limit of 64 actions"),
    Kind("^bad value: .*in_port=(0|65280|LOCAL),", "ports that are none, and names of ports"),
    Kind(r"^bad value: .*(reg0=010|=010\.0|,01\)|=02$)", "leading zeros; of a number they mean octal there"),
    Kind(r"^bad value: .*dl_dst=(\*|002)", "any number of digits in a group, and * for anything"),
    Kind(r"^bad value: .*(vlan_vid=8192|vlan_pcp=8|dl_vlan=4096|arp_op=256|\.256)", "cut to the field there"),
    Kind("^bad value: .*(nw_tos=3|ip_dscp=64|nw_ecn=4),", "cut to the field there"),
    Kind("^bad value: .*table=255", "no table there"),
    Kind("^bad value: .*goto_table:255", "a table there"),
    Kind("^bad value: actions=0$", "a port that is none"),
    Kind(r"^bad value: .*resubmit\(, 1\)", "white space in brackets"),
    Kind(r"^bad value: .*ICMP_TYPE\[\]->.*\[0\.\.7\]", "types and codes have 8 bits in slices there, here 16"),
    Kind("^syntax: (reg0|reg0=),", "a field without a value states nothing there"),
    Kind("^syntax: ip=", "a value of a shorthand isn't looked at there"),
    Kind(r"^syntax: .*(\(1\)|\(2\)|:1|\(\)|=100\))$", "values of words, and more forms of output and goto_table"),
    Kind("^syntax: .*drop drop", "drop may stand beside itself there"),
    Kind(r"^syntax: .*resubmit\(,1$", "brackets need not close there"),
    Kind("^unknown name: (ip4|eth|ip,nw_frag)", "further names of shorthands and fields"),
    Kind(r"^unknown name: .*tp_src\[", "slices in matches"),
    Kind("^unknown name: .*(Flood|DROP|output=2|table$)", "names in any case, = for a colon, and the action table"),
    Kind("^unknown name: .*(check_pkt_larger)", "actions that this profile doesn't name"),
    Kind("^unknown name: .*->OXM_OF_(ETH_SRC|TCP_DST)", "OXM names beside the NXM ones"),
]
ACCEPTED_HERE = [
    Kind("^[^:]*[NO]XM_.*=.*,action|->NXM_NX_REG0$", "names in capitals stand in slices alone there"),
    Kind(r"(in_port|table)=0x|output:0x|\(,0x", "no hexadecimal numbers of ports and tables there"),
    Kind("ipv6_dst=.*/0:", "a mask that begins with a decimal digit is taken for a length there"),
    Kind("table=.*goto_table", "a later table alone there"),
    Kind("udp.*tp_(src|dst)", "tp_src and tp_dst in actions are those of TCP there"),
    Kind("^(ip,)?actions=(set_field:[0-9.]+->(tcp_dst|nw_src)|mod_(nw_src|tp_dst):.*)$", "what a write needs is asked for"),
    Kind("(set_field|mod_nw_tos):3(->nw_tos)?$", "a TOS with ECN bits; here they are left alone"),
    Kind(r"VLAN_VID\[\]", "vlan_vid has 12 bits in slices there, here 13"),
    Kind(r"icmp_type\[\]->.*\.15\]|arp_op\[\]->.*\.7\]", "slices are as wide as the field there, here as the key's"),
    Kind("set_field:(5/3|0x1005/0xfff)->", "bits of the value outside the mask are refused by the switch with OpenFlow 1.5"),
    Kind("load:5->OXM_OF_VLAN_VID", "the switch refuses a VLAN that is set without its tag bit with OpenFlow 1.5"),
]
READ_OTHERWISE = [
    Kind("^reg0=1/1,reg0=2/2", "the last of two masks stands there"),
    Kind("^vlan_vid=[05],", "without bit 0x1000 it means no tag by OpenFlow 1.0; here and from 1.2 on no frame"),
    Kind("^(tcp,udp|udp,tcp|tcp,icmp|icmp,tp|icmp,icmpv6|ip,arp)_", "names of another protocol stand for the field there"),
    Kind("^cookie=0xffffffffffffffff", "this cookie means none there"),
    Kind("dl_type=0x8847", "its word is printed there"),
    Kind("set_field:0/0->", "a set_field of no bits, which is printed as ANY there"),
    Kind("push_vlan:.*mod_vlan_vid", "printed as set_field there by newer versions"),
    Kind(r"move:OXM_OF_VLAN_VID\[0", "vlan_vid has 12 bits in slices there, and is printed without bounds"),
]
PRINT_REFUSED = [
    Kind("^ipv6.*/::", "a mask of IPv6 is printed with all groups here, and taken for a length there"),
    Kind("^ipv6,actions=load:1->NXM_NX_IPV6_SRC", "the same"),
    Kind("^udp6?,actions=mod_tp_", "printed as set_field of tp_src or tp_dst here, which are those of TCP there"),
]


# ---- lines


def table_lines():
    with open(os.path.join(HERE, "flow_lines.txt")) as file:
        lines = [line.rstrip("\n").replace("\\t", "\t") for line in file]
    return [line for line in lines if line and not line.startswith("#")]


def example_lines():
    """The flows of the examples without their words. What is deleted is compared as what is dropped."""
    for name in sorted(glob.glob(os.path.join(EXAMPLES, "*", "edits"))):
        with open(name) as file:
            for line in map(str.strip, file):
                word, _, rest = line.partition(" ")
                if line and not line.startswith("#") and word != "sync":
                    flow = rest if word in WORDS else line
                    yield flow + ",actions=drop" if word in DELETES else flow


def read_here(line):
    """The edit of a line, or the fault or limit."""
    try:
        return read_script(line.encode()).edits[0]
    except TextFault as fault:
        return fault.reason
    except OverLimit as over:
        return f"{over.quantity} {over.most}"


def print_flow(edit):
    """The match and the actions of an edit."""
    return f"{print_match(edit.matching)} actions={print_actions(edit.actions)}"


def print_here(edit):
    """The edit as a line of dumped rules."""
    head = f"cookie={edit.cookie or 0:#x}, table={edit.table or 0}, n_packets=0, n_bytes=0, priority={edit.priority}"
    return f"{head}{',' if print_match(edit.matching) else ''}{print_flow(edit)} # rule=1"


def read_there(line, version):
    """What ovs-ofctl prints of a line, or None where it refuses it, or the switch would."""
    words = ["ovs-ofctl", "-O", version, "parse-flows", "-"]
    ran = subprocess.run(words, input=line.encode() + b"\n", capture_output=True)
    found = MOD.fullmatch(ran.stdout.decode().rstrip("\n").split("\n")[-1])
    return found[1] if ran.returncode == 0 and found else None


# ---- meanings


def as_read_here(text):
    """What ovs-ofctl printed, in the names that are read here. Full masks of fields that have none are left out."""
    text = re.sub(r" ?cookie:(0x[0-9a-f]+)", r" cookie=\1", text).replace("nw_frag=", "ip_frag=")
    text = re.sub(r"\btable:", "table=", text)
    return re.sub(r"/0x(?:3f(?=->ip_dscp)|3(?=->nw_ecn)|7(?=->vlan_pcp))", "", text)


def meaning(edit):
    """What an edit says of packets: the bits that are matched, written, moved and sent by."""
    actions = [meaning_of(action) for action in edit.actions]
    return edit.table or 0, edit.priority, edit.cookie or 0, edit.matching, actions


def meaning_of(action):
    if action.kind == "Set":
        field, value, mask = action.arguments
        # A write to nw_tos leaves the two low bits.
        mask = mask & ~3 if field.name == "nw_tos" else mask
        return field.key, (value & mask) << field.low, mask << field.low
    slices = [it for it in action.arguments if isinstance(it, Slice)]
    bits = [(it.field.key, it.field.low + it.low, it.field.low + it.high) for it in slices]
    return action.kind, bits or action.arguments


# ---- what the program prints


def printed_by(program, lines):
    """What the program prints of these lines, each the flow of an edit."""
    with tempfile.NamedTemporaryFile("w", suffix=".edits") as file:
        file.writelines(line + "\n" for line in lines)
        file.flush()
        return subprocess.run([program, "flows", file.name], capture_output=True, text=True).stdout.split("\n")[:-1]


def printed_otherwise(program, lines):
    """The lines of which the program prints something else than the simulation, with what it prints."""
    edits = [(line, read_here(line)) for line in lines]
    accepted = [(line, edit) for line, edit in edits if not isinstance(edit, str)]
    printed = printed_by(program, [line for line, _ in accepted])
    pairs = zip_longest(accepted, printed, fillvalue=None)
    return [f"{it and it[0]}: {text} is printed" for it, text in pairs if it is None or print_flow(it[1]) != text]


# ---- the comparison


class Comparison:
    """The differences that were found, and which kinds they showed."""

    def __init__(self):
        self.shown, self.wrong, self.agreed = set(), [], 0

    def explain(self, kinds, text, line, what):
        kind = next((it for it in kinds if re.search(it.pattern, text)), None)
        self.shown.add(kind)
        if kind is None:
            self.wrong.append(f"{line}: {what}")

    def compare(self, line):
        here = read_here(line)
        printed = "" if isinstance(here, str) else print_here(here)
        version = NEW if NEEDS_NEWER.search(line + printed) else OLD
        there = read_there(line, version)
        if isinstance(here, str):
            if there is not None:
                self.explain(ACCEPTED_THERE, f"{here}: {line}", line, f"refused here ({here}), and there {there}")
        elif there is None:
            self.explain(ACCEPTED_HERE, line, line, "refused there")
        else:
            self.compare_meanings(line, here, there, read_there(printed, version))
        self.agreed += isinstance(here, str) == (there is None)

    def compare_meanings(self, line, here, there, again):
        """What ovs-ofctl makes of the line, and of what is printed here, has to be what it means here."""
        if not self.means(there, here):
            self.explain(READ_OTHERWISE, line, line, f"there {there}")
        if again is None:
            self.explain(PRINT_REFUSED, line, line, f"{print_here(here)} is refused there")
        elif not self.means(again, here):
            self.explain(READ_OTHERWISE, line, line, f"{print_here(here)} is there {again}")

    def means(self, printed_there, edit):
        read = read_here(as_read_here(printed_there))
        return not isinstance(read, str) and meaning(read) == meaning(edit)


def main():
    if shutil.which("ovs-ofctl") is None:
        print("skipped: ovs-ofctl is not installed")
        return 0
    lines, comparison = [*table_lines(), *example_lines()], Comparison()
    for program in sys.argv[1:]:
        comparison.wrong += printed_otherwise(program, lines)
    with ThreadPoolExecutor(os.cpu_count()) as pool:
        list(pool.map(comparison.compare, lines))
    for wrong in sorted(comparison.wrong):
        print(wrong)
    kinds = [*ACCEPTED_THERE, *ACCEPTED_HERE, *READ_OTHERWISE, *PRINT_REFUSED]
    unseen = [kind for kind in kinds if kind not in comparison.shown]
    for kind in unseen:
        print(f"no line shows this difference: {kind.reason} ({kind.pattern})")
    agreed, wrong = comparison.agreed, len(comparison.wrong)
    print(f"{len(lines)} lines, both accept or refuse {agreed}, {wrong} differ without a reason")
    return bool(comparison.wrong or unseen)


if __name__ == "__main__":
    sys.exit(main())
