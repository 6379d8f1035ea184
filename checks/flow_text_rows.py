#!/usr/bin/env python3
"""Worked rows of the flow text, each named by what it shows, against the simulation.

    python3 flow_text_rows.py

prints each row that the simulation gives otherwise, and ends with 1 where there is one.
"""
import os
import re
import struct
import sys

sys.dont_write_bytecode = True
HERE = os.path.dirname(os.path.abspath(__file__))
sys.path.insert(0, os.path.join(HERE, "..", "vectors"))
import expected
import make
from frames import ALL_FRAMES
from mutations import good_lines
from row_check import tell
from simulation.captures import Frame, write_trace
from simulation.flow_fields import TAG, full, packed
from simulation.flow_rules import Rules
from simulation.flow_text import TextFault, print_actions, print_match, read_script
from simulation.frame_key import key_of
from simulation.switch import simulate

# What a row shows, a file of edits, and the line, column and reason of its first fault.
FAULTS = """
# names
a name that is none                                  | foo=1,actions=2                            | 1:1 unknown name
a name without a text                                | =5,actions=2                               | 1:1 unknown name
an edit word ends at white space, not at a comma     | add,in_port=1,actions=2                    | 1:1 unknown name
an edit word in upper case                           | ADD in_port=1,actions=2                    | 1:1 unknown name
a register that isn't there                          | reg16=1,actions=2                          | 1:1 unknown name
a slice in a match                                   | tp_src[6..10]=19,actions=2                 | 1:1 unknown name
a field of a tunnel                                  | in_port=1,tun_id=5,actions=2               | 1:11 unsupported
a timeout                                            | idle_timeout=5,actions=2                   | 1:1 unsupported
a cookie with a mask                                 | cookie=1/1,actions=2                       | 1:1 unsupported
a cookie with a mask, repeated                       | cookie=1,cookie=2/1,actions=2              | 1:10 unsupported
a cookie in a delete                                 | delete cookie=1                            | 1:8 unsupported
# repetition
a field twice                                        | in_port=1,in_port=1,actions=2              | 1:11 repeated
a bit twice                                          | reg0=1/3,reg0=2/2,actions=2                | 1:10 repeated
a shorthand and its type                             | ip,dl_type=0x0800,actions=2                | 1:4 repeated
a shorthand and its protocol                         | tcp,nw_proto=6,actions=2                   | 1:5 repeated
two shorthands                                       | ip,tcp,actions=2                           | 1:4 repeated
two names of a key field                             | nw_src=10.0.0.1,arp_spa=10.0.0.1,actions=2 | 1:17 repeated
two names of a port                                  | tcp_dst=80,udp_dst=80,actions=2            | 1:12 repeated
a priority twice, bad or not                         | priority=1,priority=x,actions=2            | 1:12 repeated
a VLAN that says that there is no tag, and a priority| vlan_pcp=1,vlan_vid=5,actions=2            | 1:12 repeated
no tag, and a priority                               | vlan_pcp=1,dl_vlan=0xffff,actions=2        | 1:12 repeated
two VLANs                                            | dl_vlan=5,vlan_vid=0x1005,actions=2        | 1:11 repeated
a second value that is bad states no bit             | in_port=1,in_port=0,actions=2              | 1:19 bad value
# values
a port of 0                                          | in_port=0,actions=2                        | 1:9 bad value
a port of OpenFlow's own                             | in_port=65280,actions=2                    | 1:9 bad value
a leading zero                                       | priority=05,actions=2                      | 1:10 bad value
an upper X                                           | reg0=0X5,actions=2                         | 1:6 bad value
a number that doesn't fit                            | reg0=0x1ffffffff,actions=2                 | 1:6 bad value
table 255                                            | table=255,actions=2                        | 1:7 bad value
a prefix that is too long                            | ip,nw_dst=10.0.0.0/33,actions=2            | 1:11 bad value
an octet with a leading zero                         | ip,nw_src=010.0.0.1,actions=2              | 1:11 bad value
an octet above 255                                   | ip,nw_src=10.0.0.256,actions=2             | 1:11 bad value
a hexadecimal prefix                                 | ip,nw_src=10.0.0.0/0x8,actions=2           | 1:11 bad value
a MAC address of five groups                         | dl_src=1:2:3:4:5,actions=2                 | 1:8 bad value
an IPv6 address with two gaps                        | ipv6,ipv6_src=1::2::3,actions=2            | 1:15 bad value
an IPv6 address with a gap of no group               | ipv6_src=1:2:3:4:5:6:7::8,actions=2        | 1:10 bad value
a mask where there is none                           | in_port=1/1,actions=2                      | 1:9 bad value
a TOS with ECN bits                                  | ip,nw_tos=3,actions=2                      | 1:11 bad value
a DSCP of seven bits                                 | ip,ip_dscp=64,actions=2                    | 1:12 bad value
a VLAN of thirteen bits                              | dl_vlan=4096,actions=2                     | 1:9 bad value
a fragment word that is none                         | ip,ip_frag=some,actions=2                  | 1:12 bad value
a bad value that would be dropped                    | nw_ttl=256,actions=2                       | 1:8 bad value
# form
no actions                                           | in_port=1                                  | 1:10 syntax
no actions before a comment                          | in_port=1 # none                           | 1:11 syntax
an edit word alone                                   | add                                        | 1:4 syntax
actions without a list                               | in_port=1,actions                          | 1:11 syntax
actions in a delete                                  | delete in_port=1,actions=2                 | 1:18 syntax
a field without a value                              | in_port,actions=2                          | 1:1 syntax
a shorthand with a value                             | ip=1,actions=2                             | 1:1 syntax
a counter without a value                            | n_packets,actions=2                        | 1:1 syntax
a byte above 127                                     | \\x80                                       | 1:1 syntax
a byte above 127 comes first                         | foo=1,\\x80                                 | 1:7 syntax
a byte above 127 among the actions                   | foo=1,actions=2,\\xff                       | 1:17 syntax
# sync lines
a time that falls                                    | sync 2\\nsync 1                             | 2:1 sync order
a sync line without a time                           | sync                                       | 1:1 syntax
a sync line with two times                           | sync 1 2                                   | 1:1 syntax
a second line, indented                              | \\n \\tsync 5.                               | 2:8 bad value
a time with a leading zero                           | sync 05                                    | 1:6 bad value
a time of 33 bits                                    | sync 4294967296                            | 1:6 bad value
a tenth digit                                        | sync 1.0123456789                          | 1:6 bad value
# bundles
a sync line in a bundle                              | begin\\nsync 1                              | 2:1 syntax
a bundle that no line ends                           | begin                                      | 1:1 syntax
the last of two bundles, indented                    | begin\\ncommit\\n begin # 2\\nactions=2       | 3:2 syntax
a line with a fault in a bundle that no line ends    | begin\\nfoo                                 | 2:1 unknown name
an end of no bundle                                  | commit                                     | 1:1 syntax
a second beginning                                   | begin\\nbegin                               | 2:1 syntax
a second end                                         | begin\\ncommit\\n\\tcommit                    | 3:2 syntax
a word behind a beginning                            | begin  1 2                                 | 1:8 syntax
a word behind an end                                 | begin\\ncommit 1                            | 2:8 syntax
a second beginning with a word behind it             | begin\\nbegin 1                             | 2:1 syntax
an end of no bundle with a word behind it            | commit 1                                   | 1:1 syntax
a byte above 127 behind an end of no bundle          | commit \\xff                                | 1:8 syntax
# actions
an action that is none                               | actions=2,bar                              | 1:11 unknown name
DROP                                                 | actions=DROP                               | 1:9 unknown name
mixed case                                           | actions=Flood                              | 1:9 unknown name
connection tracking                                  | actions=ct(commit),2                       | 1:9 unsupported
upper case                                           | actions=NORMAL                             | 1:9 unsupported
brackets that don't close                            | actions=resubmit(,1                        | 1:9 syntax
brackets of the other kind                           | actions=resubmit(,1]                       | 1:9 syntax
an open bracket runs to the end                      | actions=move:reg0[,2                       | 1:9 syntax
drop beside another                                  | actions=2,drop                             | 1:11 syntax
drop before another                                  | actions=drop,bar                           | 1:9 syntax
a word with a value                                  | actions=dec_ttl(1)                         | 1:9 syntax
a word with a colon                                  | actions=2,flood:                           | 1:11 syntax
output without a port                                | actions=output:                            | 1:9 syntax
output with brackets                                 | actions=output(2)                          | 1:9 syntax
port 0                                               | actions=0                                  | 1:9 bad value
a port with a letter                                 | actions=2,2x                               | 1:11 bad value
a port above the last                                | actions=output:70000                       | 1:16 bad value
resubmit to a port                                   | actions=resubmit:1                         | 1:9 unsupported
resubmit to a port and a table                       | actions=resubmit(1,2)                      | 1:9 unsupported
resubmit to connection tracking                      | actions=resubmit(,1,ct)                    | 1:9 unsupported
resubmit without a table                             | actions=resubmit(,)                        | 1:9 syntax
resubmit to a table with a blank                     | actions=resubmit(, 1)                      | 1:19 bad value
goto_table before another                            | actions=goto_table:1,2                     | 1:9 syntax
goto_table to no table before another                | actions=goto_table:999,2                   | 1:20 bad value
a load to a field that is none                       | actions=load:zz->foo[]                     | 1:18 unknown name
a load of no number                                  | actions=load:zz->reg0[]                    | 1:14 bad value
a load that doesn't fit                              | actions=load:16->reg0[0..3]                | 1:14 bad value
a load without an arrow                              | actions=load:5                             | 1:9 syntax
a load to a field that isn't written                 | actions=load:1->in_port[]                  | 1:9 unsupported
a load to a field of a tunnel                        | actions=load:1->tun_id[]                   | 1:9 unsupported
a slice beyond the field                             | actions=load:1->reg0[32]                   | 1:17 bad value
a slice from high to low                             | actions=load:1->reg0[3..2]                 | 1:17 bad value
set_field to a slice                                 | actions=set_field:1->reg0[0..3]            | 1:22 unknown name
set_field to the type                                | actions=set_field:1->dl_type               | 1:9 unsupported
set_field with a mask where there is none            | actions=set_field:1/1->nw_ttl              | 1:19 bad value
set_field to a VLAN without its tag bit              | actions=set_field:5->vlan_vid              | 1:19 bad value
a move between widths                                | actions=move:reg0[0..3]->reg1[0..4]        | 1:26 bad value
a move from a field that is none                     | actions=move:foo[]->in_port[]              | 1:14 unknown name
a VLAN of thirteen bits to set                       | actions=mod_vlan_vid:4096                  | 1:22 bad value
a tag of another type                                | actions=push_vlan:0x9100                   | 1:19 bad value
an address with a mask to set                        | actions=mod_nw_src:10.0.0.0/8              | 1:20 bad value
"""

# What a row shows, a line, and the match and the actions as they are printed.
PRINTS = """
a match without its prerequisite is dropped          | nw_src=10.0.0.1,actions=2                  |  output:2
names of ARP                                         | vlan_pcp=3,dl_vlan=7,arp,nw_src=10.0.0.1,nw_proto=1,actions= | arp,vlan_tci=0x7007,arp_spa=10.0.0.1,arp_op=1 drop
a prerequisite that is dropped states none           | ip,arp_op=6,tp_dst=80,actions=             | ip drop
a prerequisite of another protocol                   | tcp,udp_dst=80,actions=                    | tcp drop
a prerequisite that stands behind                    | tp_dst=80,nw_proto=17,dl_type=0x86dd,action=1 | udp6,tp_dst=80 output:1
white space, commas and a comment                    | \\t,in_port=1 ,,\\r reg0=0,actions= 1 , 2,# 3 | in_port=1,reg0=0x0 output:1,output:2
a CRLF line                                          | in_port=1 actions=all\\r                   | in_port=1 all
counters of a dump                                   | cookie=0x5, duration=1.5s, n_packets=0, priority=7,ip actions=drop | ip drop
masks that join                                      | reg0=1/1,reg0=2/2,actions=                 | reg0=0x3/0x3 drop
bits outside a mask                                  | nw_src=10.1.2.3/8,ip,actions=              | ip,nw_src=10.0.0.0/8 drop
a mask that is no prefix                             | ip,nw_src=10.1.2.3/255.0.255.0,actions=    | ip,nw_src=10.0.2.0/255.0.255.0 drop
a mask of 0 states nothing                           | reg0=5/0,reg0=7,actions=                   | reg0=0x7 drop
fragments                                            | ip,ip_frag=later,actions=                  | ip,ip_frag=later drop
fragments, bit by bit                                | ipv6,ip_frag=yes,ip_frag=not_later,actions=| ipv6,ip_frag=first drop
TOS and ECN                                          | ip,nw_ecn=1,ip_dscp=2,actions=             | ip,nw_tos=8,nw_ecn=1 drop
type and code                                        | icmp6,icmpv6_type=135,icmp_code=0,actions= | icmp6,icmp_type=135,icmp_code=0 drop
a VLAN without a word on the tag                     | vlan_vid=5/0xfff,actions=                  | vlan_tci=0x0005/0x0fff drop
no tag                                               | dl_vlan=65535,actions=                     | vlan_tci=0x0000 drop
IPv6 addresses                                       | ipv6,ipv6_src=2001:DB8::1/64,ipv6_dst=::10.0.0.1,actions= | ipv6,ipv6_src=2001:db8:0:0:0:0:0:0/64,ipv6_dst=0:0:0:0:0:0:a00:1 drop
part of a MAC address                                | dl_dst=1:0:0:0:0:0/01:00:00:00:00:00,actions= | dl_dst=01:00:00:00:00:00/01:00:00:00:00:00 drop
part of a port                                       | tcp,tcp_dst=0x50/0xfff0,actions=           | tcp,tp_dst=0x50/0xfff0 drop
another type                                         | dl_type=2054,nw_proto=2,arp_sha=1:2:3:4:5:6,actions= | arp,arp_op=2,arp_sha=01:02:03:04:05:06 drop
a protocol without a word                            | ip,nw_proto=132,actions=                   | ip,nw_proto=132 drop
names of OpenFlow                                    | NXM_OF_ETH_TYPE=0x86dd,NXM_NX_REG15=1,actions= | reg15=0x1,ipv6 drop
a load                                               | actions=load:5->NXM_NX_REG0[4..7]          |  set_field:0x50/0xf0->reg0
a load to a whole field                              | actions=load:0x0a000001->NXM_OF_IP_SRC[]   |  set_field:10.0.0.1->nw_src
a load to part of an address                         | actions=load:10->ip_dst[24..31]            |  set_field:10.0.0.0/8->nw_dst
a set_field, cut to its mask                         | actions=set_field:5/3->reg0                |  set_field:0x1/0x3->reg0
a VLAN, cut to its mask                              | actions=set_field:0x1005/0xfff->vlan_vid   |  set_field:0x5/0xfff->vlan_vid
a VLAN with its tag bit                              | actions=set_field:0x1005->vlan_vid         |  set_field:4101->vlan_vid
a set_field of no bits                               | actions=set_field:0/0->vlan_tci            |  set_field:0x0000/0x0000->vlan_tci
the mod actions                                      | actions=mod_dl_src:a:b:c:d:e:f,mod_nw_tos:8,mod_tp_dst:0x50,mod_vlan_vid:0,mod_vlan_pcp:7 |  set_field:0a:0b:0c:0d:0e:0f->dl_src,set_field:8->nw_tos,set_field:80->tp_dst,mod_vlan_vid:0,mod_vlan_pcp:7
tags                                                 | actions=push_vlan:33024,strip_vlan,pop_vlan |  push_vlan:0x8100,pop_vlan,pop_vlan
a service tag                                        | actions=push_vlan:34984                    |  push_vlan:0x88a8
outputs                                              | actions=2,output:0x3,IN_PORT,output:FLOOD,output:in_port[],output:reg1 |  output:2,output:3,in_port,flood,output:in_port[0..15],output:reg1[0..31]
slices                                               | actions=move:icmp_type->reg0[0..15],move:vlan_vid[]->metadata[51..63],move:reg1[7]->nw_ecn[0x1] |  move:icmp_type[0..15]->reg0[0..15],move:vlan_vid[0..12]->metadata[51..63],move:reg1[7..7]->nw_ecn[1..1]
tables                                               | actions=resubmit(,0),dec_ttl,goto_table:254 |  resubmit(,0),dec_ttl,goto_table:254
"""

# What a row shows, edits, the numbers of the rules that live after them with their actions, and the changes.
VERSIONS = """
a modify reaches the more specific                   | in_port=1,actions=2\\nin_port=1,dl_dst=0:0:0:0:0:2,actions=3\\nmodify in_port=1,actions=4 | 1 output:4; 2 output:4 | 4
a strict delete reaches its own, and an add replaces | in_port=1,actions=2\\nin_port=1,dl_dst=0:0:0:0:0:2,actions=3\\nmodify in_port=1,actions=4\\ndelete_strict in_port=1\\nadd in_port=1,dl_dst=0:0:0:0:0:2,actions=5 | 5 output:5 | 7
loose words reach all tables, whatever the priority  | table=3,priority=7,ip,actions=2\\nactions=3\\ndelete priority=1,ip | 2 output:3 | 3
a loose word with a table                            | table=3,actions=2\\nactions=3\\ndelete table=3 | 2 output:3 | 3
a strict word without a table means table 0          | table=3,actions=2\\nactions=3\\nmodify_strict actions=drop | 1 output:2; 2 drop | 3
a modify that reaches no rule                        | modify in_port=1,actions=2 |  | 0
a delete of all                                      | in_port=1,actions=2\\nactions=3\\ndelete |  | 4
a match of fewer bits isn't more specific            | reg0=1/1,actions=2\\ndelete reg0=1/3 | 1 output:2 | 1
in a bundle edits act one after the other            | begin\\nactions=2\\ndelete\\ncommit\\nbegin\\nactions=3\\ncommit | 3 output:3 | 3
"""


def rows_of(table):
    for line in table.split("\n"):
        if line and not line.startswith("# "):
            name, text, *wanted = line.split("|")
            data = text.strip(" ").encode().decode("unicode_escape").encode("latin-1")
            yield name.strip(), data, [it.strip() for it in wanted]


def fault_of(data):
    try:
        read_script(data)
    except TextFault as fault:
        return f"{fault.line}:{fault.column} {fault.reason}"
    return "accepted"


def print_of(data):
    edit = read_script(data).edits[0]
    return f"{print_match(edit.matching)} {print_actions(edit.actions)}".strip()


def is_respellable(action):
    """Whether an action can be written in flow text as it is printed."""
    if action.kind != "Set":
        return True
    field, value, mask = action.arguments
    return (field.masked or mask == full(field.width)) and (field.name != "vlan_vid" or value & TAG)


def reads_back(line):
    """Whether what is printed of a line is read as what it is, the actions where they can be written so."""
    edit = read_script(line).edits[0]
    actions = edit.actions if all(map(is_respellable, edit.actions)) else []
    again = read_script(f"{print_match(edit.matching)} actions={print_actions(actions)}".encode()).edits[0]
    return again.matching == edit.matching and again.actions == actions


def version_of(data):
    rules = Rules()
    for bundle in read_script(data).bundles:
        rules.apply(bundle)
    live = "; ".join(f"{rule.number} {print_actions(rule.actions)}" for rule in rules.live.values())
    return live, str(rules.changes)


# ---- runs

FRAME = bytes.fromhex("000000000002 000000000001 88b5") + bytes(46)


def trace(*times):
    return write_trace([Frame(time * 1000000000, 1, 1, FRAME) for time in times], 1000)


def run(edits, *times, ports=(1, 2)):
    """How a run ends: what refused it, or the times of the frames in each port file."""
    files = {"edits": edits, "a.pcap": trace(*times)}
    words = ["edits", "out", "1=a.pcap", *(f"{port}=" for port in ports[1:])]
    status, text, written = simulate(words, files.__getitem__)
    files = [data for name, data in written if name.endswith(".pcap")]
    sent = [[struct.unpack_from("<I", data, at)[0] for at in range(24, len(data), 76)] for data in files]
    return status, text.strip() if status else "", sent


def refused(status, text):
    return status, text, []


MANY_CHANGES = b"actions=2,3\n" + b"".join(b"priority=%d,actions=2\n" % place for place in range(1024))
MODIFY_ALL = b"modify actions=3\n"

RUNS = {
    "an output": (run(b"in_port=1,actions=2", 1), (0, "", [[], [1]])),
    "a frame that no rule matches": (run(b"", 1), (0, "", [[], []])),
    "in_port sends back": (run(b"actions=in_port", 1), (0, "", [[1], []])),
    "all and flood go to the others": (run(b"actions=all,FLOOD", 1, ports=(1, 2, 3)), (0, "", [[], [1, 1], [1, 1]])),
    "a strict delete at a sync line": (
        run(b"priority=5,in_port=1,actions=2\npriority=5,dl_dst=0:0:0:0:0:2,actions=3\nsync 2\n"
            b"delete_strict priority=5,in_port=1", 1, 2, ports=(1, 2, 3)),
        (0, "", [[], [1], [2]]),
    ),
    "a field without its prerequisite takes every frame": (run(b"nw_src=10.0.0.1,actions=2", 1), (0, "", [[], [1]])),
    "128 outputs": (run(b"actions=" + b"all," * 64, 1, ports=(1, 2, 3)), (0, "", [[], [1] * 64, [1] * 64])),
    "129 outputs drop the frame": (run(b"actions=" + b"all," * 43, 1, ports=(1, 2, 3, 4)), (0, "", [[], [], [], []])),
    "a fault": (run(b"in_port=1,in_port=1,actions=2", 1), refused(3, "edits:1:11: repeated")),
    "a line at its limit": (run(b"actions=2".ljust(4096), 1), (0, "", [[], [1]])),
    "a line over its limit": (run(b"actions=2".ljust(4097), 1), refused(7, "limit: line 4096")),
    "a blank line over its limit": (run(b" " * 4097, 1), refused(7, "limit: line 4096")),
    "64 actions": (run(b"actions=" + b"2 " * 64, 1), (0, "", [[], [1] * 64])),
    "65 actions": (run(b"actions=" + b"2 " * 65, 1), refused(7, "limit: actions 64")),
    "65 actions, the last of which is none": (run(b"actions=" + b"2 " * 64 + b"foo", 1), refused(7, "limit: actions 64")),
    "goto_table as the 64th of 65": (run(b"actions=" + b"2 " * 63 + b"goto_table:1 2", 1), refused(3, "edits:1:135: syntax")),
    "32,769 edits": (run(b"delete\n" * 32768 + b"foo", 1), refused(7, "limit: edits 32768")),
    "64 sync lines": (run(b"sync 1\n" * 63 + b"sync x", 1), refused(7, "limit: syncs 63")),
    "32 MiB": (run(b"\n" * 33554433, 1), refused(7, "limit: edits-bytes 33554432")),
    "changes at their limit": (run(MANY_CHANGES + MODIFY_ALL * 1022 + b"delete in_port=1\n", 1)[0], 0),
    "changes over their limit": (
        run(MANY_CHANGES + MODIFY_ALL * 1023 + b"actions=dec_ttl", 1), refused(7, "limit: changes 1048576"),
    ),
    "actions that rewrite": (run(b"actions=dec_ttl,2", 1), (0, "", [[], [1]])),
    "a fault after actions that rewrite": (run(b"actions=dec_ttl\nfoo", 1), refused(3, "edits:2:1: unknown name")),
}


def is_key_as_printed(frame, printed):
    """Whether the key of a frame is what tshark printed of it, in the profile (vectors/)."""
    wanted = expected.by_the_rules(printed[frame.name], frame.difference).key
    named = {re.sub("(?<!^)([A-Z])", r"_\1", name).lower(): number for name, number in wanted.items()}
    return packed(key_of(expected.PORT, frame.bytes)) == packed(named)


def all_rows():
    """Each row: its name, what is given, and what is wanted."""
    for name, data, wanted in rows_of(FAULTS):
        yield name, fault_of(data), wanted[0]
    for name, data, wanted in rows_of(PRINTS):
        yield name, print_of(data), wanted[0]
    for line in good_lines():
        yield f"what is printed of {line!r} is read as it was", reads_back(line), True
    for name, data, wanted in rows_of(VERSIONS):
        yield name, version_of(data), tuple(wanted)
    for name, (given, wanted) in RUNS.items():
        yield name, given, wanted
    printed = make.read_table()
    for frame in ALL_FRAMES:
        yield f"the key of {frame.name}", is_key_as_printed(frame, printed), True


if __name__ == "__main__":
    sys.exit(tell(all_rows()))
