"""What the flow tables make of a packet: the datapath actions that a frame of its key is sent with, the rules that say
so, the bits of the key that they were found by, and the lookups on the way.

After ovs-actions(7), in the profile of docs/FORMATS.md: a write acts where the packet is what its field needs, and the
limits are on depth, lookups and datapath actions.

A flow action changes the key of the packet and nothing else. Only where the packet is sent, the frame is brought up to
date, by a datapath action for each field that differs. So a write may be silent because the field was what is written,
and has consulted the bits that it writes, as well as those that it reads.
"""
from collections import namedtuple

from .classifier import WHOLE, bits_of
from .flow_fields import CUSTOMER_TAG, ETHERTYPE_IPV4, ETHERTYPE_IPV6, TAG, TAG_FIELDS, full, is_stated, packed, unpacked
from .flow_text import Action

# The first lookup is at depth 0.
DEEPEST = 64
MOST_LOOKUPS = 512
MOST_DATAPATH_ACTIONS = 128

# A TTL that isn't lowered.
LAST_TTL = 1

VLAN_BITS = 0x0FFF
PRIORITY_BITS, PRIORITY_SHIFT = 0xE000, 13

# What no frame carries: it is 0 at first, so that no bit of it tells keys apart.
REGISTERS = WHOLE["metadata"] | sum(WHOLE[f"reg{number}"] for number in range(16))

# The fields of a frame that are written where they stand, before its tags change and after.
BEFORE_TAGS = ("dl_src", "dl_dst")
AFTER_TAGS = (
    "nw_src", "nw_dst", "ipv6_src", "ipv6_dst", "nw_tos", "nw_ttl", "arp_sha", "arp_tha", "tp_src", "tp_dst",
)


# What is done to a frame; the numbers of the rules that were found on the way, in order; and the mask: each key that has
# the same bits there has the same translation.
Translated = namedtuple("Translated", "actions visits mask")
# A lookup: how deep it is, and the rule that decided, or None.
Lookup = namedtuple("Lookup", "depth table rule")
# The lookups on the way, in order, the key at the end, and what came of it.
Traced = namedtuple("Traced", "path last translated")


class Stopped(Exception):
    """The packet is dropped: a limit was passed, or a tag pushed onto two tags."""


class ListEnded(Exception):
    """A list of actions ends before its last one."""


def trace(tables, ports, key):
    """What a packet of a key comes to by the tables of a version, told step by step."""
    translation = Translation(tables, ports, unpacked(key))
    try:
        translation.look_up(0, 0)
    except Stopped:
        translation.actions = []
    translated = Translated(translation.actions, translation.visits, translation.consulted & ~REGISTERS)
    return Traced(translation.path, packed(translation.packet), translated)


def translate(tables, ports, key):
    """What a packet of a key comes to by the tables of a version. Its actions are Output, Set, PushVlan and PopVlan."""
    return trace(tables, ports, key).translated


def fields_needed(field):
    """The fields of a key that say whether a packet is what a write to a named field needs."""
    if field.name in ("vlan_vid", "vlan_pcp"):
        return [name for fields in TAG_FIELDS for name in fields]
    if field.key in ("tp_src", "tp_dst"):
        return ["dl_type", "nw_proto", "ip_frag"]
    return ["dl_type"] if field.needs else []


def can_write(field, key):
    """Whether a packet is what a write to a named field needs."""
    if field.name in ("vlan_vid", "vlan_pcp"):
        return key["vlan_tci"] & TAG != 0
    if field.name in ("nw_src", "nw_dst"):
        return key["dl_type"] == ETHERTYPE_IPV4
    if field.key in ("tp_src", "tp_dst") and key["ip_frag"]:
        return False
    return is_stated(field.needs, key["dl_type"], key["nw_proto"])


def writable_bits(field):
    """Those of the bits of a named field that a write changes. The two low ones of nw_tos are those of nw_ecn."""
    return full(field.width) & ~3 if field.name == "nw_tos" else full(field.width)


def mask_of(slice_):
    return full(slice_.high + 1) & ~full(slice_.low)


def with_bits(number, value, mask):
    return number & ~mask | value & mask


def changed_bits(name, before, after):
    """The action that writes the bits of a field that differ, or none."""
    mask = before[name] ^ after[name]
    return [Action("Set", (name, after[name] & mask, mask))] if mask else []


def tags_of(key):
    """The tags of a key, the innermost first."""
    return [(key[tpid], key[tci]) for tpid, tci in reversed(TAG_FIELDS) if key[tci] & TAG]


def changed_tags(before, after):
    """The tags outside of those that are the same, the innermost first, are taken away, and the new ones added."""
    while before and after and before[0] == after[0]:
        before, after = before[1:], after[1:]
    return [Action("PopVlan", ()) for _ in before] + [Action("PushVlan", tag) for tag in after]


class Translation:
    """A packet on its way: its key as it now is, the key of the frame as it was last sent, and the actions, the rules and
    the bits of the key so far."""

    def __init__(self, tables, ports, key):
        self.tables, self.ports = tables, sorted(ports)
        self.packet, self.frame = dict(key), dict(key)
        self.actions, self.visits, self.path = [], [], []
        self.consulted = WHOLE["in_port"] | WHOLE["dl_type"] | (WHOLE["ip_frag"] if self.is_ip() else 0)

    def is_ip(self):
        return self.packet["dl_type"] in (ETHERTYPE_IPV4, ETHERTYPE_IPV6)

    def look_up(self, table, depth):
        """Does what the rule says that decides, which another may lead one level deeper."""
        if depth > DEEPEST or len(self.path) == MOST_LOOKUPS:
            raise Stopped
        rule, consulted = self.tables.look_up(table, packed(self.packet))
        self.path.append(Lookup(depth, table, rule))
        self.consulted |= consulted
        if rule:
            self.visits.append(rule.number)
            self.follow(rule.actions, depth)

    def follow(self, actions, depth):
        try:
            for action in actions:
                self.act(action, depth)
        except ListEnded:
            pass

    def act(self, action, depth):
        if action.kind in ("Resubmit", "Goto"):
            self.look_up(*action.arguments, depth + 1)
        else:
            DO[action.kind](self, *action.arguments)

    # ---- sending

    def emit(self, actions):
        self.actions += actions
        if len(self.actions) > MOST_DATAPATH_ACTIONS:
            raise Stopped

    def send(self, ports):
        """Brings the frame up to date, and sends it to each port."""
        before, after = self.frame, self.packet
        for name in BEFORE_TAGS:
            self.emit(changed_bits(name, before, after))
        self.emit(changed_tags(tags_of(before), tags_of(after)))
        for name in AFTER_TAGS:
            self.emit(changed_bits(name, before, after))
        self.frame = dict(self.packet)
        self.emit([Action("Output", (port,)) for port in ports])

    def other_ports(self):
        return [port for port in self.ports if port != self.packet["in_port"]]

    def send_to(self, port):
        if port in self.other_ports():
            self.send([port])

    def send_to_others(self):
        if ports := self.other_ports():
            self.send(ports)

    def send_back(self):
        self.send([self.packet["in_port"]])

    def send_to_slice(self, slice_):
        self.send_to(self.read(slice_))

    # ---- reading and writing

    def consult(self, name, bits=0):
        """Bits of a field, or all of them where none are named. A tag is always consulted as a whole."""
        self.consulted |= bits_of(name, bits) if bits and name != "vlan_tci" else WHOLE[name]

    def can_write(self, field):
        for name in fields_needed(field):
            self.consult(name)
        return can_write(field, self.packet)

    def read(self, slice_):
        self.consult(slice_.field.key, mask_of(slice_) << slice_.field.low)
        number = self.packet[slice_.field.key] >> slice_.field.low
        return (number & mask_of(slice_)) >> slice_.low

    def write(self, field, value, mask):
        if self.can_write(field):
            mask &= writable_bits(field)
            self.replace(field.key, value << field.low, mask << field.low)

    def replace(self, name, value, mask):
        """Writes bits of the key. An outer tag whose bit 0x1000 is taken away is no tag, and a new one is a customer's."""
        if not mask:
            return
        number = with_bits(self.packet[name], value, mask)
        if name != "vlan_tci":
            self.consult(name, mask)
            self.packet[name] = number
        elif number & TAG:
            self.consult_tags()
            self.packet |= {name: number, "vlan_tpid": self.packet["vlan_tpid"] or CUSTOMER_TAG}
        else:
            self.pop_tag()

    def move(self, source, target):
        """Nothing is read for a packet that isn't what the target needs."""
        if self.can_write(target.field):
            self.write(target.field, self.read(source) << target.low, mask_of(target))

    def lower_ttl(self):
        self.consult("dl_type")
        if not self.is_ip():
            return
        self.consult("nw_ttl")
        if self.packet["nw_ttl"] <= LAST_TTL:
            raise ListEnded
        self.packet["nw_ttl"] -= 1

    # ---- tags

    def consult_tags(self):
        for fields in TAG_FIELDS:
            for name in fields:
                self.consult(name)

    def push_tag(self, tpid):
        self.consult_tags()
        if self.packet["vlan_tci2"] & TAG:
            raise Stopped
        inner = {"vlan_tpid2": self.packet["vlan_tpid"], "vlan_tci2": self.packet["vlan_tci"]}
        self.packet |= {"vlan_tpid": tpid, "vlan_tci": TAG, **inner}

    def pop_tag(self):
        self.consult_tags()
        outer = {"vlan_tpid": self.packet["vlan_tpid2"], "vlan_tci": self.packet["vlan_tci2"]}
        self.packet |= {**outer, "vlan_tpid2": 0, "vlan_tci2": 0}

    def write_vlan(self, number):
        self.replace("vlan_tci", number | TAG, VLAN_BITS | TAG)

    def write_priority(self, number):
        self.replace("vlan_tci", number << PRIORITY_SHIFT | TAG, PRIORITY_BITS | TAG)


# What is done by each kind of action, but for those that look up.
DO = {
    "Output": Translation.send_to,
    "OutputField": Translation.send_to_slice,
    "InPort": Translation.send_back,
    "All": Translation.send_to_others,
    "Flood": Translation.send_to_others,
    "Set": Translation.write,
    "Move": Translation.move,
    "DecTtl": Translation.lower_ttl,
    "PushVlan": Translation.push_tag,
    "PopVlan": Translation.pop_tag,
    "SetVid": Translation.write_vlan,
    "SetPcp": Translation.write_priority,
}
