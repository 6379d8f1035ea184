"""Made-up lists of flow actions of all kinds, as flow text.

Values are mostly small or those of frames, so that rules of other tables match them, and writes change some bits and
leave others.
"""
import functools
import os
import sys

sys.dont_write_bytecode = True
TOP = os.path.join(os.path.dirname(os.path.abspath(__file__)), "..")
sys.path.insert(0, os.path.join(TOP, "vectors"))
from frames import ALL_FRAMES
from rewritings import ROWS
from simulation.flow_fields import (
    ETHERTYPE_ARP, ETHERTYPE_IPV4, ETHERTYPE_IPV6, KEY_FIELD, NAMED_FIELDS, PROTOCOL_ICMP, PROTOCOL_ICMPV6,
    PROTOCOL_TCP, PROTOCOL_UDP, TAG, full, print_value,
)
from simulation.flow_text import WRITTEN_WHOLE
from simulation.frame_key import key_of
from simulation.translation import can_write

# Frames of all protocols, most of them with right checksums in ROWS.
FRAMES = [*(frame.bytes for frame in ALL_FRAMES), *(row.frame for row in ROWS)]
TABLES = [0, 1, 2, 254]
REGISTERS = ["metadata", "reg0", "reg1", "reg15"]
# Registers hold ports too.
SMALL = [0, 1, 2, 3, 5, 9]
# Of sixteen registers few are enough.
NAMES = [it for it in NAMED_FIELDS if it.key in REGISTERS or not it.key.startswith("reg")]
WRITTEN = [it for it in NAMES if it.written]
TYPES = (ETHERTYPE_IPV4, ETHERTYPE_IPV6, ETHERTYPE_ARP)
PROTOCOLS = (PROTOCOL_ICMP, PROTOCOL_TCP, PROTOCOL_UDP, PROTOCOL_ICMPV6)
MOD_FIELDS = [it for it in WRITTEN if it.name in WRITTEN_WHOLE]


def whole_key(frame):
    return dict.fromkeys(KEY_FIELD, 0) | key_of(1, frame)


@functools.cache
def fields_of(frame):
    """The named fields of the headers of a frame that can be written."""
    key = whole_key(frame)
    return [it for it in WRITTEN if it.key not in REGISTERS and can_write(it, key)]


SEEN = {name: sorted({key[name] for key in map(whole_key, FRAMES)}) for name in KEY_FIELD}


class Picker:
    """Picks by random numbers, which are the same for the same seed."""

    def __init__(self, pick):
        self.pick = pick

    def one(self, *of):
        return self.pick.choice(of)

    def chance(self, share):
        return self.pick.random() < share

    def rarely(self):
        return self.chance(0.01)


def kinds_of(frames):
    """The frames in groups, by type and protocol where these have fields of their own."""
    groups = {}
    for frame in frames:
        key = whole_key(frame)
        dl_type = key["dl_type"] if key["dl_type"] in TYPES else None
        protocol = key["nw_proto"] if key["nw_proto"] in PROTOCOLS else None
        groups.setdefault((dl_type, protocol), []).append(frame)
    return list(groups.values())


KINDS = kinds_of(FRAMES)


class ActionMaker(Picker):
    """Makes lists of actions that send to these ports, and mostly write what these frames have."""

    def __init__(self, pick, ports, frames):
        super().__init__(pick)
        self.ports, self.fields = ports, [field for frame in frames for field in fields_of(frame)]

    # ---- sending

    def port(self):
        port = self.one(*self.ports)
        return self.one(f"{port}", f"0x{port:x}", f"output:{port}", f"output:0x00{port:X}")

    def output(self):
        return self.one("in_port", "all", "FLOOD", "output:IN_PORT") if self.chance(0.2) else self.port()

    def output_slice(self):
        name = self.one(*REGISTERS)
        bits = f"{name}[{self.one('0..15', '0..3', '16..31')}]"
        return self.one(f"output:{bits}", f"load:{self.one(1, 2, 3, 9)}->{bits},output:{bits}")

    # ---- writing

    def field(self):
        return self.one(*WRITTEN) if self.chance(0.3) else self.one(*self.fields)

    def number(self, field):
        """A value of a named field: one that a frame has, a small one, or any."""
        seen = self.one(*SEEN[field.key]) >> field.low & full(field.width)
        return self.one(seen, seen, self.one(*SMALL) & full(field.width), self.pick.getrandbits(field.width))

    def mask(self, field):
        if not field.masked or self.chance(0.6):
            return full(field.width)
        return self.one(full(field.width) & ~full(self.pick.randrange(field.width)), self.pick.getrandbits(field.width))

    def set_field(self):
        field = self.field()
        value, mask = self.number(field), self.mask(field)
        if field.name == "vlan_vid":
            value, mask = value | TAG, mask | TAG
        text = print_value(field.form, field.width, value & mask, mask)
        return f"set_field:{text}->{self.one(field.name, *field.others)}"

    def bits(self, width, most):
        """The ends of some bits of so many, not more than the most."""
        count = self.one(width, self.pick.randrange(1, width + 1))
        count = min(count, most)
        low = self.one(0, self.pick.randrange(width - count + 1))
        return low, low + count - 1

    def slice(self, field, low, high):
        return f"{self.one(field.name, *field.others)}[{low}..{high}]"

    def load(self):
        field = self.field()
        low, high = self.bits(field.width, field.width)
        return f"load:{self.number(field) >> low & full(high - low + 1)}->{self.slice(field, low, high)}"

    def move(self):
        source, target = self.one(*NAMES), self.field()
        low, high = self.bits(source.width, target.width)
        start = self.pick.randrange(target.width - (high - low))
        return f"move:{self.slice(source, low, high)}->{self.slice(target, start, start + high - low)}"

    def mod(self):
        field = self.one(*MOD_FIELDS, *(it for it in self.fields if it in MOD_FIELDS))
        # A TOS is written without its ECN bits.
        value = self.number(field) & (~3 if field.name == "nw_tos" else ~0)
        return f"mod_{field.name}:{print_value(field.form, field.width, value, full(field.width))}"

    def tag_action(self):
        vlan, priority = self.one(0, 5, 100, 4095), self.one(0, 3, 7)
        kind = self.one("0x8100", "33024", "0x88a8", "34984")
        push = self.one(f"push_vlan:{kind}", f"pop_vlan,push_vlan:{kind},set_field:{TAG | vlan}->vlan_vid")
        return self.one(f"mod_vlan_vid:{vlan}", f"mod_vlan_pcp:{priority}", "pop_vlan", "strip_vlan", push)

    def write(self):
        return self.one(self.set_field, self.load, self.move, self.mod, self.mod, self.tag_action, lambda: "dec_ttl")()

    # ---- lists

    def later_table(self, table):
        """A table, mostly one after this one: so lookups seldom go in circles."""
        later = [it for it in TABLES if it > table]
        return self.one(*TABLES) if self.chance(0.1) or not later else self.one(*later)

    def list(self, table):
        """A list for a rule of this table: now and then of outputs alone."""
        if self.chance(0.2):
            return [self.output() for _ in range(self.pick.randrange(1, 5))]
        count = self.pick.randrange(1, 8)
        makers = [self.output, *[self.write] * 6, self.output_slice, lambda: f"resubmit(,{self.later_table(table)})"]
        items = [self.one(*makers)() for _ in range(count)]
        if self.chance(0.7):
            items.append(self.output())
        if self.chance(0.15):
            items.append(f"goto_table:{self.later_table(table)}")
        return items
