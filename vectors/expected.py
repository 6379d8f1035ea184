"""The key and the layout of a frame, from what tshark printed of it.

Nothing here reads the bytes of a frame. Where tshark says other than the rules of the key, the frame has a difference,
which stands with the frame and says why.
"""
import ipaddress
from dataclasses import dataclass, field

PORT = 7

TAG_BIT = 0x1000
NO_TYPE = 0x05FF

# The protocols of tags, with the field that has the type after; and how many tags a key has.
TAGS = {"vlan": "vlan.etype", "ieee8021ad": "ieee8021ah.etype"}
MOST_TAGS = 2
# The fields of a key that hold the type and the content of each of its tags, the outer one first.
TAG_FIELDS = (("VlanTpid", "VlanTci"), ("VlanTpid2", "VlanTci2"))

# The extension headers of IPv6 by number, with the field that says what follows.
FOLLOWING = {
    0: "ipv6.hopopts.nxt",
    43: "ipv6.routing.nxt",
    44: "ipv6.fraghdr.nxt",
    51: "ah.next_header",
    60: "ipv6.dstopts.nxt",
}

# The network headers, with the addresses that are all printed of a header that was read.
ADDRESSES = {
    "arp": ("arp.src.hw_mac", "arp.src.proto_ipv4", "arp.dst.hw_mac", "arp.dst.proto_ipv4"),
    "ip": ("ip.src", "ip.dst"),
    "ipv6": ("ipv6.src", "ipv6.dst"),
}

# The transport headers, with the two fields that a key takes from them.
NUMBERS = {
    "tcp": ("tcp.srcport", "tcp.dstport"),
    "udp": ("udp.srcport", "udp.dstport"),
    "icmp": ("icmp.type", "icmp.code"),
    "icmpv6": ("icmpv6.type", "icmpv6.code"),
}

# The names of headers in a layout.
PLACES = {"arp": "Arp", "ip": "Ipv4", "ipv6": "Ipv6", "tcp": "Tcp", "udp": "Udp", "icmp": "Icmp", "icmpv6": "Icmp6"}

# The fields that keys of frames have: those of the port and the Ethernet header first.
ETHERNET_FIELDS = ("InPort", "DlSrc", "DlDst", "DlType", *(name for names in TAG_FIELDS for name in names))
KEY_FIELDS = ETHERNET_FIELDS + (
    "NwSrc", "NwDst", "Ipv6Src", "Ipv6Dst", "NwProto", "NwTos", "NwTtl", "IpFrag", "ArpSha", "ArpTha", "TpSrc", "TpDst",
)


@dataclass
class Expected:
    """A key by its fields, and a layout, in which l3 and l4 are the names of headers with their offsets."""

    key: dict = field(default_factory=lambda: {"InPort": PORT})
    tags: int = 0
    l3: tuple | None = None
    l4: tuple | None = None
    routed: bool = False


class Printed:
    """What tshark printed of a frame: the values of each field, in the order in which they stand in the frame."""

    def __init__(self, fields):
        self.fields = {name: text.split(",") for name, text in fields.items()}

    def has(self, *names):
        return all(name in self.fields for name in names)

    def numbers(self, name):
        return [int(text, 0) for text in self.fields.get(name, [])]

    def number(self, name):
        return self.numbers(name)[0]

    def mac(self, name):
        return int(self.fields[name][0].replace(":", ""), 16)

    def address(self, name):
        return int(ipaddress.ip_address(self.fields[name][0]))

    def position(self, protocol):
        return self.number("@" + protocol)

    def outermost(self, protocols):
        """Of these protocols the one that stands first, if any was read; each is given with fields that tell."""
        return min((name for name, told in protocols.items() if self.has(*told)), key=self.position, default=None)

    def place(self, protocol):
        return PLACES[protocol], self.position(protocol)


# ---- Ethernet


def read_ethernet(printed, expected):
    key = expected.key
    key["DlDst"], key["DlSrc"] = printed.mac("eth.dst"), printed.mac("eth.src")
    types, tags = printed.numbers("eth.type"), tags_of(printed)
    for (tpid_field, tci_field), (_, tci, types_after) in zip(TAG_FIELDS, tags):
        key[tpid_field], key[tci_field] = types[0], tci
        types = types_after
    expected.tags = min(len(tags), MOST_TAGS)
    types = types or printed.numbers("llc.type")
    key["DlType"] = types[0] if types else NO_TYPE


def tags_of(printed):
    """Where each tag stands, the outer one first, its content, and the type after it, if that is one."""
    tags = []
    for name, kind in TAGS.items():
        contents = zip(printed.numbers(f"@{name}"), printed.numbers(f"{name}.priority"), printed.numbers(f"{name}.id"))
        types = printed.numbers(kind)
        tags += [(at, priority << 13 | vlan | TAG_BIT, types[n : n + 1]) for n, (at, priority, vlan) in enumerate(contents)]
    return sorted(tags)


# ---- the network header


def read_arp(printed, key):
    key["NwSrc"], key["NwDst"] = printed.address("arp.src.proto_ipv4"), printed.address("arp.dst.proto_ipv4")
    key["NwProto"] = printed.number("arp.opcode")
    key["ArpSha"], key["ArpTha"] = printed.mac("arp.src.hw_mac"), printed.mac("arp.dst.hw_mac")


def ip_frag(offsets, mores):
    return 3 if any(offsets) else 1 if any(mores) else 0


def read_ipv4(printed, key):
    key["NwSrc"], key["NwDst"] = printed.address("ip.src"), printed.address("ip.dst")
    key["NwProto"], key["NwTos"] = printed.number("ip.proto"), printed.number("ip.dsfield")
    key["NwTtl"] = printed.number("ip.ttl")
    key["IpFrag"] = ip_frag([printed.number("ip.frag_offset")], [printed.number("ip.flags.mf")])


def last_number(printed):
    """The number that follows the extension headers which were read."""
    number = printed.number("ipv6.nxt")
    following = {extension: printed.numbers(name) for extension, name in FOLLOWING.items()}
    while following.get(number):
        number = following[number].pop(0)
    return number


def read_ipv6(printed, key):
    key["Ipv6Src"], key["Ipv6Dst"] = printed.address("ipv6.src"), printed.address("ipv6.dst")
    key["NwProto"], key["NwTos"] = last_number(printed), printed.number("ipv6.tclass")
    key["NwTtl"] = printed.number("ipv6.hlim")
    key["IpFrag"] = ip_frag(printed.numbers("ipv6.fraghdr.offset"), printed.numbers("ipv6.fraghdr.more"))


READERS = {"arp": read_arp, "ip": read_ipv4, "ipv6": read_ipv6}


def read_network(printed, expected):
    protocol = printed.outermost(ADDRESSES)
    if protocol:
        READERS[protocol](printed, expected.key)
        expected.l3 = printed.place(protocol)
        expected.routed = printed.has("ipv6.routing.nxt")


# ---- the transport header


def read_transport(printed, expected):
    protocol = printed.outermost(NUMBERS)
    if protocol:
        expected.key["TpSrc"], expected.key["TpDst"] = map(printed.number, NUMBERS[protocol])
        expected.l4 = printed.place(protocol)


# ---- the whole


def as_printed(fields):
    printed, expected = Printed(fields), Expected()
    if printed.has("eth.src"):
        read_ethernet(printed, expected)
        read_network(printed, expected)
        read_transport(printed, expected)
    return expected


def by_the_rules(fields, difference):
    """What is expected of a frame of which tshark printed these fields, with the difference that there is, if any."""
    expected = as_printed(fields)
    if difference is None:
        return expected
    if difference.unread:
        expected.key = {name: number for name, number in expected.key.items() if name in ETHERNET_FIELDS}
        expected.l3, expected.l4, expected.routed = None, None, False
    expected.key.update(difference.key)
    for name, value in difference.layout.items():
        setattr(expected, name, value)
    return expected
