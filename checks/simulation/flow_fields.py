"""The fields of keys and of flow text: their names, widths, prerequisites, and the forms of their values.

A key field is a part of a frame's key. A named field is what flow text calls bits of a key field, after ovs-fields(7):
vlan_pcp for three bits of vlan_tci, tcp_dst for tp_dst. docs/FORMATS.md has the tables in words.
"""
import functools
import re
from collections import namedtuple

# The forms in which values are printed: numbers, a type with its four digits, addresses, and words of fragments.
DECIMAL, HEXADECIMAL, TYPE = "decimal", "hexadecimal", "type"
MAC, IPV4, IPV6, FRAGMENT = "mac", "ipv4", "ipv6", "fragment"

KeyField = namedtuple("KeyField", "name width form")

# In the order in which matches are printed.
KEY_FIELDS = [
    KeyField("in_port", 16, DECIMAL),
    KeyField("metadata", 64, HEXADECIMAL),
    *(KeyField(f"reg{number}", 32, HEXADECIMAL) for number in range(16)),
    KeyField("dl_src", 48, MAC),
    KeyField("dl_dst", 48, MAC),
    KeyField("dl_type", 16, TYPE),
    KeyField("vlan_tci", 16, TYPE),
    KeyField("nw_src", 32, IPV4),
    KeyField("nw_dst", 32, IPV4),
    KeyField("ipv6_src", 128, IPV6),
    KeyField("ipv6_dst", 128, IPV6),
    KeyField("nw_proto", 8, DECIMAL),
    KeyField("nw_tos", 8, DECIMAL),
    KeyField("nw_ttl", 8, DECIMAL),
    KeyField("ip_frag", 2, FRAGMENT),
    KeyField("arp_sha", 48, MAC),
    KeyField("arp_tha", 48, MAC),
    KeyField("tp_src", 16, DECIMAL),
    KeyField("tp_dst", 16, DECIMAL),
    # The type of the outer tag, and the inner one. Flow text has no names for them.
    KeyField("vlan_tpid", 16, TYPE),
    KeyField("vlan_tci2", 16, TYPE),
    KeyField("vlan_tpid2", 16, TYPE),
]
KEY_FIELD = {field.name: field for field in KEY_FIELDS}


def full(width):
    return (1 << width) - 1


def places():
    """Where each field begins and which bits are its own, in a key that is one number: the last field ends it."""
    at = sum(field.width for field in KEY_FIELDS)
    for field in KEY_FIELDS:
        at -= field.width
        yield field.name, at, full(field.width)


PLACES = list(places())
BEGIN = {name: at for name, at, _ in PLACES}


def packed(numbers):
    """A key as one number, its fields one after the other. Those that aren't given are 0."""
    return sum(number << BEGIN[name] for name, number in numbers.items())


# How many of the last keys are remembered: the same ones come again and again.
REMEMBERED = 4096


@functools.lru_cache(REMEMBERED)
def unpacked(key):
    """The number of each field of such a key. They are for reading alone."""
    return {name: key >> at & bits for name, at, bits in PLACES}


# In vlan_tci and vlan_tci2, that there is a tag.
TAG = 0x1000

# The types of tags, of a customer's network and of a service provider's.
CUSTOMER_TAG, SERVICE_TAG = 0x8100, 0x88A8

# The outer tag of a key, and its inner one: a type and a content.
TAG_FIELDS = (("vlan_tpid", "vlan_tci"), ("vlan_tpid2", "vlan_tci2"))

ETHERTYPE_IPV4, ETHERTYPE_ARP, ETHERTYPE_IPV6 = 0x0800, 0x0806, 0x86DD
PROTOCOL_ICMP, PROTOCOL_TCP, PROTOCOL_UDP, PROTOCOL_ICMPV6 = 1, 6, 17, 58

# A prerequisite is a list of types, each with a protocol or with None for any; the empty one is always met.


def over(types, *protocols):
    return [(dl_type, nw_proto) for dl_type in types for nw_proto in protocols or [None]]


IP = [ETHERTYPE_IPV4, ETHERTYPE_IPV6]
NEEDS_IPV4_OR_ARP = over([ETHERTYPE_IPV4, ETHERTYPE_ARP])
NEEDS_IPV6 = over([ETHERTYPE_IPV6])
NEEDS_IP = over(IP)
NEEDS_IP_OR_ARP = over([*IP, ETHERTYPE_ARP])
NEEDS_ARP = over([ETHERTYPE_ARP])
NEEDS_TCP = over(IP, PROTOCOL_TCP)
NEEDS_UDP = over(IP, PROTOCOL_UDP)
NEEDS_TCP_OR_UDP = NEEDS_TCP + NEEDS_UDP
NEEDS_ICMPV6 = over([ETHERTYPE_IPV6], PROTOCOL_ICMPV6)
NEEDS_ICMP = over([ETHERTYPE_IPV4], PROTOCOL_ICMP) + NEEDS_ICMPV6


def is_stated(needs, dl_type, nw_proto):
    """Whether a type and a protocol, or None where there is none, are what a field of a match needs."""
    return not needs or (dl_type, None) in needs or (dl_type, nw_proto) in needs


# A named field: its other names, and what a match has to state for it; the key field, the bit `low` from which on it
# has `width` bits there, and the form of its values; the least and the greatest number; whether a mask may stand, and
# whether actions write it.
NamedField = namedtuple("NamedField", "name others needs key low width form least most masked written")


def named(name, others, needs=(), *, key=None, low=0, width=None, form=None, most=None, **rest):
    """Where nothing else is said, all of the key field of the same name, in its form, without masks, and written."""
    whole = KEY_FIELD[key or name]
    width = width or whole.width
    most = full(width) if most is None else most
    rest = {"least": 0, "masked": False, "written": True} | rest
    return NamedField(name, others.split(), needs, whole.name, low, width, form or whole.form, most=most, **rest)


def ports(prefix, others, needs, **rest):
    """The fields of the transport header, whose key fields are tp_src and tp_dst."""
    ends = ("type", "code") if prefix.startswith("icmp") else ("src", "dst")
    for key, end in zip(("tp_src", "tp_dst"), ends):
        yield named(f"{prefix}_{end}", f"{others}_{end.upper()}" if others else "", needs, key=key, **rest)


# What actions don't write.
READ = {"written": False}

# After ovs-fields(7).
NAMED_FIELDS = [
    named("in_port", "NXM_OF_IN_PORT", least=1, most=65279, **READ),
    named("metadata", "OXM_OF_METADATA", masked=True),
    *(named(f"reg{number}", f"NXM_NX_REG{number}", masked=True) for number in range(16)),
    named("dl_src", "eth_src NXM_OF_ETH_SRC", masked=True),
    named("dl_dst", "eth_dst NXM_OF_ETH_DST", masked=True),
    named("dl_type", "eth_type NXM_OF_ETH_TYPE", **READ),
    named("vlan_tci", "NXM_OF_VLAN_TCI", masked=True),
    named("vlan_vid", "OXM_OF_VLAN_VID", key="vlan_tci", width=13, form=DECIMAL, masked=True),
    named("vlan_pcp", "dl_vlan_pcp OXM_OF_VLAN_PCP", key="vlan_tci", low=13, width=3, form=DECIMAL),
    named("nw_src", "ip_src NXM_OF_IP_SRC", NEEDS_IPV4_OR_ARP, masked=True),
    named("nw_dst", "ip_dst NXM_OF_IP_DST", NEEDS_IPV4_OR_ARP, masked=True),
    named("arp_spa", "NXM_OF_ARP_SPA", NEEDS_ARP, key="nw_src", masked=True),
    named("arp_tpa", "NXM_OF_ARP_TPA", NEEDS_ARP, key="nw_dst", masked=True),
    named("ipv6_src", "NXM_NX_IPV6_SRC", NEEDS_IPV6, masked=True),
    named("ipv6_dst", "NXM_NX_IPV6_DST", NEEDS_IPV6, masked=True),
    named("nw_proto", "ip_proto NXM_OF_IP_PROTO", NEEDS_IP_OR_ARP, **READ),
    named("arp_op", "NXM_OF_ARP_OP", NEEDS_ARP, key="nw_proto", **READ),
    named("nw_tos", "NXM_OF_IP_TOS", NEEDS_IP),
    named("ip_dscp", "OXM_OF_IP_DSCP", NEEDS_IP, key="nw_tos", low=2, width=6),
    named("nw_ecn", "ip_ecn NXM_NX_IP_ECN", NEEDS_IP, key="nw_tos", width=2),
    named("nw_ttl", "NXM_NX_IP_TTL", NEEDS_IP),
    named("ip_frag", "NXM_NX_IP_FRAG", NEEDS_IP, **READ),
    named("arp_sha", "NXM_NX_ARP_SHA", NEEDS_ARP, masked=True),
    named("arp_tha", "NXM_NX_ARP_THA", NEEDS_ARP, masked=True),
    *ports("tp", "", NEEDS_TCP_OR_UDP, masked=True),
    *ports("tcp", "NXM_OF_TCP", NEEDS_TCP, masked=True),
    *ports("udp", "NXM_OF_UDP", NEEDS_UDP, masked=True),
    *ports("icmp", "NXM_OF_ICMP", NEEDS_ICMP, most=255, **READ),
    *ports("icmpv6", "NXM_NX_ICMPV6", NEEDS_ICMPV6, most=255, **READ),
]
NAMED_FIELD = {name: field for field in NAMED_FIELDS for name in (field.name, *field.others)}

# What each word of ip_frag says of the two bits: value and mask.
FRAGMENT_WORDS = {"no": (0, 3), "first": (1, 3), "later": (3, 3), "yes": (1, 1), "not_later": (0, 2)}


class BadValue(Exception):
    """The text isn't in its form or out of range."""


# ---- reading


def require(holds):
    if not holds:
        raise BadValue


def read_number(text, most, least=0):
    """Decimal without leading zeros, or 0x and hexadecimal digits."""
    require(re.fullmatch("0|[1-9][0-9]*|0x[0-9a-fA-F]+", text))
    number = int(text, 16) if text.startswith("0x") else int(text)
    require(least <= number <= most)
    return number


def read_decimal(text, most):
    require(re.fullmatch("0|[1-9][0-9]*", text))
    return read_number(text, most)


def read_mac(text):
    """Six groups of one or two hexadecimal digits."""
    require(re.fullmatch("[0-9a-fA-F]{1,2}(:[0-9a-fA-F]{1,2}){5}", text))
    return joined([int(group, 16) for group in text.split(":")], 8)


def read_ipv4(text):
    """Four decimal numbers up to 255."""
    numbers = text.split(".")
    require(len(numbers) == 4)
    return joined([read_decimal(number, 255) for number in numbers], 8)


def read_ipv6(text):
    """Eight groups of up to four hexadecimal digits, or fewer with one `::` (RFC 4291, 2.2)."""
    require(text.count("::") <= 1 and ":::" not in text)
    before, gap, after = text.partition("::")
    left, right = read_groups(before, not gap), read_groups(after, True)
    missing = 8 - len(left) - len(right)
    require(missing > 0 if gap else missing == 0)
    return joined([*left, *[0] * missing, *right], 16)


def read_groups(text, is_end):
    """Groups of sixteen bits. At the end of the address the last two may be written as an IPv4 address."""
    groups = []
    for place, group in enumerate(pieces := text.split(":") if text else []):
        if is_end and place == len(pieces) - 1 and "." in group:
            address = read_ipv4(group)
            groups += [address >> 16, address & 0xFFFF]
        else:
            require(re.fullmatch("[0-9a-fA-F]{1,4}", group))
            groups.append(int(group, 16))
    return groups


def joined(numbers, bits):
    whole = 0
    for number in numbers:
        whole = whole << bits | number
    return whole


ADDRESS_READERS = {MAC: read_mac, IPV4: read_ipv4, IPV6: read_ipv6}


def read_plain(field, text):
    """A value without a mask."""
    if field.form in ADDRESS_READERS:
        return ADDRESS_READERS[field.form](text)
    return read_number(text, field.most, field.least)


def prefix(width, length):
    """The mask of so many of the most significant bits."""
    return (1 << length) - 1 << (width - length)


def read_mask(field, text):
    """A mask, which of an IP address may be a length: decimal digits, perhaps after zeros."""
    if field.form in (IPV4, IPV6) and re.fullmatch("[0-9]+", text):
        require(int(text) <= field.width)
        return prefix(field.width, int(text))
    return read_plain(field, text)


def read_value(field, text):
    """A value and its mask, in the bits of the named field. Bits of the value outside the mask are 0."""
    if field.form == FRAGMENT:
        require(text in FRAGMENT_WORDS)
        return FRAGMENT_WORDS[text]
    plain, slash, mask_text = text.partition("/")
    require(field.masked or not slash)
    value = read_plain(field, plain)
    mask = read_mask(field, mask_text) if slash else full(field.width)
    return value & mask, mask


# ---- printing


def hexadecimal(number):
    return f"{number:#x}"


def groups_of(number, bits, count):
    return [number >> bits * place & full(bits) for place in reversed(range(count))]


def print_mac(number):
    return ":".join(f"{group:02x}" for group in groups_of(number, 8, 6))


def print_ipv4(number):
    return ".".join(str(group) for group in groups_of(number, 8, 4))


def print_ipv6(number):
    return ":".join(f"{group:x}" for group in groups_of(number, 16, 8))


PRINTERS = {
    DECIMAL: str,
    HEXADECIMAL: hexadecimal,
    TYPE: lambda number: f"{number:#06x}",
    MAC: print_mac,
    IPV4: print_ipv4,
    IPV6: print_ipv6,
    FRAGMENT: hexadecimal,
}


def prefix_length(mask, width):
    """The length of a mask that is a prefix, or None."""
    length = mask.bit_count()
    return length if mask == prefix(width, length) else None


def print_value(form, width, value, mask):
    """A value with its mask, which isn't printed where it is full."""
    if form == FRAGMENT:
        for word, meant in FRAGMENT_WORDS.items():
            if meant == (value, mask):
                return word
    if mask == full(width):
        return PRINTERS[form](value)
    if form == DECIMAL:
        return f"{hexadecimal(value)}/{hexadecimal(mask)}"
    length = prefix_length(mask, width) if form in (IPV4, IPV6) else None
    return f"{PRINTERS[form](value)}/{PRINTERS[form](mask) if length is None else length}"
