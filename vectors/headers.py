"""Headers in bytes, for frames that are right or wrong in one place.

Each function returns the bytes of one header. A length or a checksum is that of what follows, unless it is given.
"""
import struct

IPV4 = 0x0800
ARP = 0x0806
RARP = 0x8035
CUSTOMER_TAG = 0x8100
IPV6 = 0x86DD
SERVICE_TAG = 0x88A8
EXPERIMENT = 0x88B5
LLDP = 0x88CC
OLD_TAG = 0x9100

HOP_BY_HOP = 0
ICMP = 1
IGMP = 2
IPV4_IN_IP = 4
TCP = 6
UDP = 17
ROUTING = 43
FRAGMENT = 44
ESP = 50
AUTHENTICATION = 51
ICMPV6 = 58
NO_NEXT = 59
DESTINATION_OPTIONS = 60
SCTP = 132
MOBILITY = 135


def word(number):
    return struct.pack("!H", number)


def mac(text):
    return bytes(int(octet, 16) for octet in text.split(":"))


def ipv4_address(text):
    return bytes(int(octet) for octet in text.split("."))


def ipv6_address(text):
    """An address with all of its eight groups written."""
    return b"".join(word(int(group, 16)) for group in text.split(":"))


TARGET = mac("02:11:22:33:44:55")
SENDER = mac("02:aa:bb:cc:dd:ee")
ADDRESSES = TARGET + SENDER

# Addresses set aside for documentation (RFC 5737 and 3849).
IPV4_SOURCE = ipv4_address("192.0.2.17")
IPV4_DESTINATION = ipv4_address("198.51.100.34")
IPV4_ADDRESSES = IPV4_SOURCE + IPV4_DESTINATION
IPV6_ADDRESSES = ipv6_address("2001:db8:1:2:3:4:5:6") + ipv6_address("2001:db8:f:e:d:c:b:a")


def checksum(data):
    """The checksum of the internet (RFC 1071)."""
    total = sum(struct.unpack(f"!{len(data) // 2}H", data))
    while total >> 16:
        total = (total & 0xFFFF) + (total >> 16)
    return ~total & 0xFFFF


# ---- Ethernet


def snap(number, organization=0):
    """The headers of LLC and SNAP (IEEE 802, 9.2)."""
    return bytes([0xAA, 0xAA, 3]) + organization.to_bytes(3, "big") + word(number)


# ---- ARP


def arp(operation, hardware=1, protocol=IPV4, hardware_size=6, protocol_size=4, target=bytes(6)):
    """A packet with addresses of Ethernet and IPv4, whatever it says of them (RFC 826)."""
    numbers = struct.pack("!HHBBH", hardware, protocol, hardware_size, protocol_size, operation)
    return numbers + SENDER + IPV4_SOURCE + target + IPV4_DESTINATION


# ---- IPv4


def ipv4(protocol, after, options=b"", version=4, words=None, total=None, flags=0, offset=0, tos=0, ttl=64):
    """A header in front of so many bytes; flags are of 3 bits, and the offset is in units of 8 bytes (RFC 791, 3.1)."""
    if words is None:
        words = 5 + len(options) // 4
    if total is None:
        total = 20 + len(options) + after
    first = bytes([version << 4 | words, tos]) + word(total) + word(0x1C46) + word(flags << 13 | offset)
    first += bytes([ttl, protocol])
    last = IPV4_ADDRESSES + options
    return first + word(checksum(first + last)) + last


# ---- IPv6


def ipv6(following, payload, traffic=0, flow=0, hops=64, version=6):
    """A header in front of a payload of so many bytes (RFC 8200, 3)."""
    first = struct.pack("!IHBB", version << 28 | traffic << 20 | flow, payload, following, hops)
    return first + IPV6_ADDRESSES


def options(following, size=8):
    """Options for each hop or for the destination: one that pads (RFC 8200, 4.2, 4.3 and 4.6)."""
    return bytes([following, size // 8 - 1, 1, size - 4]) + bytes(size - 4)


def routing(following):
    """A routing header of the experimental type 253 (RFC 4727), with one segment left."""
    return bytes([following, 0, 253, 1]) + bytes(4)


def fragment(following, offset=0, more=0, reserved=False):
    """A fragment header, the offset in units of 8 bytes, and all reserved bits 1 or 0 (RFC 8200, 4.5)."""
    byte, bits = (0xFF, 6) if reserved else (0, 0)
    return bytes([following, byte]) + word(offset << 3 | bits | more) + (0x1C46).to_bytes(4, "big")


def authentication(following, size=24):
    """Authentication data of so many bytes with its header (RFC 4302, 2)."""
    return bytes([following, size // 4 - 2, 0, 0]) + (1).to_bytes(4, "big") + (1).to_bytes(4, "big") + bytes(size - 12)


# ---- transport


SOURCE_PORT = 40001
DESTINATION_PORT = 50002


def tcp():
    """An acknowledgement (RFC 9293, 3.1)."""
    return struct.pack("!HHIIBBHHH", SOURCE_PORT, DESTINATION_PORT, 1, 1, 5 << 4, 0x10, 512, 0, 0)


def udp(data=0):
    return struct.pack("!HHHH", SOURCE_PORT, DESTINATION_PORT, 8 + data, 0)


def icmp(kind=8, code=0):
    """An echo request, unless told otherwise (RFC 792)."""
    return struct.pack("!BBHHH", kind, code, 0, 1, 1)


def icmpv6(kind=128, code=0):
    """The first four bytes of a message (RFC 4443, 2.1)."""
    return struct.pack("!BBH", kind, code, 0)
