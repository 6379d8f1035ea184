"""The frames: each with a name, what it shows, its headers in order, and where tshark and the rules differ about it."""
from dataclasses import dataclass, field

from headers import *


@dataclass(frozen=True)
class Difference:
    """What the key and the layout of a frame have by the rules, in place of what tshark printed.

    `unread` is true where there is no network header by the rules: the fields and places of the network and transport
    headers go. Then `key` has fields with their numbers, and `layout` parts of the layout.
    """

    why: str
    unread: bool = False
    key: dict = field(default_factory=dict)
    layout: dict = field(default_factory=dict)


@dataclass(frozen=True)
class Frame:
    name: str
    shows: str
    headers: tuple
    difference: Difference | None = None
    # The length in bytes that it had, where it was cut by its capture.
    length: int | None = None

    @property
    def bytes(self):
        return b"".join(self.headers)


def unread(why):
    return Difference(why, unread=True)


def no_tag(why, kind):
    return Difference(why, key={"DlType": kind, "VlanTpid": 0, "VlanTci": 0}, layout={"tags": 0})


def not_shown(why):
    """The transport header has its place, and the key doesn't show it."""
    return Difference(why, key={"TpSrc": 0, "TpDst": 0})


def no_transport(why):
    return Difference(why, key={"TpSrc": 0, "TpDst": 0}, layout={"l4": None})


def later_fragment(why):
    return Difference(why, key={"NwProto": FRAGMENT})


# ---- Ethernet


def under(kind, *headers, addresses=ADDRESSES):
    """A frame of this type."""
    return (addresses, word(kind), *headers)


def tagged(tci, kind, *headers, tag_type=CUSTOMER_TAG, addresses=ADDRESSES):
    """A frame with a tag in front of this type or length."""
    return (addresses, word(tag_type) + word(tci), word(kind), *headers)


LLC = b"\x42\x42\x03"
TO_ALL = b"\xff" * 6 + SENDER
TO_BRIDGES = mac("01:80:c2:00:00:00") + SENDER
TO_NEAREST_BRIDGE = mac("01:80:c2:00:00:0e") + SENDER

TYPES = (
    Frame("an_unknown_type", "A type for local experiments, with 46 bytes after it.", under(EXPERIMENT, bytes(46))),
    Frame("a_header_alone", "14 bytes are enough for addresses and type.", under(EXPERIMENT)),
    Frame("thirteen_bytes", "The last byte of the type is missing.", (ADDRESSES, b"\x88")),
    Frame("no_byte", "A frame of no bytes.", ()),
    Frame("the_type_of_ipv4_alone", "IPv4, with nothing after the type.", under(IPV4)),
    Frame("the_type_of_ipv6_alone", "IPv6, with nothing after the type.", under(IPV6)),
    Frame("the_type_of_arp_alone", "ARP, with nothing after the type.", under(ARP)),
    Frame("lldp", "LLDP, which is empty.", under(LLDP, bytes(46), addresses=TO_NEAREST_BRIDGE)),
    Frame("the_least_type", "0x0600 is a type.", under(0x0600, bytes(46))),
    Frame("the_greatest_number_that_is_no_type", "0x05ff is none.", under(0x05FF, LLC, bytes(43))),
    Frame("llc", "A length of 38, and LLC for the spanning tree.", under(38, LLC, bytes(43), addresses=TO_BRIDGES)),
)

SNAP = (
    Frame("snap", "The type stands after SNAP.", under(46, snap(EXPERIMENT), bytes(38))),
    Frame("snap_with_the_least_type", "0x0600 is a type after SNAP too.", under(46, snap(0x0600), bytes(38))),
    Frame("snap_with_a_number_that_is_no_type", "0x05fe after SNAP is no type.", under(46, snap(0x05FE), bytes(38)),
          Difference("it prints this number as the type.", key={"DlType": 0x05FF})),
    Frame("snap_after_the_greatest_number_that_is_no_type", "The type stands after SNAP.",
          under(0x05FF, snap(EXPERIMENT), bytes(38)),
          Difference("it takes 0x05ff as no length either, and reads no further.", key={"DlType": EXPERIMENT})),
    Frame("snap_of_another_organization", "The number is one of the organization 00-00-0c.",
          under(46, snap(IPV4, 0x00000C), bytes(38))),
    Frame("snap_with_another_control_field", "LLC's control isn't unnumbered information.",
          under(46, b"\xaa\xaa\xf3" + snap(IPV4)[3:], bytes(38))),
    Frame("snap_with_its_type_alone", "The frame ends after the type.", under(8, snap(EXPERIMENT))),
    Frame("snap_cut", "The last byte of the type is missing.", under(8, snap(EXPERIMENT)[:7])),
    Frame("snap_after_a_length_of_3", "The length has room for LLC alone.", under(3, snap(EXPERIMENT), bytes(38)),
          Difference("it reads no further than the length says; the rules don't ask how much that is.",
                     key={"DlType": EXPERIMENT})),
)

READS_VLAN = "it prints the VLAN, though no type follows."

TAGS = (
    Frame("a_tag", "Priority 5 and VLAN 100.", tagged(0xA064, EXPERIMENT, bytes(42))),
    Frame("a_tag_that_may_be_dropped", "The bit of drop eligibility is set, where the key has the bit of a tag.",
          tagged(0x3064, EXPERIMENT, bytes(42))),
    Frame("a_tag_of_ones", "All bits of the tag are 1.", tagged(0xFFFF, EXPERIMENT, bytes(42))),
    Frame("a_tag_of_zeros", "All bits of the tag are 0.", tagged(0, EXPERIMENT, bytes(42))),
    Frame("a_priority_tag", "Priority 3 and VLAN 0.", tagged(0x6000, EXPERIMENT, bytes(42))),
    Frame("a_service_tag", "802.1ad: priority 1 and VLAN 200.",
          tagged(0x20C8, EXPERIMENT, bytes(42), tag_type=SERVICE_TAG)),
    Frame("two_tags", "Both are read, with the type after the inner one.",
          tagged(0xA064, CUSTOMER_TAG, word(0x0065), word(EXPERIMENT), bytes(38))),
    Frame("a_service_tag_and_a_customer_tag", "Both are read, each with its own type.",
          tagged(0x20C8, CUSTOMER_TAG, word(0x0065), word(EXPERIMENT), bytes(38), tag_type=SERVICE_TAG)),
    Frame("a_customer_tag_and_a_service_tag", "Both are read in this order too.",
          tagged(0x20C8, SERVICE_TAG, word(0x4065), word(EXPERIMENT), bytes(38))),
    Frame("two_tags_with_their_type_alone", "22 bytes are enough for two tags.",
          tagged(0xA064, CUSTOMER_TAG, word(0x0065), word(EXPERIMENT))),
    Frame("an_inner_tag_cut", "Of 22 bytes the last one is missing.", tagged(0xA064, CUSTOMER_TAG, word(0x0065), b"\x88"),
          Difference(READS_VLAN, key={"DlType": CUSTOMER_TAG, "VlanTpid2": 0, "VlanTci2": 0}, layout={"tags": 1})),
    Frame("two_tags_and_snap", "Two tags, a length, and the type after SNAP.",
          tagged(0xA064, CUSTOMER_TAG, word(0x0065), word(38), snap(EXPERIMENT), bytes(30))),
    Frame("a_tag_with_its_type_alone", "18 bytes are enough for a tag.", tagged(0xA064, EXPERIMENT)),
    Frame("a_tag_cut", "Of 18 bytes the last one is missing.", under(CUSTOMER_TAG, word(0xA064), b"\x88"),
          no_tag(READS_VLAN, CUSTOMER_TAG)),
    Frame("a_service_tag_cut", "Of 18 bytes the last two are missing.", under(SERVICE_TAG, word(0xA064))),
    Frame("an_old_tag", "0x9100, in use for service tags before 802.1ad, is a type.",
          tagged(0xA064, EXPERIMENT, bytes(42), tag_type=OLD_TAG), no_tag("it reads a tag.", OLD_TAG)),
    Frame("a_tag_and_snap", "A tag, a length, and the type after SNAP.",
          tagged(0xA064, 42, snap(EXPERIMENT), bytes(34))),
    Frame("a_tag_and_llc", "A tag, a length, and LLC.", tagged(0xA064, 42, LLC, bytes(39))),
    Frame("a_tag_and_snap_cut", "The last byte of the type after SNAP is missing.",
          tagged(0xA064, 8, snap(EXPERIMENT)[:7])),
)


# ---- ARP

PRINTS_OPERATION = "it prints the operation; the key has 0 in place of one above 255."

ARP_PACKETS = (
    Frame("a_request", "Who has 198.51.100.34?", under(ARP, arp(1), bytes(18), addresses=TO_ALL)),
    Frame("a_reply", "Both hardware addresses are known.", under(ARP, arp(2, target=TARGET), bytes(18))),
    Frame("a_packet_without_padding", "28 bytes are enough.", under(ARP, arp(1))),
    Frame("a_packet_of_27_bytes", "The last byte is missing.", under(ARP, arp(1)[:27])),
    Frame("operation_255", "The greatest operation that a key has.", under(ARP, arp(255), bytes(18))),
    Frame("operation_256", "The least one that a key doesn't have.", under(ARP, arp(256), bytes(18)),
          Difference(PRINTS_OPERATION, key={"NwProto": 0})),
    Frame("operation_258", "Its low byte is that of a reply.", under(ARP, arp(258), bytes(18)),
          Difference(PRINTS_OPERATION, key={"NwProto": 0})),
    Frame("hardware_type_6", "The hardware is another one, with addresses of 6 bytes.",
          under(ARP, arp(1, hardware=6), bytes(18)), unread("it reads packets of other hardware too.")),
    Frame("protocol_type_of_ipv6", "The addresses are of another protocol, and have 4 bytes.",
          under(ARP, arp(1, protocol=IPV6), bytes(18))),
    Frame("hardware_addresses_of_8_bytes", "So they are, by what the packet says.",
          under(ARP, arp(1, hardware_size=8), bytes(18))),
    Frame("protocol_addresses_of_16_bytes", "So they are, by what the packet says.",
          under(ARP, arp(1, protocol_size=16), bytes(18))),
    Frame("a_request_with_a_tag", "ARP in VLAN 100.", tagged(0x0064, ARP, arp(1), bytes(14), addresses=TO_ALL)),
    Frame("a_request_after_snap", "ARP in a frame with a length.",
          under(36, snap(ARP), arp(1), bytes(10), addresses=TO_ALL)),
    Frame("a_reverse_request", "RARP is another type.", under(RARP, arp(3), bytes(18), addresses=TO_ALL),
          unread("it reads the packet as one of ARP.")),
)


# ---- IPv4

NO_OPERATION = b"\x01"

CUT_PORTS = "it prints the ports of a header that isn't whole."
CUT_CODES = "it prints type and code of a header that isn't whole."
PASSED = "it passes this header over IPv4 too, and prints the ports."
SHOWS_PORTS = "it prints the ports; the key of a fragment has none."


def in_ipv4(*headers):
    return under(IPV4, *headers)


IPV4_TRANSPORT = (
    Frame("tcp", "TCP, which ends with the frame.", in_ipv4(ipv4(TCP, 20), tcp())),
    Frame("tcp_of_19_bytes", "The last byte is missing.",
          in_ipv4(ipv4(TCP, 19), tcp()[:19]), no_transport(CUT_PORTS)),
    Frame("udp", "UDP with 4 bytes.", in_ipv4(ipv4(UDP, 12), udp(4), bytes(4))),
    Frame("udp_of_8_bytes", "UDP with nothing.", in_ipv4(ipv4(UDP, 8), udp())),
    Frame("udp_of_7_bytes", "The last byte is missing.", in_ipv4(ipv4(UDP, 7), udp()[:7]), no_transport(CUT_PORTS)),
    Frame("icmp", "An echo request.", in_ipv4(ipv4(ICMP, 8), icmp())),
    Frame("icmp_of_7_bytes", "The last byte is missing.",
          in_ipv4(ipv4(ICMP, 7), icmp()[:7]), no_transport(CUT_CODES)),
    Frame("icmp_about_a_host_that_is_unreachable", "The packet that couldn't be delivered stands in the message.",
          in_ipv4(ipv4(ICMP, 36), icmp(3, 1), ipv4(UDP, 8), udp())),
    Frame("icmpv6_over_ipv4", "Protocol 58 over IPv4 has no type and code.",
          in_ipv4(ipv4(ICMPV6, 8), icmpv6(), bytes(4)), no_transport("it reads ICMPv6 over IPv4 too.")),
    Frame("igmp", "Another protocol.", in_ipv4(ipv4(IGMP, 8), b"\x11", bytes(7))),
    Frame("sctp", "The key doesn't have the ports of SCTP.",
          in_ipv4(ipv4(SCTP, 12), word(SOURCE_PORT) + word(DESTINATION_PORT), bytes(8))),
    Frame("hop_by_hop_options_over_ipv4", "Protocol 0 over IPv4 is no extension header.",
          in_ipv4(ipv4(HOP_BY_HOP, 28), options(TCP), tcp()), no_transport(PASSED)),
    Frame("authentication_over_ipv4", "Protocol 51 over IPv4 is no extension header.",
          in_ipv4(ipv4(AUTHENTICATION, 44), authentication(TCP), tcp()), no_transport(PASSED)),
    Frame("ipv4_over_ipv4", "The outer header is read.",
          in_ipv4(ipv4(IPV4_IN_IP, 28), ipv4(UDP, 8, tos=0x10, ttl=5), udp()),
          no_transport("it reads the inner packet too, and prints the ports.")),
)

IPV4_HEADERS = (
    Frame("type_of_service_and_time_to_live", "Service 0xb9, and 1 hop to live.",
          in_ipv4(ipv4(TCP, 20, tos=0xB9, ttl=1), tcp())),
    Frame("greatest_type_of_service_and_time_to_live", "Service 0xff, and 255 hops to live.",
          in_ipv4(ipv4(UDP, 8, tos=0xFF, ttl=255), udp())),
    Frame("options_of_4_bytes", "A header of 24 bytes.", in_ipv4(ipv4(TCP, 20, NO_OPERATION * 4), tcp())),
    Frame("options_of_40_bytes", "A header of 60 bytes.", in_ipv4(ipv4(UDP, 8, NO_OPERATION * 40), udp())),
    Frame("options_cut", "The last byte of the options is missing.", in_ipv4(ipv4(TCP, 20, NO_OPERATION * 4)[:23])),
    Frame("a_header_length_of_16", "Less than the least header.", in_ipv4(ipv4(TCP, 20, words=4), tcp())),
    Frame("a_header_length_of_0", "A header of no length.", in_ipv4(ipv4(TCP, 20, words=0), tcp())),
    Frame("a_header_alone_of_ipv4", "20 bytes of header, and nothing after.", in_ipv4(ipv4(TCP, 0))),
    Frame("a_header_of_19_bytes", "The last byte of the header is missing.", in_ipv4(ipv4(TCP, 20)[:19])),
    Frame("version_5", "Another version.", in_ipv4(ipv4(TCP, 20, version=5), tcp())),
    Frame("version_6_under_the_type_of_ipv4", "The type and the version disagree.",
          in_ipv4(ipv4(TCP, 20, version=6), tcp()), unread("it reads a header of IPv6.")),
    Frame("tcp_and_padding", "6 bytes that pad to 60.", in_ipv4(ipv4(TCP, 20), tcp(), bytes(6))),
    Frame("tcp_of_19_bytes_and_padding", "The total length leaves 19 bytes.",
          in_ipv4(ipv4(TCP, 19), tcp()[:19], bytes(7)), no_transport(CUT_PORTS)),
    Frame("a_total_length_of_100", "It says 100 bytes, where 40 are.", in_ipv4(ipv4(TCP, 20, total=100), tcp())),
    Frame("a_total_length_of_20", "It says that nothing follows the header.", in_ipv4(ipv4(TCP, 20, total=20), tcp())),
    Frame("a_total_length_of_19", "Less than the header.", in_ipv4(ipv4(TCP, 20, total=19), tcp())),
    Frame("a_total_length_of_23_and_options", "Less than the header of 24 bytes.",
          in_ipv4(ipv4(TCP, 20, NO_OPERATION * 4, total=23), tcp())),
    Frame("a_total_length_of_0", "As it stands in packets which a network card is to cut in segments.",
          in_ipv4(ipv4(TCP, 20, total=0), tcp()), unread("it takes the length of the frame.")),
    Frame("tcp_cut_by_the_capture", "Of 74 bytes, 54 are there.", in_ipv4(ipv4(TCP, 40), tcp()), length=74),
    Frame("udp_header_cut_by_the_capture", "Of 42 bytes, 41 are there.", in_ipv4(ipv4(UDP, 8), udp()[:7]),
          no_transport(CUT_PORTS), length=42),
    Frame("options_cut_by_the_capture", "Of 58 bytes, 36 are there.",
          in_ipv4(ipv4(TCP, 20, NO_OPERATION * 4)[:22]), length=58),
)

IPV4_FRAGMENTS = (
    Frame("dont_fragment", "The flag against fragments makes none.", in_ipv4(ipv4(TCP, 20, flags=2), tcp())),
    Frame("the_reserved_flag", "The reserved flag makes no fragment.", in_ipv4(ipv4(TCP, 20, flags=4), tcp())),
    Frame("a_first_fragment", "More follow.", in_ipv4(ipv4(UDP, 8, flags=1), udp()), not_shown(SHOWS_PORTS)),
    Frame("a_first_fragment_with_7_bytes_of_udp", "The header of UDP goes on in the next one.",
          in_ipv4(ipv4(UDP, 7, flags=1), udp()[:7]), no_transport(CUT_PORTS)),
    Frame("a_fragment_in_the_middle", "More follow, and the offset is 8.",
          in_ipv4(ipv4(UDP, 8, flags=1, offset=1), udp())),
    Frame("a_last_fragment", "None follow, and the offset is 32768.", in_ipv4(ipv4(TCP, 20, offset=0x1000), tcp())),
)

IPV4_BEHIND = (
    Frame("tcp_and_a_tag", "TCP in VLAN 100.", tagged(0x0064, IPV4, ipv4(TCP, 20), tcp())),
    Frame("udp_and_two_tags", "UDP in customer VLAN 101 of service VLAN 200.",
          tagged(0x20C8, CUSTOMER_TAG, word(0x0065), word(IPV4), ipv4(UDP, 8), udp(), tag_type=SERVICE_TAG)),
    Frame("udp_and_three_tags", "Nothing is read after the second tag but the type of the third.",
          tagged(0x20C8, CUSTOMER_TAG, word(0x0065), word(CUSTOMER_TAG), word(0x0066), word(IPV4), ipv4(UDP, 8), udp(),
                 tag_type=SERVICE_TAG),
          unread("it reads all tags, and the packet.")),
    Frame("udp_after_snap", "UDP in a frame with a length.", under(36, snap(IPV4), ipv4(UDP, 8), udp())),
    Frame("udp_after_a_tag_and_snap", "UDP in a frame with a priority tag and a length.",
          tagged(0x6000, 36, snap(IPV4), ipv4(UDP, 8), udp())),
)


# ---- IPv6


def in_ipv6(following, *headers, **header):
    return under(IPV6, ipv6(following, sum(map(len, headers)), **header), *headers)


def with_payload(length, following, *headers):
    """With this payload length, which need not be that of the headers."""
    return under(IPV6, ipv6(following, length), *headers)


ESP_HEADER = (1).to_bytes(4, "big") + (1).to_bytes(4, "big")

IPV6_PACKETS = (
    Frame("tcp_over_ipv6", "TCP, which ends with the frame.", in_ipv6(TCP, tcp())),
    Frame("udp_over_ipv6", "UDP with 4 bytes.", in_ipv6(UDP, udp(4), bytes(4))),
    Frame("udp_of_7_bytes_over_ipv6", "The last byte is missing.", in_ipv6(UDP, udp()[:7]), no_transport(CUT_PORTS)),
    Frame("icmpv6", "An echo request.", in_ipv6(ICMPV6, icmpv6(), bytes(4))),
    Frame("icmpv6_of_4_bytes", "Type 1 and code 4.", in_ipv6(ICMPV6, icmpv6(1, 4))),
    Frame("icmpv6_of_3_bytes", "The last byte is missing.", in_ipv6(ICMPV6, icmpv6()[:3]), no_transport(CUT_CODES)),
    Frame("icmp_over_ipv6", "Protocol 1 over IPv6 has no type and code.",
          in_ipv6(ICMP, icmp()), no_transport("it reads ICMP over IPv6 too.")),
    Frame("no_next_header", "The header says that nothing follows.", in_ipv6(NO_NEXT)),
    Frame("esp", "What is encrypted isn't read.", in_ipv6(ESP, ESP_HEADER, bytes(24))),
    Frame("mobility_header", "135 is no extension header by the rules.", in_ipv6(MOBILITY, bytes([NO_NEXT]), bytes(7))),
    Frame("traffic_class_and_hop_limit", "Class 0xb9, flow label 0xabcde, and 1 hop.",
          in_ipv6(TCP, tcp(), traffic=0xB9, flow=0xABCDE, hops=1)),
    Frame("greatest_traffic_class_and_hop_limit", "Class 0xff and 255 hops.",
          in_ipv6(UDP, udp(), traffic=0xFF, hops=255)),
    Frame("version_4_under_the_type_of_ipv6", "The type and the version disagree.", in_ipv6(TCP, tcp(), version=4)),
    Frame("a_header_of_39_bytes", "The last byte of the header is missing.", under(IPV6, ipv6(NO_NEXT, 0)[:39])),
    Frame("a_payload_length_of_0", "It says that nothing follows the header.", with_payload(0, TCP, tcp())),
    Frame("a_payload_length_of_19", "It leaves 19 bytes of TCP.",
          with_payload(19, TCP, tcp()), no_transport(CUT_PORTS)),
    Frame("a_payload_length_of_20", "6 bytes pad the frame.", with_payload(20, TCP, tcp(), bytes(6))),
    Frame("a_payload_length_of_8_and_udp_of_7_bytes", "The last byte is missing.", with_payload(8, UDP, udp()[:7]),
          no_transport(CUT_PORTS)),
    Frame("a_payload_length_of_100", "It says 100 bytes, where 20 are.", with_payload(100, TCP, tcp())),
    Frame("udp_over_ipv6_and_a_tag", "UDP in VLAN 100.", tagged(0x0064, IPV6, ipv6(UDP, 8), udp())),
    Frame("tcp_over_ipv6_after_snap", "TCP in a frame with a length.", under(68, snap(IPV6), ipv6(TCP, 20), tcp())),
)

# ---- extension headers

PASSES_NINTH = "it passes the ninth header, which makes the header of IPv6 malformed by the rules."
KEEPS_IPV6 = "it keeps the header of IPv6, which is malformed by the rules as an extension header isn't whole."
PRINTS_FOLLOWING = "it prints what the fragment header names; the key has the number of that header."

EXTENSIONS = (
    Frame("hop_by_hop_options", "8 bytes of options, and TCP.", in_ipv6(HOP_BY_HOP, options(TCP), tcp())),
    Frame("hop_by_hop_options_of_24_bytes", "A length of 2, in units of 8 bytes.",
          in_ipv6(HOP_BY_HOP, options(UDP, 24), udp())),
    Frame("routing_header", "One segment is left.", in_ipv6(ROUTING, routing(TCP), tcp())),
    Frame("destination_options", "16 bytes of options, and ICMPv6.",
          in_ipv6(DESTINATION_OPTIONS, options(ICMPV6, 16), icmpv6(), bytes(4))),
    Frame("authentication_header", "24 bytes: a length of 4, in units of 4 bytes.",
          in_ipv6(AUTHENTICATION, authentication(TCP), tcp())),
    Frame("authentication_headers_of_16_and_20_bytes", "Lengths of 2 and 3, in units of 4 bytes.",
          in_ipv6(AUTHENTICATION, authentication(AUTHENTICATION, 16), authentication(UDP, 20), udp())),
    Frame("each_extension_header", "In the order that RFC 8200 recommends (4.1).",
          in_ipv6(HOP_BY_HOP, options(DESTINATION_OPTIONS), options(ROUTING), routing(FRAGMENT),
                  fragment(AUTHENTICATION), authentication(DESTINATION_OPTIONS), options(TCP), tcp())),
    Frame("each_extension_header_in_another_order", "Hop-by-hop options stand last.",
          in_ipv6(AUTHENTICATION, authentication(FRAGMENT), fragment(ROUTING), routing(DESTINATION_OPTIONS),
                  options(HOP_BY_HOP), options(UDP), udp())),
    Frame("eight_extension_headers", "The most that are passed.",
          in_ipv6(DESTINATION_OPTIONS, *[options(DESTINATION_OPTIONS)] * 7, options(UDP), udp())),
    Frame("nine_extension_headers", "One more than are passed.",
          in_ipv6(DESTINATION_OPTIONS, *[options(DESTINATION_OPTIONS)] * 8, options(UDP), udp()), unread(PASSES_NINTH)),
    Frame("no_next_header_after_options", "Nothing follows the options.",
          in_ipv6(DESTINATION_OPTIONS, options(NO_NEXT))),
    Frame("esp_after_routing", "What is encrypted isn't read.", in_ipv6(ROUTING, routing(ESP), ESP_HEADER, bytes(24))),
    Frame("tcp_of_19_bytes_after_options", "The last byte is missing.",
          in_ipv6(DESTINATION_OPTIONS, options(TCP), tcp()[:19]), no_transport(CUT_PORTS)),
    Frame("options_and_a_tag", "TCP after options in VLAN 100.",
          tagged(0x0064, IPV6, ipv6(HOP_BY_HOP, 28), options(TCP), tcp())),
)

IPV6_FRAGMENTS = (
    Frame("an_atomic_fragment", "A fragment header of a whole packet.", in_ipv6(FRAGMENT, fragment(UDP), udp())),
    Frame("a_fragment_header_with_reserved_bits", "They say nothing.",
          in_ipv6(FRAGMENT, fragment(UDP, reserved=True), udp())),
    Frame("a_first_fragment_of_ipv6", "More follow.",
          in_ipv6(FRAGMENT, fragment(UDP, more=1), udp()), not_shown(SHOWS_PORTS)),
    Frame("a_fragment_of_ipv6_in_the_middle", "More follow, and the offset is 8.",
          in_ipv6(FRAGMENT, fragment(TCP, 1, more=1), tcp()), later_fragment(PRINTS_FOLLOWING)),
    Frame("a_last_fragment_of_ipv6", "None follow, and the offset is 32768.",
          in_ipv6(FRAGMENT, fragment(UDP, 0x1000), udp()), later_fragment(PRINTS_FOLLOWING)),
    Frame("a_first_fragment_and_an_atomic_one", "The second fragment header changes nothing.",
          in_ipv6(FRAGMENT, fragment(FRAGMENT, more=1), fragment(TCP), tcp()), not_shown(SHOWS_PORTS)),
    Frame("an_atomic_fragment_and_a_first_one", "The first fragment header changes nothing.",
          in_ipv6(FRAGMENT, fragment(FRAGMENT), fragment(TCP, more=1), tcp()), not_shown(SHOWS_PORTS)),
    Frame("a_first_fragment_and_a_later_one", "What the second fragment header says counts.",
          in_ipv6(FRAGMENT, fragment(FRAGMENT, more=1), fragment(TCP, 1), tcp()), later_fragment(PRINTS_FOLLOWING)),
    Frame("routing_after_a_first_fragment", "The routing header is passed.",
          in_ipv6(FRAGMENT, fragment(ROUTING, more=1), routing(UDP), udp()), not_shown(SHOWS_PORTS)),
    Frame("routing_after_a_later_fragment", "Nothing is read after the fragment header.",
          in_ipv6(FRAGMENT, fragment(ROUTING, 1), routing(UDP), udp()), later_fragment(PRINTS_FOLLOWING)),
    Frame("a_later_fragment_after_routing", "The routing header is passed.",
          in_ipv6(ROUTING, routing(FRAGMENT), fragment(UDP, 1), udp()), later_fragment(PRINTS_FOLLOWING)),
    Frame("a_later_fragment_after_seven_headers", "An eighth header is passed.",
          in_ipv6(DESTINATION_OPTIONS, *[options(DESTINATION_OPTIONS)] * 6, options(FRAGMENT), fragment(UDP, 1), udp()),
          later_fragment(PRINTS_FOLLOWING)),
    Frame("a_later_fragment_after_eight_headers", "A ninth header isn't passed.",
          in_ipv6(DESTINATION_OPTIONS, *[options(DESTINATION_OPTIONS)] * 7, options(FRAGMENT), fragment(UDP, 1), udp()),
          unread(PASSES_NINTH)),
)

CUT_EXTENSIONS = (
    Frame("options_of_7_bytes", "The last byte is missing.", in_ipv6(DESTINATION_OPTIONS, options(NO_NEXT)[:7]),
          unread(KEEPS_IPV6)),
    Frame("options_of_16_bytes_cut_at_15", "The last byte is missing.",
          in_ipv6(DESTINATION_OPTIONS, options(NO_NEXT, 16)[:15]),
          unread(KEEPS_IPV6)),
    Frame("options_cut_by_the_frame", "Of 8 bytes 7 are there, and the payload length says 8.",
          with_payload(8, DESTINATION_OPTIONS, options(NO_NEXT)[:7]), unread(KEEPS_IPV6)),
    Frame("options_cut_by_the_payload_length", "Of 8 bytes it leaves 7.",
          with_payload(7, DESTINATION_OPTIONS, options(NO_NEXT)),
          unread(KEEPS_IPV6)),
    Frame("options_and_a_payload_length_of_0", "It leaves no byte.", with_payload(0, HOP_BY_HOP, options(TCP), tcp()),
          unread(KEEPS_IPV6)),
    Frame("second_options_cut", "The first ones are whole.",
          in_ipv6(HOP_BY_HOP, options(DESTINATION_OPTIONS), options(NO_NEXT)[:7]), unread(KEEPS_IPV6)),
    Frame("an_authentication_header_cut", "The last byte of 24 is missing.",
          in_ipv6(AUTHENTICATION, authentication(TCP)[:23]), unread(KEEPS_IPV6)),
    Frame("a_fragment_header_of_7_bytes", "The last byte is missing.", in_ipv6(FRAGMENT, fragment(UDP, 1)[:7]),
          unread(KEEPS_IPV6)),
    Frame("options_of_a_first_fragment_cut", "They go on in the next fragment.",
          in_ipv6(FRAGMENT, fragment(DESTINATION_OPTIONS, more=1), options(UDP, 16)[:8]), unread(KEEPS_IPV6)),
)

# The modules of rows: what their frames are about, and the frames.
MODULES = {
    "Ethernet": ("The Ethernet header, with tags and SNAP", TYPES + SNAP + TAGS),
    "Arp": ("ARP", ARP_PACKETS),
    "Ipv4": ("IPv4, and what it carries", IPV4_TRANSPORT + IPV4_HEADERS + IPV4_FRAGMENTS + IPV4_BEHIND),
    "Ipv6": ("IPv6, and what it carries", IPV6_PACKETS),
    "Extensions": ("The extension headers of IPv6", EXTENSIONS + IPV6_FRAGMENTS + CUT_EXTENSIONS),
}

ALL_FRAMES = tuple(frame for _, frames in MODULES.values() for frame in frames)
