"""The table of frames with what tshark prints of them, and how tshark is asked."""
import os
import struct
import subprocess
import tempfile
import xml.etree.ElementTree

# What is asked of each frame, by the names of Wireshark's display filters.
ASKED = """
    frame.len frame.cap_len
    eth.dst eth.src eth.type eth.len eth.invalid_lentype
    vlan.priority vlan.dei vlan.id vlan.etype vlan.len
    ieee8021ad.priority ieee8021ad.dei ieee8021ad.id ieee8021ah.etype
    llc.dsap llc.ssap llc.control llc.oui llc.type llc.cisco_pid
    arp.hw.type arp.proto.type arp.hw.size arp.proto.size arp.opcode
    arp.src.hw_mac arp.src.proto_ipv4 arp.dst.hw_mac arp.dst.proto_ipv4
    ip.version ip.hdr_len ip.dsfield ip.len ip.flags.rb ip.flags.df ip.flags.mf ip.frag_offset ip.ttl ip.proto
    ip.src ip.dst
    ipv6.version ipv6.tclass ipv6.flow ipv6.plen ipv6.nxt ipv6.hlim ipv6.src ipv6.dst
    ipv6.hopopts.nxt ipv6.routing.nxt ipv6.dstopts.nxt ah.next_header
    ipv6.fraghdr.nxt ipv6.fraghdr.offset ipv6.fraghdr.more
    tcp.srcport tcp.dstport udp.srcport udp.dstport icmp.type icmp.code icmpv6.type icmpv6.code
""".split()

# The protocols of which the position in the frame is asked.
PLACED = ("vlan", "ieee8021ad", "arp", "ip", "ipv6", "tcp", "udp", "icmp", "icmpv6")

# No name resolution and no reassembly.
OPTIONS = ("-n", "-o", "ip.defragment:FALSE", "-o", "ipv6.defragment:FALSE")

LINKTYPE_ETHERNET = 1


# ---- tshark


def write_capture(path, frames):
    """Writes a capture file with these frames (pcap-savefile(5)), one in each second."""
    with open(path, "wb") as output:
        output.write(struct.pack("<IHHiIII", 0xA1B2C3D4, 2, 4, 0, 0, 0x40000, LINKTYPE_ETHERNET))
        for second, frame in enumerate(frames, 1):
            size = len(frame.bytes)
            output.write(struct.pack("<IIII", second, 0, size, frame.length or size) + frame.bytes)


def tshark(*words):
    """What tshark prints with these words. It complains that it is run as root, if it is, which doesn't matter here."""
    run = subprocess.run(["tshark", *words], check=True, stdout=subprocess.PIPE, stderr=subprocess.DEVNULL, text=True)
    return run.stdout


def version():
    return tshark("--version").splitlines()[0]


def fields_in(capture):
    """For each frame the fields that it has; the values of one are joined by commas."""
    words = [word for name in ASKED for word in ("-e", name)]
    text = tshark(*OPTIONS, "-r", capture, "-T", "fields", "-E", "separator=/t", "-E", "occurrence=a", *words)
    for line in text.splitlines():
        yield {name: value for name, value in zip(ASKED, line.split("\t"), strict=True) if value}


def positions_in(capture):
    """For each frame the positions of each protocol that it has, under the protocol's name after an @, joined by commas."""
    for packet in xml.etree.ElementTree.fromstring(tshark(*OPTIONS, "-r", capture, "-T", "pdml")).iter("packet"):
        positions = {}
        for proto in packet.iter("proto"):
            if proto.get("name") in PLACED:
                positions.setdefault("@" + proto.get("name"), []).append(proto.get("pos"))
        yield {name: ",".join(places) for name, places in positions.items()}


def ask(frames):
    """What tshark prints of these frames: a dictionary for each."""
    with tempfile.TemporaryDirectory() as folder:
        capture = os.path.join(folder, "frames.pcap")
        write_capture(capture, frames)
        for fields, positions in zip(fields_in(capture), positions_in(capture), strict=True):
            yield fields | positions


# ---- the table


def text_of(frames):
    """The table: tshark's version, and a line for each frame with its name, its bytes, and what tshark prints of it."""
    lines = [version()]
    for frame, fields in zip(frames, ask(frames), strict=True):
        lines.append("\t".join([frame.name, frame.bytes.hex(), *(f"{name}={value}" for name, value in fields.items())]))
    return "".join(line + "\n" for line in lines)


def parse(text):
    """The bytes of each frame of a table by its name, and what was printed of it."""
    table = {}
    for line in text.splitlines()[1:]:
        name, data, *fields = line.split("\t")
        table[name] = bytes.fromhex(data), dict(field.split("=", 1) for field in fields)
    return table
