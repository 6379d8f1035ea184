"""The input that a number makes: rules that look at addresses, and frames of UDP at four ports."""
import struct

from .captures import MICROSECOND, SECOND, Frame, write_trace

# A linear congruential generator, of whose states the upper bits are drawn.
MULTIPLIER, INCREMENT, STATES = 6364136223846793005, 1442695040888963407, 1 << 64
DRAWN_FROM = 33

PORTS = [1, 2, 3, 4]
SUBNETS, FIRST_PRIORITY = 64, 100
REGISTER_VALUES = 16
FRAMES = 20000
MILLISECOND = 1000000

ETHERNET = bytes.fromhex("020000000002 020000000001 0800")
# Version and length, the whole length, no identification and no fragment, TTL 64 and UDP.
IPV4_BEGIN = bytes.fromhex("4500 001c 0000 0000 4011")
FIRST_SOURCE_PORT, TARGET_PORT, UDP_LENGTH, NO_CHECKSUM = 1000, 53, 8, 0
ALL_ONES = 0xFFFF

# The names that the files are given.
EDITS = "edits"


def trace_name(port):
    return f"{port}.pcap"


class Draws:
    """Numbers that follow from a first one."""

    def __init__(self, number):
        self.state = number

    def below(self, count):
        self.state = (self.state * MULTIPLIER + INCREMENT) % STATES
        return (self.state >> DRAWN_FROM) % count


def generate(number):
    """The bytes of the edits and of the traces, by name."""
    draws = Draws(number)
    edits, frames = edits_by(draws), frames_by(draws)
    traces = {trace_name(port): write_trace([it for it in frames if it.port == port], MICROSECOND) for port in PORTS}
    return {EDITS: edits.encode(), **traces}


def edits_by(draws):
    """A rule for each subnet, which puts a number into a register; one for each number, which sends; and one that drops."""
    lines = []
    for place in range(SUBNETS):
        a, b, k = draws.below(4), draws.below(16), draws.below(16)
        match = f"table=0,priority={FIRST_PRIORITY + place},ip,nw_dst=10.{a}.{b}.0/24"
        lines.append(f"{match},actions=load:{k}->reg0[],resubmit(,1)")
    for k in range(REGISTER_VALUES):
        lines.append(f"table=1,priority=10,udp,reg0={k},actions=output:{PORTS[k % len(PORTS)]}")
    return "".join(line + "\n" for line in [*lines, "table=0,priority=0,actions=drop", "sync 0"])


def frames_by(draws):
    """Each millisecond a frame, at one port after the other."""
    frames = []
    for number in range(FRAMES):
        place, turn = divmod(number, len(PORTS))
        s, c, d, e, p = (draws.below(count) for count in (200, 4, 16, 256, 1000))
        data = datagram(bytes([10, 0, 0, 1 + s]), bytes([10, c, d, e]), FIRST_SOURCE_PORT + p)
        frames.append(Frame(SECOND + number * MILLISECOND, PORTS[turn], place + 1, data))
    return frames


def datagram(source, target, source_port):
    addresses = source + target
    header = IPV4_BEGIN + struct.pack(">H", checksum(IPV4_BEGIN + addresses)) + addresses
    return ETHERNET + header + struct.pack(">HHHH", source_port, TARGET_PORT, UDP_LENGTH, NO_CHECKSUM)


def checksum(data):
    """That of RFC 1071 over these bytes, as if its own were 0."""
    total = sum(struct.unpack(f">{len(data) // 2}H", data))
    while total > ALL_ONES:
        total = (total & ALL_ONES) + (total >> 16)
    return ALL_ONES - total
