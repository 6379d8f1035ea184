"""What the parts have made, as one switch would have made it."""
import os
import re
from collections import Counter

from .appending import Appender
from .flows import Flows, Packets
from .parts import MILLISECOND, OUT
from .refusals import write_fault

COUNTS = re.compile(rb"n_packets=0(,?) n_bytes=0")
NUMBER = re.compile(rb"rule=(\d+)")

SUMMARY = [
    ["ports", "frames", "edits", "blocks"], ["exact", "mega", "miss"], ["installed", "present", "full"],
    ["sent", "dropped", "entries"], ["parts"],
]
# What a summary counts of a frame of the tool's own: it is the first of its port, and no rule is there yet.
OF_OPENER = {"frames": 1, "miss": 1, "installed": 1, "dropped": 1}


class Joined:
    """The outputs of a run, to which parts are added in their order."""

    def __init__(self, command, known, folder, headers, tell):
        self.command, self.known, self.folder, self.headers = command, known, folder, headers
        self.counts, self.packets, self.bytes, self.flows = Counter(), Counter(), Counter(), Flows()
        self.names, self.parts, self.origin, self.last = set(), 0, None, None
        self.appender = Appender(folder, self.final, tell)

    def add(self, work, record):
        """Adds the next part."""
        self.parts += 1
        self.counts.update(record["counts"])
        if work.opener:
            self.counts.subtract(OF_OPENER)
        for number, (packets, size) in record["rules"].items():
            self.packets[int(number)] += packets
            self.bytes[int(number)] += size
        for name in record["sizes"]:
            if name.endswith(".pcap"):
                self.names.add(name)
                self.appender.append(work.part.number, name, work.opener)
        if self.command.netflow and work.part.frames:
            self.add_flows(work)

    def add_flows(self, work):
        begin = work.opener.time if work.opener else work.part.first
        self.origin = begin if self.origin is None else self.origin
        self.last = work.part.last
        with open(self.folder.part(work.part.number, f"{OUT}.netflow"), "rb") as file:
            datagrams = file.read()
        offset = (begin - self.origin) // MILLISECOND
        self.flows.add_part(datagrams, offset, lambda: Packets(work, self.headers, self.folder))

    def final(self, name):
        return self.command.out + name.removeprefix(OUT)

    # ---- the end

    def finish(self):
        """Gives all outputs their names, and the summary."""
        self.write(f"{OUT}.rules", self.rules())
        if self.command.netflow:
            self.write(f"{OUT}.netflow", self.flows.export(self.origin, self.last))
        self.appender.finish()
        for name in sorted(self.names, key=self.order):
            try:
                os.replace(self.folder.joined(name), self.final(name))
            except OSError as why:
                raise write_fault(self.final(name), why.strerror)
        return self.summary()

    def order(self, name):
        """Outputs come in the order in which the program writes them."""
        ports = [f"{OUT}.p{port}.pcap" for port in self.command.traces]
        mirrors = [f"{OUT}.m{number}.pcap" for number in range(1, len(self.names))]
        return [*ports, f"{OUT}.rules", f"{OUT}.netflow", *mirrors].index(name)

    def write(self, name, pieces):
        self.names.add(name)
        try:
            with open(self.folder.joined(name), "wb") as file:
                file.writelines(pieces)
        except OSError as why:
            raise write_fault(self.final(name), why.strerror)

    def rules(self):
        """The dump of the rules, which the program has made where no frame came in, with what they did."""
        for line in self.known.rules.splitlines(keepends=True):
            number = int(NUMBER.findall(line)[-1])
            packets, size = self.packets[number], self.bytes[number]
            yield COUNTS.sub(rb"n_packets=%d\1 n_bytes=%d" % (packets, size), line, count=1)

    def summary(self):
        known = {"ports": len(self.command.traces), "edits": self.known.edits, "blocks": self.known.blocks}
        counts = dict(self.counts) | known | {"parts": self.parts}
        return "".join(" ".join(f"{name}={counts[name]}" for name in line) + "\n" for line in SUMMARY)

    def close(self):
        self.appender.close()
