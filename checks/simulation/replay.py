"""A run by its journal: with workers threads choose which step is taken when, and the journal tells what they chose.

Each step has to be one that may be taken where it stands, and to have the result that the journal tells. At the end all
frames are decided, and a sweep of the last version is made.
"""
from .caches import Board, Versioned
from .classifier import Tables
from .flow_rules import Rules
from .schedule import blocks_of
from .translation import translate


class Unlawful(Exception):
    """What is wrong with a journal."""


class Versions:
    """The tables of each version of the rules, which are made as they are asked for."""

    def __init__(self, bundles, ports):
        self.ports, self.live, self.tables, rules = ports, [[]], {}, Rules()
        for bundle in bundles:
            rules.apply(bundle)
            self.live.append(list(rules.live.values()))

    def translate(self, version, key):
        if version >= len(self.live):
            raise Unlawful(f"there is no version {version}")
        if version not in self.tables:
            self.tables[version] = Tables(self.live[version])
        return Versioned(version, translate(self.tables[version], self.ports, key))


class Replay:
    """A board that takes the steps of a journal."""

    def __init__(self, board, versions):
        self.board, self.versions = board, versions

    def settle(self, place, version):
        _, key = self.board.pending.get(place, (None, None))
        return key is not None and self.board.settle(place, self.versions.translate(version, key))

    def put(self, number, version):
        entry = self.board.megaflows.entries.get(number)
        return entry is not None and self.board.put(number, self.versions.translate(version, entry.key))

    def take(self, line):
        """Takes the step of a line. What its words say beside the step has to be what the board then tells of it."""
        word, *rest = line.split()
        numbers = [int(it) for it in rest if it.isdigit()]
        met = {
            "look": lambda: self.board.look(),
            "settle": lambda: self.settle(*numbers[:2]),
            "begin": lambda: self.board.begin(*numbers),
            "put": lambda: self.put(*numbers),
            "end": lambda: self.board.end(),
            "open": lambda: self.board.open(),
        }[word]()
        if not met or self.board.lines[-1] != line:
            raise Unlawful(f"port {self.board.port}: {line}")

    def check_end(self):
        """Whether nothing is left to be done."""
        board = self.board
        is_last = board.block + 1 == len(board.blocks)
        if not is_last or board.left or board.pending or board.listed is not None or board.done != board.hi:
            raise Unlawful(f"port {board.port} isn't finished")


def replayed(script, frames, flow_limit, journal):
    """The boards at the end of a run with this journal. Raises Unlawful where it is none of this run."""
    versions = Versions(script.bundles, list(frames))
    boards = [Board(port, blocks_of(frames[port], script), flow_limit) for port in frames]
    left = iter(boards)
    replay = None
    for line in journal.splitlines():
        if line.startswith("port "):
            if replay:
                replay.check_end()
            board = next(left, None)
            if board is None or board.lines[0] != line:
                raise Unlawful(line)
            replay = Replay(board, versions)
        elif replay is None:
            raise Unlawful(line)
        else:
            replay.take(line)
    if replay is None:
        raise Unlawful("there is no port")
    replay.check_end()
    if next(left, None):
        raise Unlawful("a port is left out")
    return boards
