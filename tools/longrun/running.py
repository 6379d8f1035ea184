"""A whole run: traces are cut, parts are done side by side, and what they made is put together in their order."""
import contextlib
from collections import deque, namedtuple

from .crew import Crew
from .cutting import Cutter
from .edits import Edits
from .joining import Joined
from .parts import Folder, Plan, Work, opener_of
from .program import checked, contents, found_program
from .refusals import FAILED, Refused

# What is known before a frame is looked at: the dump of the rules, and how many edits and blocks there are.
Known = namedtuple("Known", "rules edits blocks")
# How many parts are cut before there is a place for them. And how many may be done and not be added yet, for each
# that may be under way, since one before them isn't done.
PARTS_READY, PARTS_AHEAD = 2, 4


def run(command, progress):
    """Runs a command, and gives the summary."""
    edits = contents(command.edits)
    with Folder(command.out, progress.tell) as folder:
        program = found_program(command.program, folder)
        mirrors = None
        if command.mirrors is not None:
            # A fault of the edits comes first.
            checked(program, command, edits, None, folder)
            mirrors = contents(command.mirrors)
        about = checked(program, command, edits, mirrors, folder)
        by_block = Edits(edits)
        known = Known(about.rules, about.edits, by_block.syncs + 1)
        plan = Plan(program.path, program.checksum, command.options, by_block, mirrors, list(command.traces))
        with contextlib.closing(Cutter(command, by_block, folder, progress.tell)) as cutter:
            headers = {trace.port: trace.header for trace in cutter.traces}
            with contextlib.closing(Joined(command, known, folder, headers, progress.tell)) as joined:
                return Session(command, plan, folder, headers, cutter, joined, progress).run()


class Session:
    """The parts of a run: those under way, and those that are done and wait for one before them."""

    def __init__(self, command, plan, folder, headers, cutter, joined, progress):
        self.plan, self.folder, self.cutter, self.joined, self.progress = plan, folder, cutter, joined, progress
        if command.scheduler:
            # Here, since others needn't wait for what it needs of Python.
            from .cluster import Cluster

            self.side = Cluster(command.scheduler, plan, headers, command.program, progress.tell)
        else:
            self.side = Crew(command.jobs, plan, folder, headers)
        self.exports = command.netflow
        # Parts that are cut and wait for a place. By their numbers: those that aren't added yet, where those were run
        # that failed once, and the records of those that are done.
        self.waiting, self.works, self.failed, self.records, self.frames = deque(), {}, {}, {}, 0

    def run(self):
        try:
            origin = None
            for part in self.cutter.parts():
                if part:
                    origin = origin or (part if self.exports else None)
                    self.put(Work(self.plan, self.folder, part, opener_of(part, origin)))
                self.go_on(patiently=self.has_enough)
            while self.works:
                self.go_on(patiently=True)
            summary = self.joined.finish()
            self.folder.leave_parts(self.joined.parts)
            return summary
        finally:
            self.side.close()
            self.progress.clear()

    def put(self, work):
        self.frames += work.part.frames
        self.works[work.part.number] = work
        self.waiting.append(work)

    @property
    def has_enough(self):
        """Whether as many parts are cut as are needed soon."""
        return len(self.waiting) > PARTS_READY or len(self.works) > PARTS_AHEAD * self.side.most

    def go_on(self, patiently):
        """Takes the outcomes of parts that have ended, starts others in their places, and adds those whose turn it
        is. Where it is patient it waits until there are fewer."""
        while True:
            self.start_some()
            for outcome in self.side.ended(patiently):
                self.take(outcome)
            self.start_some()
            while (number := self.joined.parts + 1) in self.records:
                self.joined.add(self.works[number], self.records.pop(number))
                self.folder.forget_unpacked(self.works.pop(number).part)
            if self.progress.is_due:
                self.progress.show(self.frames, *self.cutter.progress())
            if not patiently or not self.has_enough:
                return

    def start_some(self):
        while self.waiting and not self.side.is_full:
            work = self.waiting.popleft()
            self.side.start(work, self.failed.get(work.part.number))

    def take(self, outcome):
        if outcome.record is None:
            self.try_again(self.works[outcome.part.number], outcome)
        else:
            self.records[outcome.part.number] = outcome.record
            self.progress.done(outcome.part.frames, outcome.is_run)

    def try_again(self, work, outcome):
        """Has a part that has failed start as the next one, elsewhere if it can be; or names it where it failed
        before."""
        number, ended = work.part.number, outcome.ended
        said = f"part {number}, {told_times(work.part)}: " + (
            ended.text.strip() if ended.status is None else f"status {ended.status}: {ended.text.strip()}"
        )
        if number in self.failed:
            status = ended.status if ended.status and ended.status > 0 else FAILED
            raise Refused(status, ended.text if status == ended.status else "", said)
        self.failed[number] = outcome.where
        self.progress.tell(f"{said}; it is tried once more")
        self.waiting.appendleft(work)


def told_times(part):
    if part.first is None:
        return "without a frame"
    return "frames from %d.%09d to %d.%09d" % (*divmod(part.first, 10**9), *divmod(part.last, 10**9))
