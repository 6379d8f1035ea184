"""Parts side by side, by processes of this machine, the members of a crew.

A member has the program run on one part at a time. While that runs it keeps what the program has made of the part
before, and writes the inputs of the next one. So as many programs run at a time as there are members, and none of
them waits for files.
"""
import contextlib
from multiprocessing.connection import wait

from .helpers import Helper
from .parts import Outcome, Work, ended_by
from .refusals import Refused
from .remote import Ended, Running

# What a member has at most: a part that runs, and one that is made ready.
PARTS_OF_MEMBER = 2


class Crew:
    """The members of a run."""

    def __init__(self, jobs, plan, folder, headers):
        self.most, self.plan, self.folder, self.headers = jobs, plan, folder, headers
        self.members = []

    @property
    def is_full(self):
        return len(self.members) == self.most and not any(member.has_room for member in self.members)

    def start(self, work, _avoided=None):
        """Gives a part to a new member, or else to the one that has the fewest."""
        if len(self.members) < self.most:
            self.members.append(Member(self.serve))
        member = min((it for it in self.members if it.has_room), key=lambda it: len(it.parts))
        member.give(work)

    def ended(self, patiently):
        """The outcomes of parts that have ended. Where it is patient, it waits for one at least."""
        members = {member.pipe: member for member in self.members}
        told = wait(list(members), None if patiently else 0)
        outcomes = [outcome for pipe in told for outcome in members[pipe].outcomes()]
        for member in [it for it in self.members if it.has_failed and not it.parts]:
            self.members.remove(member)
            member.dismiss()
        return outcomes

    def close(self):
        for member in self.members:
            member.process.terminate()
        for member in self.members:
            member.dismiss()

    def serve(self, pipe):
        Service(self.plan, self.folder, self.headers, pipe).run()


class Member(Helper):
    """A process of the crew. One that has failed in a part is given no other, so that another one tries it again."""

    def __init__(self, serve):
        super().__init__(serve)
        self.parts, self.has_failed = [], False

    @property
    def has_room(self):
        return not self.has_failed and len(self.parts) < PARTS_OF_MEMBER

    def give(self, work):
        self.parts.append(work.part)
        # Where it is lost, this is found out when it is listened to.
        with contextlib.suppress(OSError):
            self.pipe.send((work.part, work.opener))

    def outcomes(self):
        """The outcome that it tells; or where it is lost, those of its parts."""
        try:
            outcome = self.pipe.recv()
        except (EOFError, OSError):
            return self.lost()
        self.parts.remove(outcome.part)
        self.has_failed = self.has_failed or outcome.record is None
        return [outcome]

    def lost(self):
        self.process.join()
        ended = Ended(None, f"its process ended by itself, with {self.process.exitcode}")
        parts, self.parts, self.has_failed = self.parts, [], True
        return [Outcome(part, ended, None, None) for part in parts]


# ---- in the process of a member


class Service:
    """What a member does: it takes parts from a pipe, and tells there what becomes of them."""

    def __init__(self, plan, folder, headers, pipe):
        self.plan, self.folder, self.headers, self.pipe = plan, folder, headers, pipe
        # The program that runs and its part; and the next part, whose inputs are written.
        self.program = self.attempt = self.next = None
        self.is_over = False

    def run(self):
        try:
            while self.program or not self.is_over:
                self.go_on()
        finally:
            if self.program:
                self.program.stop()

    def go_on(self):
        """Waits until the program ends or a part comes, and sees to that."""
        streams = self.program.streams if self.program else []
        told = wait(streams if self.is_over else [*streams, self.pipe])
        if any(stream in told for stream in streams):
            self.take_end()
        else:
            self.take_part()

    def take_part(self):
        """Makes a part ready, unless it was done before."""
        try:
            part, opener = self.pipe.recv()
        except (EOFError, OSError):
            self.leave()
            return
        work = Work(self.plan, self.folder, part, opener)
        try:
            outcome = work.done_before(self.headers)
            self.next = None if outcome else work.made_ready(self.headers)
        except (OSError, Refused) as fault:
            outcome = Outcome(part, ended_by(fault, self.folder), None, None)
        if outcome:
            self.tell(outcome)
        elif not self.program:
            self.start()

    def leave(self):
        """Takes no other part: the tool is gone. What runs is kept for a later run of it."""
        self.is_over = True
        if self.next:
            self.next.remove()
            self.next = None

    def start(self):
        """Has the program run on the part that is ready."""
        attempt, self.next = self.next, None
        try:
            self.program = Running(self.plan.program, attempt.work.words, attempt.path)
            self.attempt = attempt
        except OSError as fault:
            attempt.remove()
            self.tell(Outcome(attempt.work.part, ended_by(fault, self.folder), None, None))

    def take_end(self):
        """Has the program run on the next part at once, and then keeps what it has made of this one."""
        ended, attempt = self.program.ended(), self.attempt
        self.program = None
        if self.next:
            self.start()
        self.tell(attempt.outcome(ended))

    def tell(self, outcome):
        # A part is done, also where there is nobody any more to be told.
        with contextlib.suppress(OSError):
            self.pipe.send(outcome)
