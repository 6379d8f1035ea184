"""Parts side by side, by the workers of a Dask scheduler.

A worker is sent the inputs of a part, and sends back what the program has written of them. So nothing has to be
shared between machines; the program has to be on each of them.
"""
import concurrent.futures
import logging
import os
import queue
import threading

from . import remote
from .parts import EDITS, Attempt, Outcome, ended_by
from .refusals import FAILED, Refused
from .remote import Ended, write_file

PACKAGE = "python3-distributed"
# How many parts are at the cluster for each thread of its workers: so the next part is there where one ends.
PARTS_FOR_EACH_THREAD = 2
MOST_PARTS = 64
# How many parts are sent to workers, or come from them, at a time.
TRANSFERS = 2
# How long a scheduler may take to answer, and a first worker to come, in seconds.
PATIENCE, PATIENCE_FOR_WORKERS = 10, 60
# Where workers may have the program, when no path is given.
COMMON_NAME = "megaswitch"


def connected(address, tell):
    """A client of a scheduler that has workers, and what waits for its tasks."""
    try:
        import cloudpickle
        import distributed
    except ImportError:
        raise Refused(FAILED, note=f"--scheduler needs Dask: apt-get install {PACKAGE}")
    for name in ["distributed", "distributed.client"]:
        # What goes wrong is told here, part by part.
        logging.getLogger(name).setLevel(logging.CRITICAL)
    # Workers needn't have this file.
    cloudpickle.register_pickle_by_value(remote)
    try:
        client = distributed.Client(address, timeout=PATIENCE)
    except (OSError, ValueError, TypeError) as why:
        raise Refused(FAILED, note=f"no scheduler answers at {address}: {why}")
    try:
        if not client.scheduler_info()["workers"]:
            tell(f"the scheduler at {address} has no workers yet")
        client.wait_for_workers(1, timeout=PATIENCE_FOR_WORKERS)
    except (OSError, TimeoutError, distributed.TimeoutError):
        client.close()
        raise Refused(FAILED, note=f"the scheduler at {address} has no workers")
    return client, distributed.wait


class Lost(Exception):
    """Why no worker has answered."""


class Cluster:
    """The workers of a scheduler."""

    def __init__(self, address, plan, headers, given, tell):
        self.plan, self.headers = plan, headers
        self.client, self.wait = connected(address, tell)
        self.programs = [os.path.abspath(given)] if given else [plan.program, COMMON_NAME]
        workers = self.client.scheduler_info()["workers"].values()
        self.most = min(MOST_PARTS, PARTS_FOR_EACH_THREAD * sum(worker["nthreads"] for worker in workers))
        self.threads = concurrent.futures.ThreadPoolExecutor(self.most)
        self.count, self.outcomes = 0, queue.SimpleQueue()
        # Of the parts at the cluster few are in the memory of this process at a time.
        self.transfers = threading.BoundedSemaphore(TRANSFERS)

    @property
    def is_full(self):
        return self.count >= self.most

    def start(self, work, avoided=None):
        self.count += 1
        self.threads.submit(self.do, work, avoided)

    def ended(self, patiently):
        outcomes = [self.outcomes.get()] if patiently else []
        while not self.outcomes.empty():
            outcomes.append(self.outcomes.get())
        self.count -= len(outcomes)
        return outcomes

    def close(self):
        self.client.close()
        self.threads.shutdown(cancel_futures=True)

    # ---- in a thread of a part

    def do(self, work, avoided):
        try:
            outcome = work.done_before(self.headers) or self.attempted(work, avoided)
        except (OSError, Refused) as fault:
            outcome = Outcome(work.part, ended_by(fault, work.folder), None, None)
        except Exception as why:
            outcome = Outcome(work.part, Ended(None, f"it was lost: {why}"), None, None)
        self.outcomes.put(outcome)

    def attempted(self, work, avoided):
        """Has a worker run the program: another one than what is to be avoided, where there is one."""
        attempt, inputs = Attempt(work), work.inputs(self.headers)
        try:
            ended, files, where = self.answer(attempt, inputs, avoided)
            for name, data in files.items():
                write_file(os.path.join(attempt.path, name), [data])
            write_file(os.path.join(attempt.path, EDITS), inputs[EDITS])
            return attempt.outcome(ended, where)
        finally:
            attempt.remove()

    def answer(self, attempt, inputs, avoided):
        """What a worker answers."""
        try:
            return self.asked(attempt, inputs, avoided)
        except Refused:
            raise
        except Exception as why:
            raise Lost(f"{type(why).__name__} {why}")

    def asked(self, attempt, inputs, avoided):
        others = [it for it in self.client.scheduler_info()["workers"] if it != avoided] or None
        words = attempt.work.words
        with self.transfers:
            data = [attempt.pass_on(inputs, lambda _, pieces: b"".join(pieces))]
            [there] = self.client.scatter(data, workers=others, hash=False)
            data.clear()
        task = self.client.submit(
            remote.run_remotely, self.programs, self.plan.checksum, words, there, workers=others, pure=False
        )
        self.wait(task)
        with self.transfers:
            return task.result()
