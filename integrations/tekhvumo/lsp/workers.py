"""Processes that work for the server, each on one job at a time."""
from __future__ import annotations

import os
import pickle
import queue
import subprocess
import sys
import threading
import time
from collections import deque
from pathlib import Path
from typing import Callable

from .work import Done, Job

# In seconds; a process takes about as long to begin.
PATIENCE = 0.5
FOLDER = str(Path(__file__).resolve().parent.parent.parent)


class Process:
    """A process of `work.py`, with a thread that writes to it and one that reads: neither keeps the server waiting."""

    def __init__(self, deliver: Callable[[Process, Done | None], None]) -> None:
        self.deliver = deliver
        # (without the packages that the machine has: none is needed, and they take long to find)
        words = [sys.executable, "-S", "-c", "from tekhvumo.lsp.work import main; main()"]
        path = os.pathsep.join(filter(None, [FOLDER, os.environ.get("PYTHONPATH")]))
        pipe = subprocess.PIPE
        self.child = subprocess.Popen(words, stdin=pipe, stdout=pipe, env={**os.environ, "PYTHONPATH": path})
        self.jobs: queue.SimpleQueue[Job | None] = queue.SimpleQueue()
        for work in (self.write, self.read):
            threading.Thread(target=work, daemon=True).start()

    def write(self) -> None:
        """Hands jobs on."""
        assert self.child.stdin
        while (job := self.jobs.get()) is not None:
            try:
                pickle.dump(job, self.child.stdin)
                self.child.stdin.flush()
            except (OSError, ValueError):
                return

    def read(self) -> None:
        """Delivers results, and None behind the last."""
        assert self.child.stdout
        try:
            while True:
                self.deliver(self, pickle.load(self.child.stdout))
        except (EOFError, OSError, ValueError, pickle.UnpicklingError):
            self.deliver(self, None)

    def stop(self) -> None:
        """Ends the process."""
        self.jobs.put(None)
        self.child.kill()
        self.child.wait()


class Worker:
    """A process that is there when it is needed, and its jobs, of which one is worked on."""

    def __init__(self, deliver: Callable[[Process, Done | None], None]) -> None:
        self.deliver = deliver
        self.process: Process | None = None
        self.waiting: deque[Job] = deque()
        self.job: Job | None = None
        self.begun = 0.0

    def add(self, job: Job) -> None:
        """A job for when the ones before it are done."""
        self.waiting.append(job)
        self.go_on()

    def go_on(self) -> None:
        """Begins with the next job, if none is worked on."""
        if self.job is None and self.waiting:
            self.job = self.waiting.popleft()
            self.begun = time.monotonic()
            self.get_ready().jobs.put(self.job)

    def get_ready(self) -> Process:
        """The process, which is begun if there is none."""
        self.process = self.process or Process(self.deliver)
        return self.process

    def is_soon_done(self, number: int) -> bool:
        """Whether a job is worked on, and not for long yet: to end it costs more than to wait for its end."""
        return self.job is not None and self.job.number == number and time.monotonic() - self.begun < PATIENCE

    def leave(self, number: int) -> None:
        """Leaves a job undone."""
        self.waiting = deque(job for job in self.waiting if job.number != number)
        if self.job and self.job.number == number:
            self.stop()
            self.go_on()

    def taken(self, process: Process, done: Done | None) -> Done | None:
        """What a delivery tells of this worker's job, if anything."""
        if process is not self.process:
            return None
        job = self.job
        if done is None:
            # (the process has died over its job)
            self.stop()
            done = Done(job.number, "fault", "a process of the server has ended") if job else None
        elif job is None or done.number != job.number:
            return None
        if done and done.is_last:
            self.job = None
            self.go_on()
        return done

    def stop(self) -> None:
        """Ends the process, with the job that it works on."""
        if self.process:
            self.process.stop()
        self.process = self.job = None
