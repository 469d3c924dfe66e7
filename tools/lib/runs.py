"""Runs of a program: what it answers, and what it takes."""
import os
import resource
import subprocess
import sys
import tempfile
import time
from typing import NamedTuple


def answered(program, words, given=b"", **more):
    """One run with these words on these bytes."""
    return subprocess.run([program, *words], input=given, check=False, **{"stdout": subprocess.PIPE, "stderr": subprocess.PIPE, **more})


def limits(memory, seconds=None):
    """What a child calls to have at most so many bytes of addresses, and processor seconds."""

    def limit():
        resource.setrlimit(resource.RLIMIT_AS, (memory, memory))
        if seconds:
            resource.setrlimit(resource.RLIMIT_CPU, (seconds, seconds))

    return limit


class Took(NamedTuple):
    """What a run took: seconds by the clock and of all processors, the most memory in MiB, and how often a thread waited; and its status."""

    clock: float
    processors: float
    memory: float
    waits: int
    status: int


def timed(words, given, answer, **more):
    """Runs a program on a file, which it reads from the beginning; what it prints goes to another file."""
    given.seek(0)
    began = time.perf_counter()
    run = subprocess.Popen(words, stdin=given, stdout=answer, **more)
    _, status, used = os.wait4(run.pid, 0)
    clock = time.perf_counter() - began
    return Took(clock, used.ru_utime + used.ru_stime, used.ru_maxrss / 1024, used.ru_nvcsw, os.waitstatus_to_exitcode(status))


def file_of(make, size):
    """A file with what is made of this size. Another process makes it, since the most memory of a run counts that of the process that starts it."""
    given = tempfile.TemporaryFile()
    maker = os.fork()
    if maker == 0:
        status = 1
        try:
            given.write(make(size))
            given.flush()
            status = 0
        finally:
            os._exit(status)
    if os.waitpid(maker, 0)[1] != 0:
        sys.exit("no bundle was made")
    return given
