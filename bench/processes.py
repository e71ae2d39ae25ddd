"""Runs a program once, and measures its processor time and its peak memory."""

import contextlib
import os
import resource
import subprocess
import tempfile
import time
from dataclasses import dataclass

STACK = 1 << 20
PAUSE = 0.002
# Within a shorter run the peak may be missed.
SHORT = 0.02


@dataclass
class Run:
    """How a program ended: its status, seconds of processor and by the clock, peak memory in bytes (0 if unknown), first line of its reasons."""

    status: int
    processor: float
    clock: float
    memory: int
    reason: str


@contextlib.contextmanager
def small_stack():
    """Programs that start within have a stack of 1 MB."""
    limits = resource.getrlimit(resource.RLIMIT_STACK)
    resource.setrlimit(resource.RLIMIT_STACK, (STACK, limits[1]))
    try:
        yield
    finally:
        resource.setrlimit(resource.RLIMIT_STACK, limits)


def memory_of(process, field="VmHWM"):
    """The peak memory of a process in bytes, or with VmRSS what it has now; 0 if it has ended."""
    try:
        with open(f"/proc/{process}/status", encoding="ascii") as lines:
            return next((int(line.split()[1]) * 1024 for line in lines if line.startswith(field)), 0)
    except OSError:
        return 0


def run_once(words, source=os.devnull):
    """Runs the program over this file. The peak that `wait4` returns includes this process's own, so /proc is read until the end."""
    with open(source, "rb") as given, tempfile.TemporaryFile() as reasons, small_stack():
        began = time.perf_counter()
        child = subprocess.Popen(words, stdin=given, stdout=subprocess.DEVNULL, stderr=reasons)
        memory, ended = 0, 0
        while not ended:
            memory = max(memory, memory_of(child.pid))
            ended, status, used = os.wait4(child.pid, os.WNOHANG)
            time.sleep(0 if ended else PAUSE)
        clock = time.perf_counter() - began
        child.returncode = os.waitstatus_to_exitcode(status)
        reasons.seek(0)
        reason = reasons.readline().decode(errors="replace").strip()
    return Run(child.returncode, used.ru_utime + used.ru_stime, clock, memory if clock > SHORT else 0, reason)
