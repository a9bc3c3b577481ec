"""Calls of the program, each traced to its exit, where the kernel tells its peak memory (VmHWM).

`ru_maxrss` would count this script's own memory too, since a child has that until it runs its program. Pages of files, which are
the program and the C library, are taken off: how many of them a process has changes from call to call, by some 400 KiB.
"""

import ctypes
import os
import resource
import signal
from typing import NamedTuple

TRACE_ME, GO_ON, SET_OPTIONS = 0, 7, 0x4200  # requests of ptrace
KILL_WITH_TRACER, STOP_AT_EXIT = 0x100000, 0x40  # its options
AT_EXIT = signal.SIGTRAP | 6 << 8  # how it tells the stop before the exit
MOST_MEMORY = 1 << 29  # bytes that a call may have: with no more it has to end with status 5
MOST_SECONDS, MOST_CLOCK = 10, 100  # of the processor, and of the clock

ptrace = ctypes.CDLL(None, use_errno=True).ptrace
ptrace.argtypes = [ctypes.c_long, ctypes.c_long, ctypes.c_void_p, ctypes.c_void_p]
ptrace.restype = ctypes.c_long


class Call(NamedTuple):
    """How a call ended (a signal's number is negative), what it wrote, its seconds of the processor, and the most bytes that
    it had resident beside pages of files."""
    status: int
    output: bytes
    error: bytes
    seconds: float
    memory: int


class Untraced(Exception):
    """This system does not let a process trace its child."""


def peak(number):
    """The most bytes that a process ever had resident, without the pages of files that it has now."""
    with open("/proc/%d/status" % number, "rb") as lines:
        rows = dict(line.split(b":", 1) for line in lines)
    most, files = (int(rows[name].split()[0]) for name in (b"VmHWM", b"RssFile"))
    return 1024 * (most - files)


def become(path, words, folder, output, error):
    """Runs the program in this process, which is a child that its parent traces. It never returns."""
    try:
        os.chdir(folder)
        for kind, most in ((resource.RLIMIT_AS, MOST_MEMORY), (resource.RLIMIT_CPU, MOST_SECONDS), (resource.RLIMIT_CORE, 0)):
            resource.setrlimit(kind, (most, most))
        os.dup2(os.open(os.devnull, os.O_RDONLY), 0)
        os.dup2(output, 1)
        os.dup2(error, 2)
        if ptrace(TRACE_ME, 0, None, None) == 0:
            os.execv(path, [path] + words)
    finally:
        os._exit(127)


class Program:
    """The program, whose output and errors go to two files in memory."""

    def __init__(self, path):
        self.path = path
        self.output, self.error = (os.memfd_create(name) for name in ("output", "error"))

    def call(self, words, folder):
        """Runs the program on these words, in a folder."""
        for file in (self.output, self.error):
            os.ftruncate(file, 0)
            os.lseek(file, 0, os.SEEK_SET)
        child = os.fork()
        if child == 0:
            become(self.path, words, folder, self.output, self.error)
        signal.signal(signal.SIGALRM, lambda *_: os.kill(child, signal.SIGKILL))
        signal.alarm(MOST_CLOCK)
        status, used, memory = followed(child)
        signal.alarm(0)
        output, error = (os.pread(file, os.fstat(file).st_size, 0) for file in (self.output, self.error))
        return Call(status, output, error, used.ru_utime + used.ru_stime, memory)


def followed(child):
    """Lets a traced child run to its end: its status, what it used, and its peak memory."""
    _, told = os.waitpid(child, 0)
    if not os.WIFSTOPPED(told) or ptrace(SET_OPTIONS, child, None, KILL_WITH_TRACER | STOP_AT_EXIT):
        raise Untraced
    memory, passed_on = 0, 0
    while os.WIFSTOPPED(told):
        ptrace(GO_ON, child, None, passed_on)
        _, told, used = os.wait4(child, 0)
        if told >> 8 == AT_EXIT:
            memory, passed_on = peak(child), 0
        elif os.WIFSTOPPED(told):
            passed_on = os.WSTOPSIG(told)
    return os.WEXITSTATUS(told) if os.WIFEXITED(told) else -os.WTERMSIG(told), used, memory
