"""The system calls of a program on Linux for x86-64, by ptrace."""
import ctypes
import errno
import os
import signal
from typing import NamedTuple

TRACEME, SYSCALL, GETREGS, SETREGS, SETOPTIONS = 0, 24, 12, 13, 0x4200
# Options: a stop at a system call has this bit in its signal, and the program ends with its tracer.
BIT, OPTIONS = 0x80, 0x1 | 0x100000
# The members of the kernel's `user_regs_struct` that are read here, by their index.
RAX, RDX, RSI, RDI, NUMBER, MEMBERS = 10, 12, 13, 14, 15, 27
NAMES = {1: "write", 2: "open", 20: "writev", 74: "fsync", 75: "fdatasync", 82: "rename", 86: "link", 87: "unlink", 257: "open", 263: "unlink",
         264: "rename", 265: "link", 316: "rename"}
# The arguments that are paths, by the numbers of calls.
PATHS = {2: [RDI], 82: [RDI, RSI], 86: [RDI, RSI], 87: [RDI], 257: [RSI], 263: [RSI]}
libc = ctypes.CDLL(None, use_errno=True)
libc.ptrace.argtypes = [ctypes.c_long, ctypes.c_long, ctypes.c_void_p, ctypes.c_void_p]
libc.ptrace.restype = ctypes.c_long


class Call(NamedTuple):
    """A system call that returned: its name, the paths or the file and the bytes that it was passed, and what it returned."""

    name: str
    paths: list
    file: int
    data: bytes
    result: int


def ptrace(request, process, address=None, data=None):
    if libc.ptrace(request, process, address, data) == -1:
        raise OSError(ctypes.get_errno(), os.strerror(ctypes.get_errno()))


def text_at(memory, address):
    memory.seek(address)
    return memory.read(4096).partition(b"\0")[0].decode()


def call_of(registers, memory):
    """A call of NAMES by the registers after it."""
    number = registers[NUMBER]
    name, data = NAMES[number], b""
    if name == "write":
        memory.seek(registers[RSI])
        data = memory.read(registers[RDX])
    paths = [text_at(memory, registers[it]) for it in PATHS.get(number, [])]
    return Call(name, paths, registers[RDI], data, ctypes.c_long(registers[RAX]).value)


def begin(words, stdin, stdout):
    """Starts a program that is traced, without standard error, and returns its process. Raises OSError if that is not allowed here."""
    process = os.fork()
    if process == 0:
        try:
            os.dup2(stdin.fileno(), 0)
            os.dup2(stdout.fileno(), 1)
            os.dup2(os.open(os.devnull, os.O_WRONLY), 2)
            ptrace(TRACEME, 0)
            os.execv(words[0], words)
        finally:
            os._exit(127)
    _, status = os.waitpid(process, 0)
    if not os.WIFSTOPPED(status):
        raise OSError(errno.EPERM, "a process cannot be traced here")
    ptrace(SETOPTIONS, process, None, OPTIONS)
    return process


def calls_of(words, stdin, stdout, at=None, error=0):
    """Runs a program between two files, and yields each of its calls of NAMES when it has returned. The one with the index `at` is
    not made: it returns this error, or without an error the program is killed in its place. Raises OSError if processes cannot be
    traced here."""
    process, registers, is_after, passed = begin(words, stdin, stdout), (ctypes.c_ulong * MEMBERS)(), False, 0
    index, number = -1, None
    with open(f"/proc/{process}/mem", "rb", buffering=0) as memory:
        while True:
            ptrace(SYSCALL, process, None, passed)
            _, status = os.waitpid(process, 0)
            if not os.WIFSTOPPED(status):
                return
            stopped = os.WSTOPSIG(status)
            passed = 0 if stopped == signal.SIGTRAP | BIT else stopped
            if passed:
                continue
            ptrace(GETREGS, process, None, registers)
            if not is_after:
                number = registers[NUMBER]
                index += number in NAMES
            is_at = number in NAMES and index == at
            if is_at and not error:
                os.kill(process, signal.SIGKILL)
                os.waitpid(process, 0)
                return
            if is_at:
                # A call without a number does nothing.
                registers[NUMBER], registers[RAX] = (number, -error) if is_after else (-1, -errno.ENOSYS)
                ptrace(SETREGS, process, None, registers)
            if is_after and number in NAMES:
                yield call_of(registers, memory)
            is_after = not is_after
