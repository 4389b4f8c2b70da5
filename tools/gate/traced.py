"""What tools/gate/trace-syncs, two-at-once and closed-descriptors share: a program that is stopped at its system calls (ptrace, Linux on x86-64)."""
import ctypes
import errno
import os

LIBC = ctypes.CDLL(None, use_errno=True)
LIBC.ptrace.argtypes = [ctypes.c_long] * 4
TRACE_ME, GET_REGS, SET_REGS, STEP_TO_CALL, SET_OPTIONS = 0, 12, 13, 24, 0x4200
# Options: a stop at a call is told from a signal; threads are traced from their start; the program is killed with the one that traces it.
TELL_CALLS, WITH_THREADS, KILL_WITH_ME = 1, 1 << 3, 1 << 20
# The places of registers among those that are told, and the numbers of calls (asm/unistd_64.h).
RAX, RDI, RSI, R10, CALL = 10, 14, 13, 7, 15
OPEN, OPEN_AT, CLOSE, READ, READ_AT, WRITE, WRITE_AT, SYNC, SYNC_DATA, LOCK = 2, 257, 3, 0, 17, 1, 18, 74, 75, 73


def ptrace(request, pid, address=0, data=0):
    if LIBC.ptrace(request, pid, address, data) < 0:
        raise OSError(ctypes.get_errno(), "ptrace")


def registers(pid):
    held = (ctypes.c_ulonglong * 27)()
    ptrace(GET_REGS, pid, 0, ctypes.addressof(held))
    return list(held)


def set_register(pid, place, value):
    held = registers(pid)
    held[place] = value % (1 << 64)
    given = (ctypes.c_ulonglong * 27)(*held)
    ptrace(SET_REGS, pid, 0, ctypes.addressof(given))


def started(words, folder, options, output=None, closed=()):
    """Starts a program in a folder, its text to a file that is open or to nowhere, some descriptors closed, and stops it before its first instruction."""
    if not os.access(words[0], os.X_OK):
        raise FileNotFoundError(errno.ENOENT, os.strerror(errno.ENOENT), words[0])
    pid = os.fork()
    if not pid:
        os.chdir(folder)
        os.dup2(os.open(os.devnull, os.O_WRONLY) if output is None else output, 1)
        for descriptor in closed:
            os.close(descriptor)
        ptrace(TRACE_ME, 0)
        os.execv(words[0], words)
    os.waitpid(pid, 0)
    ptrace(SET_OPTIONS, pid, 0, TELL_CALLS | KILL_WITH_ME | options)
    return pid
