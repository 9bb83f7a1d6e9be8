"""What the scripts that build share: processes that end with the one that started them, and times as they are told."""
import ctypes
import signal
import sys

PR_SET_PDEATHSIG = 1


def end_with_parent():
    """Has the system end this process, by SIGTERM, when the one that started it ends, however it does."""
    ctypes.CDLL(None, use_errno=True).prctl(PR_SET_PDEATHSIG, signal.SIGTERM)


def end_by_signals():
    """Has the signals that end a process unwind it, so that it removes what it made."""
    for it in (signal.SIGTERM, signal.SIGHUP, signal.SIGINT):
        signal.signal(it, lambda number, _: sys.exit(128 + number))


def spoken(seconds):
    minutes = int(seconds) // 60
    return f"{minutes} min {int(seconds) % 60} s" if minutes else f"{int(seconds)} s"
