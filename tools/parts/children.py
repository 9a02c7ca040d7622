"""Commands that end with the process that started them, also where that one is ended by KILL."""
import os, signal

# PR_SET_PDEATHSIG of Linux.
PARENT_DEATH = 1


def prctl():
    """The system's call, or None where Python has no way to it."""
    try:
        import ctypes

        return ctypes.CDLL(None).prctl
    except (ImportError, OSError, AttributeError, MemoryError):
        return None


CALL = prctl()


def bound():
    """What a child of this process has to call before its program starts (`preexec_fn`): KILL ends it where this process ends."""
    parent = os.getpid()

    def binds():
        if CALL:
            CALL(PARENT_DEATH, signal.SIGKILL, 0, 0, 0)
            # The parent may have ended before.
            if os.getppid() != parent:
                os._exit(128 + signal.SIGKILL)

    return binds
