"""Limits under which a test runs a program: each is to be called in the new process, before the program starts."""

import os
import resource
import signal

NOBODY = 65534


def files_of_at_most(size):
    """As on a disk that is full then: a write past so many bytes takes a part, and the next one fails."""

    def limit():
        signal.signal(signal.SIGXFSZ, signal.SIG_IGN)
        resource.setrlimit(resource.RLIMIT_FSIZE, (size, size))

    return limit


def as_nobody():
    """Without the rights of root, who may read and enter everything."""
    if os.geteuid() == 0:
        os.setgroups([])
        os.setgid(NOBODY)
        os.setuid(NOBODY)
