"""Locks between processes of `cnb`."""

import fcntl
import os
from collections.abc import Callable, Iterator
from contextlib import contextmanager
from pathlib import Path

from cnb.failure import Failure


@contextmanager
def held(path: Path, *, shared: bool = False, waiting: Callable[[], None] | None = None) -> Iterator[None]:
    """Holds the lock of a file, which is made where it isn't there. `waiting` is called before this process waits."""
    kind = fcntl.LOCK_SH if shared else fcntl.LOCK_EX
    descriptor = os.open(path, os.O_RDWR | os.O_CREAT | os.O_CLOEXEC, 0o600)
    try:
        try:
            fcntl.flock(descriptor, kind | fcntl.LOCK_NB)
        except BlockingIOError:
            if waiting is not None:
                waiting()
            fcntl.flock(descriptor, kind)
        yield
    finally:
        os.close(descriptor)


@contextmanager
def tried(path: Path) -> Iterator[bool]:
    """Holds the lock of a file alone, if no other process has it by now; says whether that is so."""
    descriptor = os.open(path, os.O_RDWR | os.O_CREAT | os.O_CLOEXEC, 0o600)
    try:
        try:
            fcntl.flock(descriptor, fcntl.LOCK_EX | fcntl.LOCK_NB)
        except BlockingIOError:
            yield False
        else:
            yield True
    finally:
        os.close(descriptor)


@contextmanager
def held_by_machines(path: Path) -> Iterator[None]:
    """Holds the lock of a file in a folder that machines share: of its bytes (`fcntl`), which an NFS server keeps for all of
    them, itself included. It ends with the first descriptor of the file that the process closes, so it is taken once."""
    try:
        descriptor = os.open(path, os.O_RDWR | os.O_CREAT | os.O_CLOEXEC, 0o600)
    except OSError as fault:
        raise Failure(f"{path} can't be opened for writing: {fault.strerror}.") from fault
    try:
        try:
            fcntl.lockf(descriptor, fcntl.LOCK_EX)
        except OSError as fault:
            hint = "Over NFS it takes a mount without nolock, and with version 3 rpc.statd on both machines."
            raise Failure(f"{path} can't be locked: {fault.strerror}.", hint=hint) from fault
        yield
    finally:
        os.close(descriptor)
