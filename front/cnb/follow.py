"""A child whose lines are followed while it runs, and which ends with this process."""

import os
import selectors
import signal
import subprocess
from collections import deque
from collections.abc import Callable, Mapping, Sequence
from pathlib import Path

from cnb.failure import Failure
from cnb.program import Ended

# What is kept of a child's lines, whatever it prints: this many of each stream, of at most so many bytes each, and so many
# bytes of both in the log.
KEPT_LINES = 2000
LONGEST_LINE = 8192
LONGEST_LOG = 64 << 20

# The seconds that a child has to end by itself.
GRACE = 5.0

OnLine = Callable[[str, bool], None]
"""Called with each line, and whether it came on standard output."""


class _Lines:
    """Lines of a stream that comes in pieces. A line that is longer than LONGEST_LINE is cut."""

    def __init__(self) -> None:
        self._open = b""

    def take(self, piece: bytes) -> list[bytes]:
        """The lines that this piece ends; an empty piece ends the stream."""
        lines = (self._open + piece).split(b"\n")
        self._open = lines.pop()
        if self._open and (not piece or len(self._open) > LONGEST_LINE):
            lines.append(self._open)
            self._open = b""
        return [line[at : at + LONGEST_LINE] for line in lines for at in range(0, len(line) or 1, LONGEST_LINE)]


def _stop(child: "subprocess.Popen[bytes]") -> None:
    """Ends a child with all of its process group."""
    for number, seconds in ((signal.SIGTERM, GRACE), (signal.SIGKILL, None)):
        try:
            os.killpg(child.pid, number)
            child.wait(seconds)
        except (ProcessLookupError, subprocess.TimeoutExpired):
            continue


def _read(child: "subprocess.Popen[bytes]", log: Path, on_line: OnLine) -> tuple[str, str]:
    """Reads both streams to their ends. The lines go to the log, and the last ones of each stream are returned."""
    kept: dict[bool, deque[str]] = {True: deque(maxlen=KEPT_LINES), False: deque(maxlen=KEPT_LINES)}
    with selectors.DefaultSelector() as waiting, log.open("ab") as logged:
        for stream, is_printed in ((child.stdout, True), (child.stderr, False)):
            assert stream is not None
            waiting.register(stream, selectors.EVENT_READ, (is_printed, _Lines()))
        while waiting.get_map():
            for key, _ in waiting.select():
                is_printed, lines = key.data
                piece = os.read(key.fd, 65_536)
                if not piece:
                    waiting.unregister(key.fileobj)
                for line in lines.take(piece):
                    if logged.tell() < LONGEST_LOG:
                        logged.write(line + b"\n")
                    kept[is_printed].append(line.decode(errors="replace"))
                    on_line(kept[is_printed][-1], is_printed)
    return "\n".join(kept[True]), "\n".join(kept[False])


def follow(words: Sequence[str], *, env: Mapping[str, str], log: Path, on_line: OnLine) -> Ended:
    """Runs a child in a session of its own and hands on its lines. What ends this process ends the child's group too."""
    try:
        child = subprocess.Popen(
            words,
            env=dict(env),
            stdin=subprocess.DEVNULL,
            stdout=subprocess.PIPE,
            stderr=subprocess.PIPE,
            start_new_session=True,
        )
    except OSError as fault:
        raise Failure(f"{words[0]} can't be run: {fault.strerror}.") from fault
    try:
        printed, said = _read(child, log, on_line)
        return Ended(child.wait(), printed, said)
    finally:
        if child.returncode is None:
            _stop(child)
        for stream in (child.stdout, child.stderr):
            if stream is not None:
                stream.close()
