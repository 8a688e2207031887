"""The program `lifecycle`: where it is, and calls of it."""

import os
import subprocess
from collections.abc import Mapping, Sequence
from dataclasses import dataclass
from pathlib import Path

from cnb.failure import Failure
from cnb.said import refusal_in

TOP = Path(__file__).resolve().parents[2]
PLACES = (TOP / "bin" / "lifecycle", Path("/usr/bin/lifecycle"))

# The whole environment of a call, whatever the caller's own is.
ENVIRONMENT = {"PATH": "/usr/local/sbin:/usr/local/bin:/usr/sbin:/usr/bin:/sbin:/bin", "LANG": "C.UTF-8"}


@dataclass(frozen=True)
class Ended:
    """How a call ended: its exit status (negative: ended by this signal), standard output and standard error."""

    status: int
    printed: str
    said: str

    @property
    def refusal(self) -> str | None:
        return refusal_in(self.printed, self.status)


class Program:
    """An executable `lifecycle`."""

    def __init__(self, path: Path) -> None:
        self.path = path

    @staticmethod
    def find() -> "Program":
        """The one that LIFECYCLE names, or that of this checkout, or the installed one."""
        named = os.environ.get("LIFECYCLE")
        for path in (Path(named).absolute(),) if named else PLACES:
            if path.is_file() and os.access(path, os.X_OK):
                return Program(path.resolve())
        if named:
            raise Failure(f"LIFECYCLE names {named}, which is no program.")
        raise Failure(
            f"The program lifecycle is neither {PLACES[0]} nor {PLACES[1]}.",
            hint="Build it by ./demo, or name one: LIFECYCLE=/path/to/lifecycle",
        )

    def run(self, words: Sequence[str], *, env: Mapping[str, str] | None = None) -> Ended:
        """Runs a command to its end; `env` is its whole environment, ENVIRONMENT if none is given."""
        try:
            done = subprocess.run(
                [str(self.path), *words],
                env=dict(ENVIRONMENT if env is None else env),
                stdin=subprocess.DEVNULL,
                capture_output=True,
                check=False,
            )
        except OSError as fault:
            raise Failure(f"{self.path} can't be run: {fault.strerror}.") from fault
        return Ended(done.returncode, done.stdout.decode(errors="replace"), done.stderr.decode(errors="replace"))

    def finish(self, words: Sequence[str]) -> str:
        """What a command prints; one that is refused is a Failure with its line and its status."""
        ended = self.run(words)
        if ended.status == 0:
            return ended.printed
        explained = "".join(f"\n  {line}" for line in ended.said.splitlines() if not line.startswith("===>"))
        message = ended.refusal or f"lifecycle {words[0]} ended with {ended.status}"
        raise Failure(message + explained, status=ended.status if ended.status > 0 else 128 - ended.status)
