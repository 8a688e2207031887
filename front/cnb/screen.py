"""What a person sees of a build: lines, of which on a terminal the last is replaced while its phase runs."""

import re
from collections.abc import Iterator
from contextlib import contextmanager

from rich.console import Console
from rich.live import Live
from rich.text import Text

# A colour of a terminal is let pass; each other control character of a buildpack's output isn't.
CONTROL = re.compile(r"(\x1b\[[0-9;]*m)|[\x00-\x08\x0a-\x1f\x7f-\x9f]")
PHASE_WIDTH = len("===> RESTORING  ")


def without_controls(line: str, *, colours: bool = False) -> str:
    return CONTROL.sub(lambda found: found[1] if colours and found[1] else "", line)


class Screen:
    """Says on standard output how far a build is, and on standard error what buildpacks print."""

    def __init__(self, *, on_error: bool = False, quiet: bool = False) -> None:
        self._console = Console(stderr=on_error, highlight=False, emoji=False, markup=False, soft_wrap=True)
        self._error = Console(stderr=True, highlight=False, emoji=False, markup=False, soft_wrap=True)
        self._quiet = quiet
        self._live: Live | None = None

    @contextmanager
    def phase(self) -> Iterator[None]:
        """The time in which lines may be replaced."""
        if not self._console.is_terminal:
            yield
            return
        with Live(
            console=self._console, transient=True, auto_refresh=False, redirect_stdout=False, redirect_stderr=False
        ) as live:
            self._live = live
            try:
                yield
            finally:
                self._live = None

    def now(self, phase: str, text: str) -> None:
        """What a phase is doing; nothing is left of it when the phase has ended."""
        if self._live is not None:
            self._live.update(Text(_line(phase, text), no_wrap=True, overflow="ellipsis"), refresh=True)

    def done(self, phase: str, text: str) -> None:
        """A line of a phase that stays; without a phase one that goes on."""
        if self._live is not None:
            self._live.update(Text(""), refresh=True)
        self.line(_line(phase, text))

    def line(self, text: str) -> None:
        self._console.print(without_controls(text))

    def note(self, text: str) -> None:
        """Something that a person should know, on standard error."""
        self._beside().print(without_controls(text))

    def output(self, line: str) -> None:
        """A line that a buildpack printed, on standard error."""
        if not self._quiet:
            self._beside().print(Text.from_ansi("    " + without_controls(line, colours=True)))

    def _beside(self) -> Console:
        """Where standard error is printed: above the line that is replaced, where both are the terminal."""
        return self._console if self._live is not None and self._error.is_terminal else self._error


def _line(phase: str, text: str) -> str:
    return (f"===> {phase}".ljust(PHASE_WIDTH) if phase else " " * PHASE_WIDTH) + " " + text if text else f"===> {phase}"


def bytes_text(number: int) -> str:
    """A number of bytes for people, as `4 MB`."""
    size = float(number)
    for unit in ("bytes", "kB", "MB"):
        if size < 1000:
            return f"{size:.0f} {unit}"
        size /= 1000
    return f"{size:.1f} GB"
