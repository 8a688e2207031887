"""Hears the lines of a running phase: which buildpack was asked or is being built, and what buildpacks print."""

import time
from collections import deque
from collections.abc import Sequence

from cnb.build_folder import BuildFolder
from cnb.documents import Buildpack
from cnb.follow import KEPT_LINES
from cnb.said import asked_in, result_in
from cnb.screen import Screen


class Listener:
    """Said lines of the program are known by their form and by the names of the buildpacks: what else comes was printed by
    a buildpack. A buildpack that prints such lines changes what is seen of the progress, and nothing else."""

    def __init__(self, screen: Screen, folder: BuildFolder, buildpacks: Sequence[Buildpack]) -> None:
        self._screen, self._folder = screen, folder
        self._known = {str(buildpack) for buildpack in buildpacks}
        self._waiting: list[Buildpack] = []
        self._built: tuple[Buildpack, float] | None = None
        self._is_first = True
        self.printed_while_asked: deque[str] = deque(maxlen=KEPT_LINES)
        # Behind the last `asked` the program alone speaks on standard error, and says what explains a refusal.
        self.said_behind_asked: deque[str] = deque(maxlen=KEPT_LINES)
        self.phase = ""

    @property
    def asked(self) -> str:
        return f"{len(self._folder.replies)} of {len(self._known)} buildpacks asked"

    def begin(self, phase: str, group: Sequence[Buildpack] = ()) -> None:
        """A phase begins; `group` are the buildpacks that will be built in it."""
        self.phase, self._waiting = phase, list(group)
        self._screen.now(phase, "..")

    def hear(self, line: str, is_printed: bool) -> None:
        if is_printed:
            before, result = result_in(line, self.phase)
            if before or not result:
                self._take(before, is_printed=True)
        elif not (self._hear_asked(line) or self._hear_building(line)):
            self._take(line, is_printed=False)

    def _hear_asked(self, line: str) -> bool:
        """Whether a line says that a buildpack was asked, which is noted then."""
        found = asked_in(line) if self.phase == "DETECTING" else None
        if found is None or found[1] not in self._known:
            return False
        before, name, end = found
        self._folder.reply(name, end)
        self.printed_while_asked.extend([*self.said_behind_asked, *([before] if before else [])])
        self.said_behind_asked.clear()
        self._screen.now(self.phase, self.asked)
        return True

    def _hear_building(self, line: str) -> bool:
        """Whether a line says that the next buildpack is built."""
        said = f"building {self._waiting[0]}" if self.phase == "BUILDING" and self._waiting else ""
        if not said or not line.endswith(said):
            return False
        if line != said:
            self._screen.output(line.removesuffix(said))
        self._end_one()
        self._built = (self._waiting.pop(0), time.monotonic())
        self._screen.now(self.phase, f"{self._built[0].id} {self._built[0].version}")
        return True

    def _take(self, line: str, *, is_printed: bool) -> None:
        """A line that is none of the progress."""
        if self.phase == "DETECTING":
            (self.printed_while_asked if is_printed else self.said_behind_asked).append(line)
        elif self.phase == "BUILDING":
            self._screen.output(line)

    def end(self) -> None:
        """The phase ended."""
        self._end_one()

    def _end_one(self) -> None:
        if self._built is None:
            return
        buildpack, began = self._built
        seconds = time.monotonic() - began
        self._folder.built(buildpack.id, buildpack.version, seconds)
        phase = self.phase if self._is_first else ""
        self._screen.done(phase, f"{buildpack.id} {buildpack.version} ({seconds:.1f} s)")
        self._built, self._is_first = None, False
