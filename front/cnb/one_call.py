"""A build without a sandbox, in one call of `create`."""

import os
from contextlib import ExitStack
from pathlib import Path

from cnb.build_folder import Phase
from cnb.follow import follow
from cnb.phases import Build
from cnb.program import ENVIRONMENT
from cnb.said import PHASES, phase_in, results_in


class OneCall(Build):
    """The phases are known by the lines with which they begin."""

    def check_machine(self) -> None:
        self.screen.note(
            f"without a sandbox buildpacks see their layers in {self.app.layers}, and not in /layers as the image has them"
        )

    def make(self) -> None:
        environment = {**ENVIRONMENT, "HOME": os.path.expanduser("~")}
        with self.home.lock_store(shared=True), self.screen.phase(), ExitStack() as self._open:
            before, log = self.trees(), self.folder.path / "create.log"
            self._phase: Phase | None = None
            try:
                ended = follow([str(self.program.path), *self._words()], env=environment, log=log, on_line=self._hear)
            finally:
                self._split(log)
            phase = self._phase or Phase("ANALYZING")
            phase.status, phase.printed = ended.status, results_in(ended.printed, phase.name)
            self._end(is_done=ended.status == 0)
            self.demand(phase, ended)
            self.say_exported(before)

    def _words(self) -> list[str]:
        inputs, app = self.inputs, self.app
        words = ["create", "--order", str(inputs.order), "--buildpacks", str(inputs.buildpacks), "--app", str(app.workspace)]
        words += ["--platform", str(app.platform), *self.store_words(), "--layers", str(app.layers), "--run", inputs.run_image]
        if self.options.workers is not None:
            words += ["--workers", str(self.options.workers)]
        return [*words, *self.image_words()]

    def _hear(self, line: str, is_printed: bool) -> None:
        begun = None if is_printed else phase_in(line)
        if begun is None:
            self.listener.hear(line, is_printed)
            return
        before, name = begun
        if before:
            self.listener.hear(before, is_printed)
        self._end(is_done=True)
        self._phase = self._open.enter_context(self.folder.phase(name))
        self.listener.begin(name, self.group() if name == "BUILDING" else ())

    def _split(self, log: Path) -> None:
        """Puts the lines of the call into a log for each phase."""
        with ExitStack() as opened:
            target = opened.enter_context(self.folder.log(PHASES[0]).open("ab"))
            for line in opened.enter_context(log.open("rb")):
                begun = phase_in(line.decode(errors="surrogateescape").removesuffix("\n"))
                if begun is None:
                    target.write(line)
                    continue
                before, name = begun
                if before:
                    target.write(before.encode(errors="surrogateescape") + b"\n")
                target = opened.enter_context(self.folder.log(name).open("ab"))
        log.unlink()

    def _end(self, *, is_done: bool) -> None:
        """The phase that runs has ended: `is_done` if its work is done."""
        self.listener.end()
        self._open.close()
        name = self._phase.name if self._phase is not None else ""
        if name == "DETECTING":
            self.screen.done(name, self.listener.asked)
        if not is_done:
            return
        if name == "ANALYZING":
            self.say_analyzed()
        elif name == "DETECTING":
            self.say_chosen()
        elif name == "RESTORING":
            self.screen.done(name, "")
