"""A build with the phases apart: buildpacks run in a sandbox, the rest is done on the machine."""

import os
import shutil
from collections.abc import Sequence
from pathlib import Path

from cnb import sandbox
from cnb.build_folder import BuildFolder, Phase
from cnb.documents import read_analyzed, read_record
from cnb.failure import Failure
from cnb.home import emptied, remove_tree
from cnb.phases import Build
from cnb.program import ENVIRONMENT, Ended
from cnb.sandbox import Sandbox, find_bubblewrap

# More than any document that a detection leaves.
LARGEST_DOCUMENT = 32 << 20
CHOICE = ("group.toml", "plan.toml", "record")
INNER_ENVIRONMENT = {**ENVIRONMENT, "HOME": sandbox.HOME, "USER": "cnb"}


class ConfinedBuild(Build):
    """A build in whose sandbox there is a work folder of its own: what comes out of it is checked before it is used."""

    bubblewrap: str

    @property
    def inner_work(self) -> Path:
        return self.app.root / "sandbox"

    def check_machine(self) -> None:
        self.bubblewrap = find_bubblewrap()

    def run(self) -> BuildFolder:
        try:
            return super().run()
        finally:
            remove_tree(self.inner_work)

    def make(self) -> None:
        self._analyze()
        self._detect()
        self._restore()
        self._build()
        with self.home.lock_store(shared=True, waiting=lambda: self.screen.note("waiting for a cnb prune")):
            self._export()

    def _sandbox(self) -> Sandbox:
        inputs, app = self.inputs, self.app
        folders = (inputs.order, inputs.buildpacks, app.platform, app.workspace, self.inner_work)
        return Sandbox(self.bubblewrap, self.program.path, inputs.builder.root, *folders, self.options.network)

    def _analyze(self) -> None:
        words = ["--run", self.inputs.run_image, "--previous", self.options.name]
        with self.screen.phase():
            self._on_machine("ANALYZING", ["analyze", *self.store_words(), *words])
            self.say_analyzed()

    def _detect(self) -> None:
        emptied(self.inner_work)
        shutil.copyfile(self.app.work / "analyzed.toml", self.inner_work / "analyzed.toml")
        with self.screen.phase(), self.folder.phase("DETECTING") as phase:
            self.listener.begin("DETECTING")
            ended = self.follow(phase, self._sandbox().detecting(workers=self.options.workers), INNER_ENVIRONMENT)
            self._take_plans()
            self.screen.done("DETECTING", self.listener.asked)
            self.demand(phase, ended)
            self._take_choice()
            self._check()
        self.say_chosen()

    def _restore(self) -> None:
        words = ["--layers", str(self.app.layers), "--cache", str(self.app.cache)]
        with self.screen.phase():
            phase = self._on_machine("RESTORING", ["restore", *self.store_words(), *words])
            number = sum(line.startswith("restored ") for line in phase.printed)
            self.screen.done("RESTORING", f"{number} layer{'s' if number > 1 else ''} of the image before" if number else "")

    def _build(self) -> None:
        emptied(self.inner_work)
        with self.screen.phase(), self.folder.phase("BUILDING") as phase:
            self.listener.begin("BUILDING", self.group())
            words = self._sandbox().building(layers=self.app.layers, documents=self.app.work)
            ended = self.follow(phase, words, INNER_ENVIRONMENT)
            self.listener.end()
            self.demand(phase, ended)
            self._refuse_links()

    def _export(self) -> None:
        before = self.trees()
        words = ["export", *self.store_words(), "--layers", str(self.app.layers), "--app", str(self.app.workspace)]
        with self.screen.phase():
            self._on_machine("EXPORTING", [*words, *self.image_words()])
            self.say_exported(before)

    def _on_machine(self, name: str, words: Sequence[str]) -> Phase:
        with self.folder.phase(name) as phase:
            self.listener.begin(name)
            self.demand(phase, self.follow(phase, [str(self.program.path), *words], ENVIRONMENT))
        return phase

    def outside(self, refusal: str) -> str:
        for inner, outer in ((sandbox.ORDER, self.inputs.order), (sandbox.BUILDPACKS, self.inputs.buildpacks)):
            refusal = refusal.replace(f" {inner}", f" {outer}")
        return refusal

    # What comes out of the sandbox, in which nothing runs any more.

    def _take_plans(self) -> None:
        """The Build Plans of the detection, as far as they are files of the usual form."""
        plans = emptied(self.app.work / "detect")
        for name in self.folder.replies:
            source = self.inner_work / "detect" / f"{name.replace('/', '_')}.toml"
            if _is_document(source):
                shutil.copyfile(source, plans / source.name)

    def _take_choice(self) -> None:
        for name in CHOICE:
            source = self.inner_work / name
            if not _is_document(source):
                raise self._tampered(f"The detection left no {name}, or no file of a usual size")
            shutil.copyfile(source, self.app.work / name)

    def _check(self) -> None:
        """Follows the record, over the order and the buildpacks as they are outside of the sandbox."""
        record = self.app.work / "record"
        words = ["check", "--order", str(self.inputs.order), "--buildpacks", str(self.inputs.buildpacks)]
        ended = self.program.run([*words, "--work", str(self.app.work), "--record", str(record)])
        if ended.status != 0:
            raise self._tampered("The record of the detection doesn't give its choice", ended)
        analyzed = read_analyzed(self.app.work / "analyzed.toml")
        if read_record(record).target != (analyzed.os, analyzed.arch):
            raise self._tampered("The record of the detection is for another target than the run image")

    def _refuse_links(self) -> None:
        """A link in place of a buildpack's folder of layers would lead the export out of the layers."""
        for entry in os.scandir(self.app.layers):
            if entry.is_symlink():
                raise self._tampered(f"In place of a buildpack's folder /layers/{entry.name} is a link")

    def _tampered(self, what: str, ended: Ended | None = None) -> Failure:
        self.folder.refusal = ended.refusal if ended is not None else None
        refusal = f" ({self.folder.refusal})" if self.folder.refusal else ""
        hint = f"A buildpack changed what isn't its own. What buildpacks printed is in {self.folder.path}."
        return Failure(f"{what}{refusal}.", hint=hint, status=ended.status if ended else 23)


def _is_document(path: Path) -> bool:
    return not path.is_symlink() and path.is_file() and path.stat().st_size <= LARGEST_DOCUMENT
