"""What every build does: it takes the folders of the application, keeps what happens, and says how the phases end."""

import os
from abc import ABC, abstractmethod
from collections.abc import Mapping, Sequence
from pathlib import Path

from cnb.build_folder import BuildFolder, Phase
from cnb.builders import builder_lock
from cnb.documents import Buildpack, Image, read_analyzed, read_group, read_image
from cnb.failure import Failure, Interrupted
from cnb.follow import follow
from cnb.home import Home, emptied, remove_tree
from cnb.inputs import Inputs, Options, find_inputs, launcher_folder
from cnb.listener import Listener
from cnb.locks import held
from cnb.oci.ignored import ignored_by_build
from cnb.program import Ended, Program
from cnb.report.refusal import explain
from cnb.said import results_in
from cnb.screen import Screen, bytes_text


class Build(ABC):
    """One build of an image. How the phases are called is left to `make`."""

    def __init__(self, home: Home, program: Program, options: Options, screen: Screen) -> None:
        self.home, self.program, self.options, self.screen = home, program, options, screen
        self.app = home.app(options.name)
        self.folder: BuildFolder
        self.inputs: Inputs
        self.listener: Listener

    @abstractmethod
    def check_machine(self) -> None:
        """Looks whether this machine has what the build takes, before anything is changed."""

    @abstractmethod
    def make(self) -> None:
        """Does the phases. Their folders are empty, but for the cache."""

    def run(self) -> BuildFolder:
        """Builds the image, and returns what is kept of that. A build that is refused raises a Failure."""
        self.app.root.mkdir(exist_ok=True)
        name = self.options.name
        with self.home.lock_app(name, waiting=lambda: self.screen.note(f"waiting for another cnb that works on {name}")):
            self.folder = BuildFolder(self.app, image=name, path=self.options.path)
            emptied(self.app.work)
            try:
                self._run()
            except Failure as failure:
                self.folder.status = failure.status
                self.folder.refusal = self.folder.refusal or failure.message.splitlines()[0]
                raise
            except Interrupted as interrupted:
                self.folder.status, self.folder.refusal = interrupted.status, "ended by a signal"
                raise
            finally:
                remove_tree(self.app.workspace)  # first, since what is left needs room
                self.folder.leave()
        return self.folder

    def _run(self) -> None:
        self.check_machine()
        if self.options.clear_cache:
            remove_tree(self.app.cache)
        self.app.cache.mkdir(exist_ok=True)
        emptied(self.app.layers)
        self.inputs = find_inputs(self.home, self.options, self.screen.note)
        self.folder.builder, self.folder.run_image = self.inputs.builder.name, self.inputs.run_image
        with held(builder_lock(self.home, self.inputs.builder.name), shared=True):
            self.folder.keep(self.inputs.order, "order.toml")
            self.folder.keep_descriptors(self.inputs.buildpacks)
            self.folder.keep(self.home.image(self.options.name), "image-before.toml")
            self.listener = Listener(self.screen, self.folder, self.inputs.listed())
            self.make()
            self.folder.keep(self.home.image(self.options.name), "image.toml")
        for line in ignored_by_build(self.inputs.buildpacks, self.app.layers, self.group()):
            self.screen.note(line)

    # The words of calls.

    def store_words(self) -> list[str]:
        return ["--store", str(self.home.store), "--work", str(self.app.work)]

    def image_words(self) -> list[str]:
        """The words of an export for the image, the launcher and the cache. The store's lock is held."""
        launcher = launcher_folder(self.home, self.program)
        return ["--launcher", str(launcher), "--image", self.options.name, "--cache", str(self.app.cache)]

    def group(self) -> tuple[Buildpack, ...]:
        """The group that was chosen."""
        return read_group(self.app.work / "group.toml")

    # What becomes of them.

    def follow(self, phase: Phase, words: Sequence[str], environment: Mapping[str, str]) -> Ended:
        ended = follow(words, env=environment, log=self.folder.log(phase.name), on_line=self.listener.hear)
        phase.status, phase.printed = ended.status, results_in(ended.printed, phase.name)
        return ended

    def demand(self, phase: Phase, ended: Ended) -> None:
        """Ends the build where a phase was refused, or ended otherwise."""
        if ended.status == 0:
            return
        self.folder.refusal = ended.refusal
        where = f"What was said is in {self.folder.log(phase.name)}; cnb why {self.options.name} shows the whole build."
        status = ended.status if ended.status > 0 else 128 - ended.status
        if ended.refusal is None:
            said = ended.said.splitlines()[-1:] or [""]
            raise Failure(f"{phase.name} ended with {status}: {said[0]}", hint=where, status=status)
        if status in (20, 21):
            self._say_detection()
            raise Failure(f"No group of buildpacks passes ({ended.refusal}).", hint=where, status=status)
        if phase.name != "BUILDING":
            for line in self.listener.said_behind_asked if phase.name == "DETECTING" else ended.said.splitlines():
                self.screen.output(line)
        raise Failure(self.outside(ended.refusal), hint=where, status=status)

    def outside(self, refusal: str) -> str:
        """A refusal with the paths of the machine."""
        return refusal

    # What is said.

    def _say_detection(self) -> None:
        for line in self.listener.printed_while_asked:
            self.screen.output(line)
        self.folder.leave()
        for line in explain(self.folder.path, self.inputs.buildpacks):
            self.screen.note(line)

    def say_analyzed(self) -> None:
        analyzed = read_analyzed(self.app.work / "analyzed.toml")
        before = f"image {analyzed.previous} before" if analyzed.previous else f"no image {self.options.name} before"
        self.screen.done("ANALYZING", f"run image {analyzed.run}, {before}")

    def say_chosen(self) -> None:
        self.screen.line("chosen: " + ", ".join(f"{buildpack.id} {buildpack.version}" for buildpack in self.group()))

    def say_exported(self, before: set[str]) -> None:
        """Says what the image has; `before` are the trees that the store had before."""
        image = read_image(self.home.image(self.options.name))
        new = sum(row.digest not in before for row in image.rows)
        self.screen.done("EXPORTING", f"{len(image.rows)} layers, {new} new, {bytes_text(image_bytes(self.home, image))}")

    def trees(self) -> set[str]:
        """The trees that the store has."""
        trees = self.home.store / "trees"
        return set(os.listdir(trees)) if trees.is_dir() else set()


def image_bytes(home: Home, image: Image) -> int:
    """How many bytes the different trees of an image have."""
    trees: list[Path] = [home.tree(digest) for digest in {row.digest for row in image.rows}]
    return sum(tree.stat().st_size for tree in trees if tree.is_file())
