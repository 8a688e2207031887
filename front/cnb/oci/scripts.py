"""What the scripts of samples/oci call: the modules of this package over a store that is named, without a home."""

import sys

if sys.version_info < (3, 11):
    sys.exit("The scripts of samples/oci need Python 3.11 or later.")

from collections.abc import Callable
from pathlib import Path

from cnb.failure import Failure
from cnb.oci.printable import printable
from cnb.oci.read import LayoutImage, in_one_sentence
from cnb.oci.run_image import RunImageMaker
from cnb.oci.write import write
from cnb.program import Ended, Program

Words = list[str]


def handed_on(ended: Ended, losses: list[str]) -> int:
    """Prints what a call of the program printed, and what is lost if it was done."""
    sys.stdout.write(ended.printed)
    sys.stderr.write(ended.said)
    for line in losses if ended.status == 0 else []:
        print(line, file=sys.stderr)
    return ended.status


def write_layout(words: Words) -> int:
    store, name, folder = words
    written = write(Path(store), name, Path(folder))
    print(f"{name}: {written.layers} layers, manifest {written.digest}")
    return 0


def read_layout(words: Words) -> int:
    place, folder = words[0], Path(words[1])
    with in_one_sentence():
        image = LayoutImage.open(place)
        losses = image.lay(folder)
    settings = image.settings
    for line in [" ".join(settings.entrypoint), settings.working_folder, *settings.variables]:
        print(printable(line))
    if len(words) == 2:
        return 0
    sys.stdout.flush()
    ended = RunImageMaker(Program.find(), Path(words[2])).of_laid(words[3], folder, image)
    return handed_on(ended, losses.lines() + settings.losses())


def make_run_image(words: Words) -> int:
    folder, store, name, system, processor, *variables = words
    ended = RunImageMaker(Program.find(), Path(store)).make(name, Path(folder), (system, processor), variables)
    return handed_on(ended, [])


def make_root(words: Words) -> int:
    root, store, name = words
    return handed_on(*RunImageMaker(Program.find(), Path(store)).of_root(name, Path(root)))


def called(script: Callable[[Words], int], counts: range | tuple[int, ...], usage: str | None) -> int:
    """Runs a script with the words of the command line, of which there must be one of these counts."""
    words = sys.argv[1:]
    if len(words) not in counts:
        sys.exit(usage)
    try:
        return script(words)
    except Failure as fault:
        sys.exit(printable(fault.message))
    except OSError as fault:
        sys.exit(printable(f"{fault.filename}: {fault.strerror}."))
