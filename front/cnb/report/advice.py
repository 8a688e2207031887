"""What a refusal of a build means, and what to do about it."""

import re
from dataclasses import dataclass


@dataclass(frozen=True)
class Advice:
    meaning: str
    hint: str


ADVICE = {
    1: Advice("The words of a command were refused.", "See `cnb build --help`."),
    2: Advice("A call on a file or folder failed.", "Look at the path that is named: its owner, its rights and the room on its disk."),
    3: Advice("Memory ran out.", "Build with fewer workers, or on a machine with more memory."),
    4: Advice("A document was refused.", "The path and the key that are named say where it is wrong. Correct what wrote it."),
    5: Advice(
        "A buildpack's program could not be run, or the plan file that it was given could not be read.",
        "See that bin/detect is there, is executable and names an interpreter that the build image has.",
    ),
    6: Advice("Something is larger than its limit.", "The limit that is named is in docs/FORMATS.md. Make the order or the document smaller."),
    7: Advice("What was printed could not be written whole.", "See that standard output is open and has room."),
    8: Advice("A folder holds what no layer can hold, or was changed while it was read.", "Look at the path: pipes, sockets and devices can't be in an image."),
    12: Advice("A buildpack is of another Buildpack API than 0.10.", "Use a version of this buildpack for Buildpack API 0.10."),
    13: Advice("An entry of the order means no buildpack, or several.", "Add the buildpack to the builder, or name its version in the order."),
    14: Advice("The store lacks the contents of a layer.", "Build again with --clear-cache. `cnb verify` says which images are whole."),
    20: Advice("No group of buildpacks passes.", "The reason of each group is below. Add the file that a buildpack looks for, or a buildpack that fits, and build again."),
    21: Advice(
        "No group of buildpacks passes, and a buildpack erred while it was asked.",
        "See what it printed while it was asked: an error is a fault of the buildpack or of what it needs, not of the application.",
    ),
    22: Advice("The record of the detection doesn't show its choice.", "A buildpack may have changed the documents of the build. Look at what was asked."),
    23: Advice("The documents of the choice differ from its record.", "A buildpack may have written them itself. Look at what was asked."),
    30: Advice("A layer in the store or a cache is damaged.", "Build again with --clear-cache. `cnb verify` says which images are whole."),
    31: Advice("There is no run image of this name.", "`cnb run-images` lists them, and `cnb run-image add` makes one."),
    51: Advice("A buildpack's build failed.", "What it printed last is below. Correct what it complains of, and build again."),
    52: Advice("A buildpack left a name unmet that its plan doesn't have.", "It is a fault of the buildpack: its build.toml names an entry that it wasn't given."),
    60: Advice("A layer that is to be cached has no contents.", "It is a fault of the buildpack: it marks a layer for the cache and makes no folder."),
    61: Advice("The store has other bytes under the digest of a layer.", "The store is damaged: `cnb verify` says which images are whole."),
    62: Advice("A layer has no contents, and the image before hasn't got it.", "Build again with --clear-cache. If that doesn't help, it is a fault of the buildpack."),
    63: Advice("A buildpack marks two processes as the default.", "It is a fault of the buildpack: its launch.toml may have one default."),
    64: Advice("A path of a slice is no pattern.", "It is a fault of the buildpack: docs/FORMATS.md has the patterns."),
    70: Advice("The image's note of its run image isn't the row that it has.", "Build the image again."),
    71: Advice("The run image is for another system or processor.", "Name a run image of the same target."),
}


def advice_for(refusal: str) -> Advice | None:
    """What to do about a refusal of the program; None if `cnb` itself ended the build, and said what to do."""
    found = re.fullmatch(r"error ([0-9]+)( .*)?", refusal, re.DOTALL)
    return ADVICE.get(int(found[1])) if found else None
