"""The command `cnb buildpack new`."""

from pathlib import Path

import click

from cnb.builders import ID, VERSION
from cnb.failure import Failure
from cnb.words import Command, Group

DESCRIPTOR = """\
api = "0.10"

[buildpack]
id = "{id}"
version = "{version}"
"""

DETECT = """\
#!/usr/bin/env bash
# Says whether this buildpack fits the application, in whose folder it runs: 0 passes, 100 fails.
# $2 is the file of the Build Plan: what it provides and requires.
set -eu
[ -f main.sh ] || exit 100
cat > "$2" <<'PLAN'
[[provides]]
name = "{id}"

[[requires]]
name = "{id}"
PLAN
"""

BUILD = """\
#!/usr/bin/env bash
# Makes layers below $1, in the application's folder. $2 is the platform's folder, $3 the file of the Buildpack Plan.
set -eu
layers=$1

# A layer that is there when the application starts. With `build = true` later buildpacks have it too, and with
# `cache = true` the next build finds it as it was.
mkdir -p "$layers/greeting/env.launch"
printf 'made by {id}' > "$layers/greeting/env.launch/GREETING.default"
cat > "$layers/greeting.toml" <<'LAYER'
[types]
launch = true
LAYER

# How the application starts.
cat > "$layers/launch.toml" <<'LAUNCH'
[[processes]]
type = "web"
command = ["sh", "main.sh"]
default = true
LAUNCH
"""


@click.group(cls=Group, example="cnb buildpack new example/hello")
def buildpack() -> None:
    """Begin a buildpack of your own."""


@buildpack.command(cls=Command, example="cnb buildpack new example/hello --path ./hello && cnb build shop --buildpack ./hello")
@click.argument("id", metavar="ID")
@click.option(
    "-p", "--path", metavar="DIR", type=click.Path(path_type=Path), help="The new folder; named after the id if none is named."
)
@click.option("-V", "--version", metavar="VERSION", default="0.0.1", show_default=True, help="The buildpack's version.")
def new(id: str, path: Path | None, version: str) -> None:
    """Write a buildpack that runs: its descriptor, bin/detect and bin/build."""
    if ID.fullmatch(id) is None or id in ("app", "config"):
        raise Failure(
            f"{id!r} is no id of a buildpack.", hint="An id has 1 to 128 letters, digits, '.', '/' and '-', as example/hello."
        )
    if VERSION.fullmatch(version) is None:
        raise Failure(f"{version!r} is no version of a buildpack.", hint="A version has three numbers, as 0.0.1.")
    folder = path or Path(id.replace("/", "_"))
    if folder.exists():
        raise Failure(f"{folder} is there already.", hint="--path names another folder.")
    try:
        _write(folder, id, version)
    except OSError as fault:
        raise Failure(f"{folder} can't be written: {fault.strerror}.") from fault
    click.echo(f"{folder} is a buildpack: cnb build NAME --path DIR --buildpack {folder if path else f'./{folder}'}")


def _write(folder: Path, id: str, version: str) -> None:
    (folder / "bin").mkdir(parents=True)
    (folder / "buildpack.toml").write_text(DESCRIPTOR.format(id=id, version=version), encoding="utf-8")
    for program, text in (("detect", DETECT), ("build", BUILD)):
        (folder / "bin" / program).write_text(text.replace("{id}", id), encoding="utf-8")
        (folder / "bin" / program).chmod(0o755)
