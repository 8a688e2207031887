"""The commands on builders, and `cnb buildpack new`."""

import json
from pathlib import Path

import click

from cnb.builders import Builder, create_builder, find_builder
from cnb.failure import Failure
from cnb.home import Home
from cnb.program import Program
from cnb.words import FILE, FOLDER, Command, Group, completes, json_option

builder_name = click.argument("name", metavar="NAME", shell_complete=completes(Home.builder_names))


@click.group(cls=Group, example="cnb builder create sample --config samples/builder.toml")
def builder() -> None:
    """Make a builder, or look at one."""


@builder.command(cls=Command, example="cnb builder create sample --config samples/builder.toml")
@builder_name
@click.option(
    "-c",
    "--config",
    metavar="FILE",
    type=FILE,
    help="A builder.toml, as pack has it: the buildpacks, their order, the run images.",
)
@click.option("--root", metavar="DIR", type=FOLDER, help="The root of a builder image, with cnb/buildpacks and cnb/order.toml.")
@click.option(
    "--run-image",
    metavar="NAME",
    multiple=True,
    help="With --root: a run image that it goes with.",
    shell_complete=completes(Home.run_image_names),
)
def create(name: str, config: Path | None, root: Path | None, run_image: tuple[str, ...]) -> None:
    """Make a builder from a file or from the root of a builder image.

    One that is there with this name is replaced."""
    if (config is None) == (root is None):
        raise click.UsageError("Name either --config FILE or --root DIR.")
    if run_image and root is None:
        raise click.UsageError("With --config, the file names the run images.")
    home = Home.open()
    made, ignored = create_builder(home, Program.find(), name, config=config, root=root, run_images=run_image)
    for key in ignored:
        click.echo(f"{config}: {key} has no effect", err=True)
    click.echo(f"builder {name}: {len(made.listed())} buildpacks")
    for missing in _missing(home, made):
        click.echo(f"its run image {missing} isn't here yet: cnb run-image add {missing} --root DIR", err=True)


def _missing(home: Home, made: Builder) -> list[str]:
    return [name for name in made.run_images if name not in home.run_image_names()]


def _as_data(made: Builder) -> dict[str, object]:
    return {
        "name": made.name,
        "buildpacks": [{"id": buildpack.id, "version": buildpack.version} for buildpack in made.listed()],
        "run_images": list(made.run_images),
        "order": str(made.order),
        "root": str(made.root) if made.root else None,
    }


@builder.command(cls=Command, example="cnb builder inspect sample")
@builder_name
@json_option
def inspect(name: str, as_json: bool) -> None:
    """Show a builder's buildpacks, its order and its run images."""
    home = Home.open()
    made = find_builder(home, name)
    if as_json:
        click.echo(json.dumps(_as_data(made), indent=1))
        return
    click.echo(f"builder {made.name}, in {made.folder}")
    click.echo("run images: " + (", ".join(made.run_images) or "none"))
    if made.root is not None:
        click.echo(f"build image: {made.root}")
    click.echo("buildpacks:")
    for buildpack in made.listed():
        click.echo(f"  {buildpack.id} {buildpack.version}")
    click.echo("order:")
    for line in made.order.read_text(encoding="utf-8").splitlines():
        click.echo(f"  {line}".rstrip())


@click.command(cls=Command, example="cnb builders")
@json_option
def builders(as_json: bool) -> None:
    """List the builders."""
    home = Home.open()
    found = [find_builder(home, name) for name in home.builder_names()]
    if as_json:
        click.echo(json.dumps([_as_data(made) for made in found], indent=1))
        return
    if not found:
        raise Failure("There is no builder.", hint="cnb builder create NAME --config builder.toml makes one.")
    width = max(len(made.name) for made in found)
    for made in found:
        click.echo(f"{made.name:{width}}  {len(made.listed())} buildpacks, run image {', '.join(made.run_images) or 'none'}")
