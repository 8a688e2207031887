"""The command `cnb build`."""

import json
import os
from pathlib import Path

import click

from cnb.confined import ConfinedBuild
from cnb.failure import Failure
from cnb.home import Home, checked_name
from cnb.inputs import Options, variables_of
from cnb.one_call import OneCall
from cnb.program import Program
from cnb.screen import Screen
from cnb.words import FILE, Command, completes, image_name, json_option, run_image_option


@click.command(cls=Command, example="cnb build shop --path samples/apps/shell")
@image_name
@click.option(
    "-p",
    "--path",
    metavar="DIR",
    default=".",
    type=click.Path(path_type=Path),
    help="The application's folder; this one if none is named.",
)
@click.option(
    "-B",
    "--builder",
    metavar="NAME",
    help="The builder; not needed where there is one alone.",
    shell_complete=completes(Home.builder_names),
)
@click.option(
    "-e",
    "--env",
    metavar="NAME=VALUE",
    multiple=True,
    help="A variable for buildpacks; NAME alone takes the value that it has here.",
)
@click.option("--env-file", metavar="FILE", multiple=True, type=FILE, help="A file with such a line for each variable.")
@click.option(
    "-b",
    "--buildpack",
    metavar="DIR|ID@VERSION",
    multiple=True,
    help="A buildpack in place of the builder's order: a folder, or one of the builder's. Several make a group, in this order.",
)
@run_image_option
@click.option("--workers", metavar="NUMBER", type=click.IntRange(1, 64), help="How many buildpacks are asked at a time.")
@click.option(
    "--network", type=click.Choice(["none", "host"]), default="none", show_default=True, help="Which network buildpacks have."
)
@click.option("--clear-cache", is_flag=True, help="Forget what earlier builds cached.")
@click.option("--no-sandbox", is_flag=True, help="Let buildpacks run on this machine, with your files in reach.")
@click.option("-q", "--quiet", is_flag=True, help="Leave out what buildpacks print.")
@json_option
def build(
    name: str,
    path: Path,
    builder: str | None,
    env: tuple[str, ...],
    env_file: tuple[Path, ...],
    buildpack: tuple[str, ...],
    run_image: str | None,
    workers: int | None,
    network: str,
    clear_cache: bool,
    no_sandbox: bool,
    quiet: bool,
    as_json: bool,
) -> None:
    """Build an image from an application's folder.

    The exit status is that of the phase that ended the build."""
    options = Options(
        checked_name(name),
        Path(os.path.abspath(path)),
        builder,
        variables_of(env, env_file, os.environ),
        buildpack,
        run_image,
        workers,
        network == "host",
        clear_cache,
    )
    screen = Screen(on_error=as_json, quiet=quiet)
    doing = (OneCall if no_sandbox else ConfinedBuild)(Home.open(), Program.find(), options, screen)
    try:
        folder = doing.run()
    except Failure:
        if as_json:
            click.echo(json.dumps(doing.folder.summary(), indent=1))
        raise
    if as_json:
        click.echo(json.dumps(folder.summary(), indent=1))
    else:
        screen.line(f"{name} is built: cnb run {name}, cnb inspect {name}, cnb why {name}")
