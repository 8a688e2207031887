"""The commands on images: run, images, inspect, rm, prune, verify, rebase."""

import json
import os
import sys
from collections.abc import Sequence
from dataclasses import asdict

import click

from cnb import images as store
from cnb import running
from cnb.documents import Process
from cnb.home import Home, checked_name
from cnb.inputs import variables_of
from cnb.oci.store import Kept
from cnb.program import Program
from cnb.screen import bytes_text
from cnb.words import Command, image_name, json_option, run_image_option


def _table(rows: Sequence[Sequence[str]]) -> None:
    """Prints columns, each as wide as its longest text."""
    widths = [max(len(text) for text in column) for column in zip(*rows)]
    for row in rows:
        click.echo("  ".join(text.ljust(width) for text, width in zip(row, widths)).rstrip())


class RunCommand(Command):
    """Its options stand in front of the name or right behind it: all that follows are words of the process."""

    def parse_args(self, ctx: click.Context, args: list[str]) -> list[str]:
        front = self._options_in(args)
        name, rest = args[front : front + 1], args[front + 1 :]
        behind = self._options_in(rest)
        words = rest[behind + 1 :] if rest[behind : behind + 1] == ["--"] else rest[behind:]
        return super().parse_args(ctx, [*args[:front], *rest[:behind], *name, *words])

    def _options_in(self, args: list[str]) -> int:
        """How many words at the beginning are options with their values."""
        options = [option for option in self.params if isinstance(option, click.Option)]
        flags = {word for option in options if option.is_flag for word in option.opts} | {"--help"}
        valued = {word for option in options if not option.is_flag for word in option.opts}
        number = 0
        while number < len(args):
            word = args[number]
            if word in valued:
                number += 2
            elif word in flags or word.partition("=")[0] in valued or word[:2] in valued:
                number += 1
            else:
                break
        return number


@click.command(cls=RunCommand, example="cnb run shop", context_settings={"allow_interspersed_args": False})
@image_name
@click.option("--process", metavar="TYPE", help="Which process; the image's default if none is named.")
@click.option(
    "-e",
    "--env",
    metavar="NAME=VALUE",
    multiple=True,
    help="A variable for the process; NAME alone takes the value that it has here.",
)
@click.option("-u", "--user", metavar="USER[:GROUP]", help="As which user; that of the image if none is named, or else 1000.")
@click.option("--no-sandbox", is_flag=True, help="Start it on this machine, without a root of its own.")
@click.argument("words", metavar="[ARG]...", nargs=-1, type=click.UNPROCESSED)
def run(
    name: str, process: str | None, env: tuple[str, ...], user: str | None, no_sandbox: bool, words: tuple[str, ...]
) -> None:
    """Start a process of an image, in a root of its own.

    The words behind the name and the options are those of the process. It may write in its copy of /workspace and in /tmp,
    and has the network of this machine, so that its ports need not be published. The exit status is that of the process."""
    variables = variables_of(env, (), os.environ)
    options = running.Options(checked_name(name), process, words, variables, user, not no_sandbox)
    sys.exit(running.run(Home.open(), Program.find(), options))


@click.command(cls=Command, example="cnb images")
@json_option
def images(as_json: bool) -> None:
    """List the images."""
    home = Home.open()
    found = store.all_images(home)
    if as_json:
        click.echo(json.dumps([store.as_data(home, image) for image in found], indent=1))
        return
    rows = [("IMAGE", "WRITTEN", "SIZE", "RUN IMAGE", "BUILDPACKS")]
    for one in found:
        buildpacks = ", ".join(f"{buildpack.id} {buildpack.version}" for buildpack in one.image.buildpacks)
        rows.append((one.name, f"{one.written:%Y-%m-%d %H:%M}", bytes_text(one.bytes), one.image.run_image, buildpacks))
    _table(rows)


@click.command(cls=Command, example="cnb inspect shop")
@image_name
@json_option
def inspect(name: str, as_json: bool) -> None:
    """Show an image: its layers, processes, environment and labels."""
    home = Home.open()
    found = store.find_image(home, name)
    if as_json:
        click.echo(json.dumps(store.as_data(home, found), indent=1))
        return
    image = found.image
    click.echo(
        f"image {name}, written {found.written:%Y-%m-%d %H:%M:%S} UTC, {bytes_text(found.bytes)}, for {image.os}/{image.arch}"
    )
    is_current = store.is_on_current_run_image(home, image)
    note = "" if is_current else f" (changed since: cnb rebase {name})" if is_current is not None else " (no longer here)"
    click.echo(f"run image: {image.run_image}{note}")
    click.echo("buildpacks: " + (", ".join(f"{buildpack.id} {buildpack.version}" for buildpack in image.buildpacks) or "none"))
    click.echo("processes:")
    _table([_process_row(process, image.default) for process in image.processes] or [("  none",)])
    click.echo("layers, the lowest first:")
    rows = [(f"  {row.role}", row.place, _size(home, row.digest), row.by, row.digest[:12]) for row in image.rows]
    _table(rows)
    click.echo("environment:")
    for variable in image.env:
        click.echo(f"  {variable.name}={variable.value}")
    labels = found.labels
    if labels:
        click.echo("labels:")
        for key, value in labels.items():
            click.echo(f"  {key}={value}")
    _show_kept(found.kept)


def _show_kept(kept: Kept) -> None:
    """Shows what the image's run image said of how it is started, and what comes of that."""
    if kept.user:
        click.echo(f"user: {kept.user}, for `cnb run` and `cnb save`")
    if kept.ports:
        click.echo(f"ports: {', '.join(kept.ports)}, for `cnb save`; `cnb run` has the network of this machine")
    if kept.volumes:
        click.echo(f"volumes: {', '.join(kept.volumes)}, for `cnb save` alone")
    if kept.stop_signal:
        click.echo(f"signal that stops it: {kept.stop_signal}, for `cnb save` alone")


def _size(home: Home, digest: str) -> str:
    size = store.tree_bytes(home, digest)
    return "missing" if size is None else bytes_text(size)


def _process_row(process: Process, default: str | None) -> tuple[str, str, str]:
    words = " ".join([*process.command, *process.args])
    return f"  {process.type}", "(default)" if process.type == default else "", words


@click.command(cls=Command, example="cnb rm shop")
@image_name
def rm(name: str) -> None:
    """Remove an image, with its caches.

    Its layers leave the disk when `cnb prune` finds that no other image has them."""
    store.remove_image(Home.open(), name)
    click.echo(f"removed {name}")


@click.command(cls=Command, example="cnb prune")
@json_option
def prune(as_json: bool) -> None:
    """Remove layers that no image has, and images that were unpacked to run."""
    pruned = store.prune(Home.open(), Program.find())
    if as_json:
        click.echo(json.dumps(asdict(pruned), indent=1))
        return
    click.echo(f"removed {len(pruned.trees)} layers and {pruned.roots} unpacked images, kept {pruned.kept} layers")


@click.command(cls=Command, example="cnb verify shop")
@image_name
@json_option
def verify(name: str, as_json: bool) -> None:
    """Read each layer of an image, and say whether one is missing or damaged."""
    line = store.verify(Home.open(), Program.find(), checked_name(name))
    number = int(line.split()[2])
    click.echo(json.dumps({"name": name, "trees": number}) if as_json else line)


@click.command(cls=Command, example="cnb rebase shop")
@image_name
@run_image_option
@json_option
def rebase(name: str, run_image: str | None, as_json: bool) -> None:
    """Put an image on its run image as that is now, or on another one, without a build."""
    line = store.rebase(Home.open(), Program.find(), checked_name(name), run_image)
    click.echo(json.dumps({"name": name, "run_rows": int(line.split()[2])}) if as_json else line)
