"""The command `cnb`: its words, its help, and how it ends."""

import errno
import signal
import sys
from io import TextIOWrapper
from types import FrameType
from typing import NoReturn

import click

from cnb.build_command import build
from cnb.builder_commands import builder, builders
from cnb.buildpack_commands import buildpack
from cnb.failure import Failure, Interrupted
from cnb.farm import farm
from cnb.image_commands import images, inspect, prune, rebase, rm, run, verify
from cnb.oci.command import load, run_image, run_images, save
from cnb.registry import fetch, publish
from cnb.report.command import why
from cnb.version import version_line
from cnb.words import Group

SIGNALS = (signal.SIGINT, signal.SIGTERM, signal.SIGHUP)


def _interrupt(number: int, frame: FrameType | None) -> NoReturn:
    for other in SIGNALS:
        signal.signal(other, signal.SIG_IGN)
    raise Interrupted(number)


def _print_version(context: click.Context, parameter: click.Parameter, is_asked: bool) -> None:
    if is_asked:
        click.echo(version_line())
        context.exit()


@click.group(cls=Group, example="cnb build shop --path samples/apps/shell && cnb run shop")
@click.option("--version", is_flag=True, is_eager=True, expose_value=False, callback=_print_version, help="Show the version.")
def cnb() -> None:
    """Makes images of applications by buildpacks, and runs them."""


ON_IMAGES = (build, run, images, inspect, why, rm, prune, verify, rebase, save, load, publish, fetch)
for command in (*ON_IMAGES, builder, builders, buildpack, run_image, run_images, farm):
    cnb.add_command(command)


def main() -> NoReturn:
    for stream in (sys.stdout, sys.stderr):
        if isinstance(stream, TextIOWrapper):
            stream.reconfigure(errors="backslashreplace")  # names of files may be no UTF-8, and a terminal may know less
    for number in SIGNALS:
        signal.signal(number, _interrupt)
    try:
        status = cnb.main(prog_name="cnb", standalone_mode=False)
        sys.exit(status if isinstance(status, int) else 0)
    except Failure as failure:
        _say(failure.message, failure.hint)
        sys.exit(failure.status)
    except click.ClickException as fault:
        fault.show()
        sys.exit(1)
    except click.exceptions.Abort:
        sys.exit(1)
    except Interrupted as interrupted:
        sys.exit(interrupted.status)
    except OSError as fault:
        _say(f"{fault.filename}: {fault.strerror}." if fault.filename else f"{fault.strerror or fault}.", _hint_for(fault))
        sys.exit(2)


def _hint_for(fault: OSError) -> str | None:
    if fault.errno in (errno.ENOSPC, errno.EDQUOT):
        return "`cnb prune` removes what no image has any more. CNB_HOME names a home on another disk."
    if fault.errno in (errno.EACCES, errno.EPERM, errno.EROFS):
        return "Where this is in the home of cnb: CNB_HOME names another one."
    return None


def _say(message: str, hint: str | None) -> None:
    click.echo(message, err=True)
    for line in (hint or "").splitlines():
        click.echo(f"  {line}", err=True)
