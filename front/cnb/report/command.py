"""The command `cnb why`."""

from pathlib import Path

import click

from cnb.failure import Failure
from cnb.home import Home
from cnb.report.page import page_of
from cnb.words import Command, completes

APPS = completes(lambda home: home.names_in(home.apps))


@click.command(cls=Command, example="cnb why shop --open")
@click.argument("name", metavar="NAME", shell_complete=APPS)
@click.option("--open", "is_opened", is_flag=True, help="Open the page in a browser.")
@click.option("--output", metavar="FILE", type=click.Path(path_type=Path, dir_okay=False), help="Where to write the page.")
def why(name: str, is_opened: bool, output: Path | None) -> None:
    """Write a page that says why the last build came out as it did.

    It has the groups that were tried, what each buildpack replied and printed, how long it took, the layers of the image, and
    what ended a build that failed."""
    home = Home.open()
    app = home.app(name)
    if not (app.build / "build.json").is_file():
        raise Failure(f"No build of {name} has ended.", hint=f"Build it: cnb build {name}")
    page = page_of(app.build, home)
    path = (output or app.root / "why.html").absolute()
    try:
        path.write_text(page, encoding="utf-8")
    except OSError as fault:
        raise Failure(f"{path} can't be written: {fault.strerror}.") from fault
    click.echo(path)
    if is_opened:
        click.launch(path.as_uri())
