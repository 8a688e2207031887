"""What the commands share of click: groups that know the nearest right word, examples in their help, names to complete."""

import difflib
from collections.abc import Callable
from pathlib import Path
from typing import Any

import click
from click.shell_completion import CompletionItem

from cnb.home import Home

FOLDER = click.Path(exists=True, file_okay=False, path_type=Path)
FILE = click.Path(exists=True, dir_okay=False, path_type=Path)


class Command(click.Command):
    """A command whose help ends with an example."""

    def __init__(self, *words: Any, example: str = "", **settings: Any) -> None:
        super().__init__(*words, **settings)
        self.example = example

    def format_epilog(self, ctx: click.Context, formatter: click.HelpFormatter) -> None:
        if self.example:
            with formatter.section("Example"):
                formatter.write(f"  {self.example}\n")


class Group(click.Group):
    """A group of commands. A word that is none of them is refused with the nearest one."""

    command_class = Command
    group_class = type

    def __init__(self, *words: Any, example: str = "", **settings: Any) -> None:
        super().__init__(*words, **settings)
        self.example = example

    def resolve_command(self, ctx: click.Context, args: list[str]) -> tuple[str | None, click.Command | None, list[str]]:
        try:
            return super().resolve_command(ctx, args)
        except click.UsageError as fault:
            near = difflib.get_close_matches(args[0], self.list_commands(ctx), n=1, cutoff=0.5)
            if near:
                fault.message = f"No such command {args[0]!r}. Did you mean {near[0]}?"
            raise

    def list_commands(self, ctx: click.Context) -> list[str]:
        """In the order in which they were added."""
        return list(self.commands)

    def format_commands(self, ctx: click.Context, formatter: click.HelpFormatter) -> None:
        """Each command with its first sentence, which isn't cut."""
        with formatter.section("Commands"):
            shown = [(name, command) for name, command in self.commands.items() if not command.hidden]
            formatter.write_dl([(name, command.get_short_help_str(limit=1000)) for name, command in shown])

    def format_epilog(self, ctx: click.Context, formatter: click.HelpFormatter) -> None:
        Command.format_epilog(self, ctx, formatter)  # type: ignore[arg-type]


def completes(names: Callable[[Home], list[str]]) -> Callable[[click.Context, click.Parameter, str], list[CompletionItem]]:
    """Completes a word by names of the home."""

    def found(ctx: click.Context, parameter: click.Parameter, begin: str) -> list[CompletionItem]:
        return [CompletionItem(name) for name in names(Home.open()) if name.startswith(begin)]

    return found


image_name = click.argument("name", metavar="NAME", shell_complete=completes(Home.image_names))
run_image_option = click.option(
    "--run-image",
    metavar="NAME",
    help="The run image, by its name in the store.",
    shell_complete=completes(Home.run_image_names),
)
json_option = click.option("--json", "as_json", is_flag=True, help="Print data instead of lines for people.")
