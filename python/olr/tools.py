"""The command line of `olr-tools`.

Each command is a `click.Command` named `command` in a module of its own. That module is imported when the command is
asked for, so a module that isn't installed stops only the commands that need it.
"""

import click
import importlib
from functools import partial
from typing import Any

from olr.commands.usage import no_such_command, usage_line
from olr.errors import MissingModule, ToolError, reason_of
from olr.extras import COMMANDS, lacking
from olr.streams import complain, ended
from olr.version import VERSION


class LateGroup(click.Group):
    """A group of commands that are imported when they are asked for: those whose words begin with `words`, and have one more.

    `modules` has for each command its module and its short help.
    """

    def __init__(self, words: str = "", **attributes: Any) -> None:
        super().__init__(**attributes)
        self.modules = {
            name.removeprefix(words): (module_of(name), short)
            for name, (_, short) in COMMANDS.items()
            if name.startswith(words) and " " not in name.removeprefix(words)
        }

    def list_commands(self, ctx: click.Context) -> list[str]:
        return sorted([*self.modules, *self.commands])

    def get_command(self, ctx: click.Context, cmd_name: str) -> click.Command | None:
        """The command of that name. Raises `MissingModule` if a module that it needs isn't installed."""
        if cmd_name not in self.modules:
            return super().get_command(ctx, cmd_name)
        module, _ = self.modules[cmd_name]
        try:
            command = importlib.import_module(module).command
        except ModuleNotFoundError as missing:
            raise lacking(_words(ctx, cmd_name), missing) from missing
        assert isinstance(command, click.Command)
        return command

    def resolve_command(
        self, ctx: click.Context, args: list[str]
    ) -> tuple[str | None, click.Command | None, list[str]]:
        """The command that words begin with. Raises `UsageError` if there is none, with what may have been meant."""
        known = self.list_commands(ctx)
        if args[0] not in known and not args[0].startswith("-"):
            ctx.fail(no_such_command(args[0], known))
        return super().resolve_command(ctx, args)

    def invoke(self, ctx: click.Context) -> Any:
        """Runs a command. Raises `MissingModule` also if a module isn't installed that the command needs only then."""
        try:
            return super().invoke(ctx)
        except MissingModule:
            raise
        except ModuleNotFoundError as missing:
            raise lacking(_words(ctx, ctx.invoked_subcommand or ""), missing) from missing
        except BrokenPipeError as error:
            # click takes it for one of standard output, and would end without a word.
            raise ToolError(reason_of(error)) from error

    def format_commands(self, ctx: click.Context, formatter: click.HelpFormatter) -> None:
        """Lists the commands without importing their modules."""
        rows = {name: short for name, (_, short) in self.modules.items()}
        rows |= {name: command.get_short_help_str(80) for name, command in self.commands.items()}
        with formatter.section("Commands"):
            formatter.write_dl(sorted(rows.items()))


def _words(ctx: click.Context, name: str) -> str:
    """The words that name a command of a group."""
    return " ".join([*ctx.command_path.split()[1:], name])


def module_of(words: str) -> str:
    """The module of a command."""
    return f"olr.commands.{words.replace(' ', '_').replace('-', '_')}"


tools = LateGroup(
    name="olr-tools",
    help="Tools around olr, an OpenLR dereferencer.",
    # Commands have the settings of their group.
    context_settings={"help_option_names": ["-h", "--help"]},
)
tools = click.version_option(VERSION, prog_name="olr-tools")(tools)
tools.add_command(LateGroup("import ", name="import", help="Make a map from a file of roads."))


@tools.command()
@click.option("--tests", is_flag=True, help="Install what the tests need too. By default it isn't.")
def setup(tests: bool) -> None:
    """Install the Debian packages that are missing, by apt-get."""
    from olr.setup import set_up

    raise SystemExit(set_up(tests=tests))


def run(words: list[str] | None = None) -> int:
    """Runs the command line on `words`, by default those of the process. Answers the status: 0, 1 for a failure, 2 for words
    that weren't understood, 3 where a limit was passed that they set."""
    return ended(partial(_run, words))


def _run(words: list[str] | None) -> int:
    """As `run`. Raises `ToolError` and `OSError` for what a command can't do."""
    try:
        tools.main(args=words, prog_name="olr-tools", standalone_mode=False)
    except click.Abort:
        return complain("interrupted")
    except click.ClickException as error:
        if isinstance(error, click.UsageError):
            complain(usage_line(error))
        else:
            error.show()
        return error.exit_code
    except click.exceptions.Exit as left:
        return left.exit_code
    except SystemExit as left:
        return left.code if isinstance(left.code, int) else 1
    except RuntimeError as error:
        if not _is_of_interrupt(error):
            raise
        return complain("interrupted")
    return 0


def _is_of_interrupt(error: BaseException) -> bool:
    """Whether an error came of an interrupt, as where that broke off an import, whose lock isn't locked then."""
    before = error.__context__
    return before is not None and (
        isinstance(before, KeyboardInterrupt) or _is_of_interrupt(before)
    )
