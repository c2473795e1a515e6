"""How a command is declared: name, arguments, help, examples and function in one place."""
import argparse
import os
import shlex
from collections.abc import Callable, Iterable
from dataclasses import dataclass
from types import ModuleType
from typing import Any

COMMAND = shlex.quote(os.environ.get("NOBYALUK_COMMAND") or "nobyaluk")  # as it was called
FORCE = "also replace a file that this command reads, or an existing file next to the output"

Function = Callable[[argparse.Namespace], int | None]


@dataclass(frozen=True)
class Argument:
    """An argument of a command, as argparse takes it; `reads` says that it names files to read."""

    flags: tuple[str, ...]
    options: dict[str, Any]
    reads: bool = False

    @property
    def name(self) -> str:
        """The attribute that has its value."""
        return max(self.flags, key=len).lstrip("-").replace("-", "_")


def argument(*flags: str, reads: bool = False, **options: Any) -> Argument:
    """Return an argument by its flags and argparse's options."""
    return Argument(flags, options, reads)


@dataclass(frozen=True)
class Command:
    """A command of the command line."""

    name: str
    usage: str  # its name and main arguments, for the list of commands
    summary: str  # what it does, in one line
    arguments: tuple[Argument, ...]
    examples: tuple[str, ...]
    function: Function
    force: bool  # whether it takes --force

    def add_to(self, commands: Any) -> None:
        """Add its parser to those of a program."""
        examples = "\n".join(f"  {COMMAND} {x}" for x in self.examples)
        parser = commands.add_parser(
            self.name,
            description=self.summary[:1].upper() + self.summary[1:] + ".",
            epilog=f"examples:\n{examples}",
            formatter_class=argparse.RawDescriptionHelpFormatter,
        )
        for x in self.arguments:
            parser.add_argument(*x.flags, **x.options)
        if self.force:
            parser.add_argument("--force", action="store_true", help=FORCE)
        parser.set_defaults(command=self)


def command(
    usage: str, summary: str, *arguments: Argument, examples: Iterable[str], force: bool = True
) -> Callable[[Function], Command]:
    """Declare a command whose name is the first word of its usage.

    The function below it runs it.
    """

    def declare(function: Function) -> Command:
        name = usage.split()[0]
        return Command(name, usage, summary, arguments, tuple(examples), function, force)

    return declare


def find_commands(modules: Iterable[ModuleType]) -> list[Command]:
    """Return the commands that these modules declare, in their order."""
    return [x for module in modules for x in vars(module).values() if isinstance(x, Command)]


def list_commands(commands: Iterable[Command]) -> str:
    """Return a line for each command, for the help of the program."""
    commands = list(commands)
    width = max(len(x.usage) for x in commands if len(x.usage) <= 40) + 2
    lines = []
    for x in commands:
        apart = " " * max(2, width - len(x.usage))
        lines.append(f"  nobyaluk {x.usage}{apart}{x.summary}")
    return "\n".join(lines)


def input_names(command: Command, args: argparse.Namespace) -> list[str]:
    """Return the files that the command line names to be read."""
    given = [getattr(args, x.name) for x in command.arguments if x.reads]
    return [
        x
        for names in given
        for x in (names if isinstance(names, list) else [names])
        if x is not None
    ]
