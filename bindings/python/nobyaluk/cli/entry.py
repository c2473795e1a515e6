"""The program's entry: it parses the command line, runs a command and gives its exit status."""
import argparse
import errno
import os
import sys
import traceback

from .. import __version__, output_files
from ..cluster import NoCluster
from ..engine import Refused
from ..errors import RefusedStudy, StudyError, show
from ..output_files import NotWritten
from ..sweep import Terminated
from . import (
    file_commands,
    picture_commands,
    ramp_commands,
    study_commands,
    sweep_commands,
    teaching_commands,
)
from .declaration import COMMAND, find_commands, input_names, list_commands

# The modules that declare commands, in the order of the help.
MODULES = (
    study_commands,
    sweep_commands,
    ramp_commands,
    file_commands,
    teaching_commands,
    picture_commands,
)
COMMANDS = find_commands(MODULES)

INSTALL = ""
if "NOBYALUK_COMMAND" in os.environ:  # called through ./nobyaluk
    INSTALL = """\
./nobyaluk --install COMMAND first installs what Python lacks (Debian, as root).
Without --install nothing is installed.
"""
DESCRIPTION = f"""nobyaluk: studies of a metered freeway by a proved engine.

{list_commands(COMMANDS)}

A STUDY is a .toml or .rec file; docs/STUDIES.md lists the keys of a .toml.
`nobyaluk COMMAND --help` has examples.
No command writes over a file that it reads unless --force is given, and each file is written
whole or not at all.
{INSTALL}
Exit status:
  0    the command has done its work
  1    the engine refuses the study, or no release keeps the queue under its ceiling
  2    a wrong command line, a missing file or a fault in a file
  3    something is missing: the engine can't be built, Python lacks a module, a cluster does not
       answer, or memory is short
  4    something can't be written
  5    an internal error; NOBYALUK_DEBUG=1 shows it in full
  130  after Ctrl-C; 143 after SIGTERM
"""


def make_parser() -> argparse.ArgumentParser:
    """Return the parser of the command line, with all commands."""
    p = argparse.ArgumentParser(
        prog="nobyaluk",
        description=DESCRIPTION,
        formatter_class=argparse.RawDescriptionHelpFormatter,
        usage=f"{COMMAND} COMMAND ...",
    )
    p.add_argument("--version", action="version", version=f"nobyaluk {__version__}")
    commands = p.add_subparsers(
        dest="name", required=True, metavar="COMMAND", help=argparse.SUPPRESS, prog=COMMAND
    )
    for command in COMMANDS:
        command.add_to(commands)
    return p


def main(words: list[str] | None = None) -> int:
    """Run a command and return its exit status."""
    if sys.stderr is None:  # closed: print would take standard output in its place
        sys.stderr = open(os.devnull, "w")
    if sys.stdout is None:
        return print_error("standard output is closed, so nothing can be printed", 4)
    if hasattr(sys.stdout, "reconfigure"):
        # names that the terminal's encoding does not have
        sys.stdout.reconfigure(errors="backslashreplace")
    try:
        return run_command(words)
    except BrokenPipeError:  # the reader of a pipe has had enough
        os.dup2(os.open(os.devnull, os.O_WRONLY), 1)
        return 141
    except (Refused, RefusedStudy) as e:
        return print_error(e, 1)
    except NotWritten as e:
        return print_error(e, 4)
    except (NoCluster, ImportError) as e:
        return print_error(e, 3)
    except OSError as e:
        return print_error(*explain_os_error(e))
    except StudyError as e:
        return print_error(e, 2)
    except KeyboardInterrupt:
        return 130
    except Terminated:
        return 143
    except MemoryError:
        return print_error("there is not enough memory for this", 3)
    except RecursionError:
        return print_error("a file is nested too deeply to be read", 2)
    except Exception as e:  # noqa: B902 the last net: no input should come here
        return print_error(explain_internal_error(e), 5)


def run_command(words: list[str] | None) -> int:
    """Return the status of a command that ends well, or of a wrong call or --help.

    What is printed is printed whole, also before a refusal.
    """
    try:
        try:
            args = make_parser().parse_args(words)
        except SystemExit as e:
            return int(e.code or 0)
        inputs = input_names(args.command, args)
        if odd := [x for x in inputs if "\0" in x]:
            raise StudyError(f"{show(odd[0])} is no name of a file")
        if [] in vars(args).values():  # argparse drops a value `--`
            raise StudyError("an option has no value; `nobyaluk COMMAND --help` says what it takes")
        with output_files.protect_inputs(inputs, getattr(args, "force", False)):
            return args.command.function(args) or 0
    finally:
        sys.stdout.flush()


def explain_os_error(e: OSError) -> tuple[str, int]:
    """Return what an error of the system means, and the exit status."""
    if e.filename is not None:
        known = {
            FileNotFoundError: "there is no {}",
            IsADirectoryError: "{} is a directory, not a file",
        }
        words = known.get(type(e), "{} can't be read: " + str(e.strerror))
        return words.format(e.filename), 2
    if e.errno in (errno.EAGAIN, errno.EMFILE, errno.ENFILE, errno.ENOMEM, errno.ECHILD):
        return f"the system has no room for this: {e.strerror}", 3
    os.dup2(os.open(os.devnull, os.O_WRONLY), 1)
    return f"the output could not be written whole: {e.strerror or e}", 4


def explain_internal_error(e: Exception) -> str:
    """Return one line for a fault of this program.

    NOBYALUK_DEBUG=1 prints the traceback before it.
    """
    if os.environ.get("NOBYALUK_DEBUG") == "1":
        traceback.print_exception(e)
    what = f"{type(e).__name__}: {e}".splitlines()[0]
    return (
        f"internal error: {what[:200]}; please report it with this command, its files and nobyaluk"
        f" {__version__} (NOBYALUK_DEBUG=1 shows where it happened)"
    )


def print_error(what: object, status: int) -> int:
    """Print a message to standard error and return the status."""
    print(f"nobyaluk: {what}", file=sys.stderr)
    return status
