"""The command `cigrelk`: one subcommand for each client.

The status is 0 if a command did what it was asked, and 1 if it could not: then standard error says why, as `cigrelk COMMAND:
sentence`. It is 2 if the command was called wrongly, and 130 if an interrupt (Ctrl-C) ended it.
"""
import argparse
import importlib
import os
import sys
from typing import List, Optional

from .errors import CommandError
from .process import Ended, ReplyLost
from .refusals import Refused
from .texts import plain

# The module of each subcommand. It is imported only when it is asked for, and has
#     SUMMARY: str                                            one line for the list of commands
#     add_arguments(parser: argparse.ArgumentParser) -> None  its arguments
#     run(options: argparse.Namespace) -> int                 what it does; gives the status
# and a docstring, which --help prints. If it cannot do what it is asked, it raises CommandError, Refused, Ended or OSError.
# To add a command, write such a module and name it here.
COMMANDS = {
    "edit": "cigrelk.editor.command",
    "shell": "cigrelk.shell",
    "mirror": "cigrelk.mirror",
    "rebuild": "cigrelk.rebuild",
    "hub": "cigrelk.hub.command",
    "compile": "cigrelk.sql.command",
    "take": "cigrelk.take.command",
    "give": "cigrelk.take.giving",
}
DONE, FAILED, WRONG_USAGE, INTERRUPTED = 0, 1, 2, 130


def module_of(name):
    return importlib.import_module(COMMANDS[name])


def overview():
    """What `cigrelk --help` prints."""
    width = max(map(len, COMMANDS))
    lines = [f"    {name:{width}}  {module_of(name).SUMMARY}" for name in COMMANDS]
    return "\n".join(["usage: cigrelk COMMAND [ARGUMENTS]", "", "Commands:", *lines, "", "cigrelk COMMAND --help prints the arguments of a command."])


def parser_of(name):
    """The parser of a command's arguments."""
    module = module_of(name)
    parser = argparse.ArgumentParser(prog=f"cigrelk {name}", description=module.__doc__, formatter_class=argparse.RawDescriptionHelpFormatter)
    module.add_arguments(parser)
    return parser


def carry_out(name, arguments):
    """Does what a command is asked, and gives its status."""
    if name in COMMANDS:
        return module_of(name).run(parser_of(name).parse_args(arguments))
    if name in ("-h", "--help", "help"):
        print(overview(), flush=True)
        return DONE
    told = "a command is wanted" if name is None else f"there is no command {plain(name)}"
    print(f"cigrelk: {told}\n\n{overview()}", file=sys.stderr)
    return WRONG_USAGE


def main(arguments: Optional[List[str]] = None) -> int:
    """Runs the command that the arguments name, or those of the command line, and gives its status. If a
    command could not do what it was asked, standard error says why."""
    name, *rest = (sys.argv[1:] if arguments is None else arguments) or [None]
    try:
        return carry_out(name, rest)
    except SystemExit as end:
        # This is how argparse ends: it printed its help, or what is wrong.
        return end.code
    except BrokenPipeError:
        # Nobody reads what is printed. What is left of it goes nowhere, so that the interpreter does not tell of it at its end.
        os.dup2(os.open(os.devnull, os.O_WRONLY), sys.stdout.fileno())
        return FAILED
    except OSError as error:
        sentence = f"{error.filename}: {error.strerror}" if error.filename else str(error)
    except (CommandError, Refused, Ended, ReplyLost) as error:
        sentence = str(error)
    except KeyboardInterrupt:
        return INTERRUPTED
    print(f"cigrelk {name}: {plain(sentence)}", file=sys.stderr)
    return FAILED
