"""How the tools are called: a wrong call is told in one line."""
import argparse
import os
import shlex
import sys


def fail(name, message, status=2):
    """Says why the tool of this name can't go on, and ends it."""
    print(f"{name}: {message}", file=sys.stderr)
    sys.exit(status)


def put(name, output):
    """Writes the output of the tool of this name to standard output; says so where that does not work."""
    try:
        with os.fdopen(1, "wb", closefd=False) as out:
            out.write(output)
    except BrokenPipeError:  # whoever read the output has gone
        sys.exit(1)
    except OSError as fault:
        fail(name, f"standard output: {fault.strerror}")


class Parser(argparse.ArgumentParser):
    """The words of a call of the tool; its help is its own text, so --help is only noted."""

    def __init__(self, name, command):
        super().__init__(prog=command, add_help=False)
        self.name = name
        self.add_argument("-h", "--help", action="store_true")

    def error(self, message):
        fail(self.name, f"{message}; see {self.prog} --help")


def words_of(name, option, command):
    """The words of a command that an option of the tool gives."""
    try:
        return shlex.split(command)
    except ValueError as fault:
        return fail(name, f"{option} {command}: {fault}")


def shortened(word, most=20):
    """A word as a message shows it: not too long, and what can't be printed as its number."""
    shown = "".join(letter if letter.isprintable() else letter.encode("unicode_escape").decode() for letter in word[:most])
    return shown if len(word) <= most else shown + ".."
