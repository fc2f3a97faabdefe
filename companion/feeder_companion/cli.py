"""What all commands share: words, errors as one line, and statuses."""

from __future__ import annotations

import argparse
import os
import sys
from collections.abc import Callable, Sequence
from enum import IntEnum
from fractions import Fraction
from pathlib import Path
from typing import NoReturn

from .certificates import UnreadableCertificate
from .decimals import fraction_of
from .reports import UnreadableReport
from .script import OtherScript, UnreadableScript

TOP = Path(__file__).resolve().parents[2]
"""The repository."""


class Status(IntEnum):
    """How a command ends where it can't do its work; commands have their own below 64."""

    USAGE = 64
    BAD_DATA = 65
    NO_INPUT = 66
    NO_PROGRAM = 69
    NO_OUTPUT = 73
    INTERRUPTED = 130


class Quit(Exception):
    """Ends a command with a status and one line on standard error."""

    def __init__(self, status: int, text: str) -> None:
        super().__init__(text)
        self.status = status


class Parser(argparse.ArgumentParser):
    """Words that are none end with the status of usage."""

    def error(self, message: str) -> NoReturn:
        self.print_usage(sys.stderr)
        self.exit(Status.USAGE, f"{self.prog}: {message}\n")


def exact(text: str) -> Fraction:
    """A decimal of the command line, without rounding."""
    try:
        return fraction_of(text)
    except ValueError as bad:
        raise argparse.ArgumentTypeError(str(bad)) from None


def kilovolts(text: str) -> list[Fraction]:
    """Voltages in kV parted by commas, each above zero."""
    found = [exact(it) for it in text.split(",")]
    if min(found) <= 0:
        raise argparse.ArgumentTypeError(f"{text!r} isn't above zero")
    return found


def program(given: str | None) -> Path:
    """The program `feeder`: the one given, that of the variable FEEDER, or the repository's own."""
    path = Path(given or os.environ.get("FEEDER") or TOP / "crates" / "feeder" / "out" / "feeder").resolve()
    if not path.is_file() or not os.access(path, os.X_OK):
        raise Quit(Status.NO_PROGRAM, f"{path} is no program: ./feeder builds it, and --feeder names another")
    return path


def run(prog: str, main: Callable[[Sequence[str]], int], words: Sequence[str] | None = None) -> int:
    """A command's status: that of `main`, or that of the error that ended it, with one line on standard error."""
    try:
        status = main(sys.argv[1:] if words is None else words)
        sys.stdout.flush()
        return status
    except Quit as quit_:
        return say(prog, str(quit_), quit_.status)
    except (UnreadableReport, UnreadableScript, UnreadableCertificate) as bad:
        return say(prog, str(bad), Status.BAD_DATA)
    except OtherScript as bad:
        return say(prog, f"script and report don't belong together: {bad}", Status.BAD_DATA)
    except BrokenPipeError:
        os.dup2(os.open(os.devnull, os.O_WRONLY), sys.stdout.fileno())
        return Status.NO_OUTPUT
    except OSError as bad:
        is_read = isinstance(bad, (FileNotFoundError, IsADirectoryError, NotADirectoryError, PermissionError))
        status = Status.NO_INPUT if is_read else Status.NO_OUTPUT
        return say(prog, f"{bad.filename or ''}: {bad.strerror or bad}", status)
    except KeyboardInterrupt:
        return say(prog, "stopped", Status.INTERRUPTED)


def say(prog: str, text: str, status: int) -> int:
    """Writes the line on standard error and gives the status."""
    print(f"{prog}: {text}", file=sys.stderr)
    return status
