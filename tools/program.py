"""Runs the program for the tools beside this file.

They run `./sumcheck`, which proves and builds the program where that was not done yet. Where the variable
SUMCHECK_PROGRAM of the environment names a program, that one is run in its place; the script sets it.
"""
import os, subprocess, sys

if sys.version_info < (3, 11):
    print("sumcheck: the readers beside the program want Python 3.11", file=sys.stderr)
    sys.exit(11)

TOP = os.path.dirname(os.path.dirname(os.path.abspath(__file__)))
COMMANDS = ("audit", "product", "veil", "explain", "matmul", "circuit", "openings")  # those that read a job
WRONG_WORDS, UNABLE = 2, 11  # statuses of the tools' own


class Unable(Exception):
    """Why a tool cannot do what it was asked: it ends with its own status."""


class WrongWords(Exception):
    """The words of a command line are none of the tool's."""


def path():
    """The program, or the script that builds it."""
    return os.environ.get("SUMCHECK_PROGRAM") or os.path.join(TOP, "sumcheck")


def run(words, data=None):
    """Runs the program with these words on some bytes, or on this tool's own standard input: its status, and its text."""
    try:
        streams = {"stdout": subprocess.PIPE} if data is None else {"stdout": subprocess.PIPE, "input": data}
        ran = subprocess.run(["sumcheck", *words], executable=path(), **streams)
    except OSError as error:
        raise Unable(f"{path()} cannot be run: {error.strerror}") from None
    return ran.returncode, ran.stdout.decode("ascii", errors="replace")


def bytes_of(file):
    """What stands in a file; `-` is standard input."""
    try:
        if file == "-":
            return sys.stdin.buffer.read()
        with open(file, "rb") as it:
            return it.read()
    except OSError as error:
        raise Unable(f"{file} cannot be read: {error.strerror}") from None


def ended(main, words, usage):
    """Runs a tool's `main` on its words, and ends with the status that it gives."""
    if words in (["--help"], ["-h"]):
        print(usage.strip())
        sys.exit(0)
    try:
        status = main(words)
        sys.stdout.flush()
    except Unable as why:
        print(f"sumcheck: {why}", file=sys.stderr)
        status = UNABLE
    except BrokenPipeError:
        os.dup2(os.open(os.devnull, os.O_WRONLY), sys.stdout.fileno())
        status = UNABLE
    except WrongWords:
        print(usage.strip(), file=sys.stderr)
        status = WRONG_WORDS
    sys.exit(status)
