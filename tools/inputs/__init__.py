"""The files that a tool is given, and how it ends: with one line of what is wrong, and no traceback."""
import os
import sys


class Wrong(Exception):
    """What is wrong with what the tool was given."""


def why(path, error):
    """A failure of a file, in words."""
    if isinstance(error, FileNotFoundError):
        return f"there is no file {path}"
    if isinstance(error, IsADirectoryError):
        return f"{path} is a directory"
    if isinstance(error, PermissionError):
        return f"{path} can't be read: permission denied"
    return f"{path} can't be read: {error.strerror or error}"


def misused(doc):
    """That the words ask for nothing, with the tool's first usage."""
    usage = next(line for line in doc.splitlines() if line.startswith("usage: "))
    return Wrong(f"these words ask for nothing. {usage.split('   ')[0]} (--help says more)")


def file(path):
    """The bytes of a file."""
    try:
        with open(path, "rb") as opened:
            return opened.read()
    except OSError as error:
        raise Wrong(why(path, error)) from None


def standard():
    """The bytes of standard input."""
    if sys.stdin is None:
        raise Wrong("standard input is closed")
    if sys.stdin.isatty():
        print("reading from the terminal: Ctrl-D ends the text", file=sys.stderr)
    try:
        return sys.stdin.buffer.read()
    except OSError as error:
        raise Wrong(why("standard input", error)) from None


def forget_output():
    """Nothing more is written: who read it is gone."""
    os.dup2(os.open(os.devnull, os.O_WRONLY), sys.stdout.fileno())


def finish(tool, main):
    """Ends the tool with what `main` answers; what is wrong is said on standard error, with the tool's name."""
    try:
        status = main()
        if sys.stdout is not None:
            sys.stdout.flush()
    except Wrong as wrong:
        print(f"{tool}: {wrong}", file=sys.stderr)
        status = 1
    except BrokenPipeError:
        forget_output()
        status = 4
    except OSError as error:
        print(f"{tool}: standard output can't be written: {error.strerror}", file=sys.stderr)
        forget_output()
        status = 4
    except KeyboardInterrupt:
        status = 130
    sys.exit(status)
