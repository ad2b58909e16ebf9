"""Two programs beside each other on the same words and the same text."""
import collections
import os
import resource
import signal
import subprocess
import tempfile
import time

LIMIT = 120                                  # seconds for one run

# The status (None where the run isn't done in time) and the bytes on standard output.
Answer = collections.namedtuple("Answer", "status wrote")


def few_bytes(room):
    """A write past so many bytes fails, and doesn't end the program by a signal."""
    signal.signal(signal.SIGXFSZ, signal.SIG_IGN)
    resource.setrlimit(resource.RLIMIT_FSIZE, (room, room))


def begun(program, words, text, folder, room=None):
    """A run that has begun, and the file of what it writes."""
    written = tempfile.TemporaryFile()
    with tempfile.TemporaryFile() as given:
        given.write(text)
        given.seek(0)
        limit = None if room is None else lambda: few_bytes(room)
        run = subprocess.Popen([program, *words], stdin=given, stdout=written, stderr=subprocess.DEVNULL, cwd=folder, preexec_fn=limit)
    return run, written


def ended(run, written, late):
    try:
        status = run.wait(timeout=max(0.1, late - time.monotonic()))
    except subprocess.TimeoutExpired:
        run.kill()
        run.wait()
        status = None
    with written:
        written.seek(0)
        return Answer(status, written.read())


class Pair:
    """The proved program and cargo's. They run in an empty folder, so that no word names a file."""

    def __init__(self, proved, cargo):
        self.programs = {"proved": os.path.abspath(proved), "cargo": os.path.abspath(cargo)}
        self.folder = tempfile.TemporaryDirectory(prefix="rust-check-")

    def both(self, words, text, room=None):
        """What each answers; they run side by side."""
        late = time.monotonic() + LIMIT
        runs = [begun(program, words, text, self.folder.name, room) for program in self.programs.values()]
        return [ended(run, written, late) for run, written in runs]

    def one(self, name, words, text):
        return ended(*begun(self.programs[name], words, text, self.folder.name), time.monotonic() + LIMIT)


def difference(one, other):
    """Where two answers part, in words; None where they are the same."""
    if one == other:
        return None
    if one.wrote == other.wrote:
        return f"the proved program ends with status {one.status}, cargo's with {other.status}"
    lines, others, number = one.wrote.split(b"\n"), other.wrote.split(b"\n"), 0
    while lines[number:number + 1] == others[number:number + 1]:
        number += 1
    pair = [part[number] if number < len(part) else b"" for part in (lines, others)]
    begin = max(0, len(os.path.commonprefix(pair)) - 60)
    wrote, instead = (line[begin:begin + 120] for line in pair)
    return f"line {number + 1}: the proved program writes {wrote!r} (status {one.status}), cargo's {instead!r} (status {other.status})"
