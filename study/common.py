"""What the scripts of this folder share: refusals, progress, files that are whole, loads and tables."""

import argparse
import contextlib
import csv
import os
import re
import shutil
import signal
import sys
import time

TOP = os.path.dirname(os.path.dirname(os.path.abspath(__file__)))

# The limits of a trace: commands, and blocks over its reads.
MOST_COMMANDS = 8192
MOST_READ_BLOCKS = 8192
# The limits of words in a trace.
MOST_QUEUES = 16
MOST_COUNT = 64
MOST_32 = 2**32 - 1
MOST_64 = 2**64 - 1


class Refused(Exception):
    """What cannot be done, in a line for whoever asked."""


class Stopped(Exception):
    """A signal asks the script to end."""


def stop(_number, _frame):
    raise Stopped


def start(main):
    """Runs a script: a refusal is one line and status 1, an interrupt status 130; a closed pipe ends it quietly."""
    name = f"study/{os.path.basename(sys.argv[0])}"
    signal.signal(signal.SIGTERM, stop)
    try:
        status = main()
        sys.stdout.flush()
        sys.exit(status)
    except Refused as why:
        print(f"{name}: {why}", file=sys.stderr)
        sys.exit(1)
    except OSError as error:
        if isinstance(error, BrokenPipeError):
            os.dup2(os.open(os.devnull, os.O_WRONLY), 1)
            sys.exit(141)
        print(f"{name}: {error.filename or 'a file'}: {error.strerror or error}", file=sys.stderr)
        sys.exit(1)
    except (KeyboardInterrupt, Stopped) as stopped:
        print(f"{name}: stopped; start it again with the same words to go on", file=sys.stderr)
        sys.exit(130 if isinstance(stopped, KeyboardInterrupt) else 143)


def number(least, most):
    """A whole number of decimal digits in a range, as a type of an argument."""

    def read(word):
        if not re.fullmatch(r"[0-9]{1,20}", word):
            raise argparse.ArgumentTypeError(f"{word!r} is no whole number")
        if not least <= int(word) <= most:
            raise argparse.ArgumentTypeError(f"{word} is not from {least} to {most}")
        return int(word)

    return read


def decimal(least, most):
    """A decimal number in a range, as a type of an argument."""

    def read(word):
        if not re.fullmatch(r"[0-9]{1,20}(\.[0-9]{1,20})?", word):
            raise argparse.ArgumentTypeError(f"{word!r} is no decimal number")
        if not least <= float(word) <= most:
            raise argparse.ArgumentTypeError(f"{word} is not from {least} to {most}")
        return float(word)

    return read


class Progress:
    """Tells on standard error how far a work is, once it has taken two seconds, and then once a second."""

    def __init__(self, what):
        self.what = what
        self.next = time.monotonic() + 2

    def tell(self, done):
        if time.monotonic() >= self.next:
            self.next = time.monotonic() + 1
            print(f"{self.what}: {done}", file=sys.stderr, flush=True)


def write_whole(path, data):
    """Writes a file so that it is there whole or not at all."""
    part = f"{path}.part"
    with open(part, "wb") as file:
        file.write(data if isinstance(data, bytes) else data.encode())
        file.flush()
        os.fsync(file.fileno())
    os.replace(part, path)


# A load is a folder of traces. Those of one run are served together, one a queue.


def trace_name(run, queue):
    return f"{run:06}.{queue:02}.trace"


class LoadWriter:
    """Cuts commands into the runs of a load. The folder has its name once it is whole."""

    def __init__(self, folder, queues, commands_in_run, head):
        self.folder, self.part = folder, f"{folder}.part"
        self.queues, self.commands_in_run, self.head = queues, commands_in_run, head
        self.run, self.commands = 0, 0
        self.lines = [[] for _ in range(queues)]
        self.read_blocks = [0] * queues
        shutil.rmtree(self.part, ignore_errors=True)
        os.makedirs(self.part)

    def add(self, queue, line, read_blocks=0):
        """Adds a command of a queue, and cuts where the run has no place for it."""
        if len(self.lines[queue]) == self.commands_in_run or self.read_blocks[queue] + read_blocks > MOST_READ_BLOCKS:
            self.cut()
        self.lines[queue].append(line)
        self.read_blocks[queue] += read_blocks
        self.commands += 1

    def cut(self):
        """Ends a run."""
        self.run += 1
        for queue, lines in enumerate(self.lines):
            head = [*self.head, f"run {self.run}, queue {queue + 1} of {self.queues}"]
            text = "".join([f"# {it}\n" for it in head] + [f"{it}\n" for it in lines])
            with open(f"{self.part}/{trace_name(self.run, queue + 1)}", "w", encoding="ascii", errors="backslashreplace") as file:
                file.write(text)
        self.lines = [[] for _ in range(self.queues)]
        self.read_blocks = [0] * self.queues

    def note(self, name, text):
        """Puts a text beside the traces."""
        write_whole(f"{self.part}/{name}", text)

    def close(self):
        """Ends the load, which has one run at least."""
        if any(self.lines) or not self.run:
            self.cut()
        os.rename(self.part, self.folder)


@contextlib.contextmanager
def load_writer(*given):
    """A writer of a load that leaves nothing behind where its work is stopped."""
    writer = LoadWriter(*given)
    try:
        yield writer
        writer.close()
    finally:
        shutil.rmtree(writer.part, ignore_errors=True)


def head_of(path):
    """The comment lines at the beginning of a trace."""
    head = []
    with open(path, encoding="utf-8", errors="replace") as file:
        for line in file:
            if not line.startswith("# "):
                break
            head.append(line[2:].rstrip("\n"))
    return head


def is_there(folder, head):
    """Whether a load of the same head is there already; another one is not replaced."""
    if not os.path.lexists(folder):
        return False
    first = os.path.join(folder, trace_name(1, 1))
    if os.path.isfile(first) and head_of(first)[: len(head)] == head:
        print(f"{folder} is there already, made with the same words", file=sys.stderr)
        return True
    raise Refused(f"{folder} is there already, and is not what these words make: remove it or give another name")


def runs_of(load):
    """The traces of each run of a load, in order. A file that is no folder is a load of one run in one queue."""
    if not os.path.isdir(load):
        if not os.path.lexists(load):
            raise Refused(f"{load}: there is no such load")
        return [[load]]
    found = {}
    for name in sorted(os.listdir(load)):
        place = re.fullmatch(r"([0-9]{6,})\.([0-9]{2})\.trace", name)
        if place:
            found.setdefault(int(place[1]), {})[int(place[2])] = f"{load}/{name}"
    if not found:
        raise Refused(f"{load}: no load, since it has no file such as {trace_name(1, 1)}")
    queues = len(found[min(found)])
    for run in range(1, max(found) + 1):
        if sorted(found.get(run, {})) != list(range(1, queues + 1)):
            raise Refused(f"{load}: run {run} is not whole: it has {len(found.get(run, {}))} of {queues} traces")
    return [[found[run][queue] for queue in sorted(found[run])] for run in sorted(found)]


# A table is CSV with a head line of names, each with its unit in brackets.


def table_text(head, rows):
    lines = [head, *rows]
    return "".join(",".join(str(it) for it in line) + "\n" for line in lines)


def read_table(path):
    """The head and the rows of a table, each of which has all columns."""
    with open(path, newline="", encoding="utf-8") as file:
        try:
            lines = list(csv.reader(file, strict=True))
        except (csv.Error, UnicodeDecodeError) as error:
            raise Refused(f"{path}: no table: {error}") from None
    if not lines or not lines[0]:
        raise Refused(f"{path}: no table: it has no head line")
    for at, line in enumerate(lines[1:], 2):
        if len(line) != len(lines[0]):
            raise Refused(f"{path} line {at}: {len(line)} columns in place of {len(lines[0])}")
    return lines[0], lines[1:]


def second_half(name, rows, head):
    """What the runs behind the first half of the host's bytes wrote: bytes of the host, bytes of the media, and how many runs they are."""
    host, media = (head.index(f"{it} since the start [bytes]") for it in ("host", "media"))
    whole = int(rows[-1][host])
    at = next(at for at, row in enumerate(rows) if 2 * int(row[host]) >= whole)
    if int(rows[at][host]) == whole:
        raise Refused(f"{name} has too few runs: none lies behind the half of its host writes")
    return whole - int(rows[at][host]), int(rows[-1][media]) - int(rows[at][media]), len(rows) - 1 - at
