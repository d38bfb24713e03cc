#!/usr/bin/env python3
"""Runs `./vss` on a terminal: on_terminal.py VSS FOLDER. Says what is wrong, and ends with 1 then."""
import os
import pty
import re
import select
import signal
import sys
import time

VSS, FOLDER = sys.argv[1:]
SECONDS = 300
LINE = re.compile(rb"\rat least (\d+) moves, (\d+) MiB read, (\d+) s\x1b\[K")
CLEARED = b"\r\x1b[K"
wrongs = 0


def holds(condition, what):
    global wrongs
    if not condition:
        print(f"messages: on a terminal {what}", file=sys.stderr)
        wrongs += 1


class OnTerminal:
    """`./vss` with these words, on a terminal of its own; what it reads and writes beside that are files, where they are given."""

    def __init__(self, *words, source=None, report=None):
        self.said = b""
        self.child, self.terminal = pty.fork()
        if self.child == 0:
            if source:
                os.dup2(os.open(source, os.O_RDONLY), 0)
            if report:
                os.dup2(os.open(report, os.O_WRONLY | os.O_CREAT), 1)
            os.execv(VSS, [VSS, *words])

    def types(self, keys):
        os.write(self.terminal, keys)

    def read(self):
        """Reads what is said next. False once nothing more comes."""
        if not select.select([self.terminal], [], [], SECONDS)[0]:
            return False
        try:
            piece = os.read(self.terminal, 4096)
        except OSError:
            return False
        self.said += piece
        return piece != b""

    def status(self):
        while self.read():
            pass
        return os.waitstatus_to_exitcode(os.waitpid(self.child, 0)[1])


def scenario(blocks):
    """A file with a scenario whose last digests read so many blocks twice."""
    path = os.path.join(FOLDER, f"of_{blocks}_blocks")
    with open(path, "w", encoding="ascii") as file:
        file.write(f"scenario 1\nvolume C {blocks} 1\nlane a\nbegin 25\nstart\nadd C\nsnapshot\nawait\nend\n")
    return path


def folder(name):
    path = os.path.join(FOLDER, name)
    os.mkdir(path)
    return path


def is_told_where_it_reads():
    run = OnTerminal("run")
    run.types(b"scenario 1\n")
    time.sleep(1)
    run.types(b"voluem C 4 4\n\x04")
    holds(run.status() == 3 and b"from this terminal" in run.said and b"did you mean `volume`?" in run.said, f"a slip is told by {run.said!r}")
    holds(not LINE.search(run.said), "a line is shown while a scenario is typed")


def shows_how_far_it_is():
    """A long run shows a line at most four times a second, and is ended at once by Ctrl-C."""
    run = OnTerminal("run", folder("long_run"), source=scenario(65536), report=os.devnull)
    times = []
    while len(times) < 5 and run.read():
        times += [time.monotonic()] * (len(LINE.findall(run.said)) - len(times))
    holds(len(times) >= 5, f"a long run shows no line: {run.said!r}")
    if len(times) < 5:
        return
    holds(times[-1] - times[0] >= 0.25 * (len(times) - 1) - 0.2, f"lines come at {times}")
    told = [tuple(int(number) for number in line) for line in LINE.findall(run.said)]
    holds(told == sorted(told) and told[-1][1] > 0, f"how far it is is told by {told}")
    began = time.monotonic()
    run.types(b"\x03")
    status = run.status()
    holds(status == -signal.SIGINT and time.monotonic() - began < 2, f"Ctrl-C ends it with {status} after {time.monotonic() - began} s")


def counts_blocks_in_memory():
    """What devices in memory give to be digested is counted too."""
    run = OnTerminal("run", source=scenario(32768), report=os.devnull)
    while not any(int(line[1]) for line in LINE.findall(run.said)) and run.read():
        pass
    holds(any(int(line[1]) for line in LINE.findall(run.said)), f"of a run in memory it is told {run.said!r}")
    run.types(b"\x03")
    run.status()


def clears_the_line():
    """A run that comes to its end leaves no line, and says nothing more."""
    run = OnTerminal("run", folder("short_run"), source=scenario(4096), report=os.devnull)
    status = run.status()
    left = LINE.sub(b"", run.said)
    if LINE.search(run.said):
        holds(left.endswith(CLEARED), f"the line is left: {run.said[-80:]!r}")
    left = b"".join(line for line in left.replace(CLEARED, b"").splitlines() if b"unproved build" not in line)
    holds(status == 0 and not left, f"a run ends with {status}, and says {left!r}")


is_told_where_it_reads()
shows_how_far_it_is()
counts_blocks_in_memory()
clears_the_line()
sys.exit(1 if wrongs else 0)
