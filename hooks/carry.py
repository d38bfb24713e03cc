#!/usr/bin/env python3
"""Carries lines between the program `backup` and the hooks of the writers, and wakes the program. It decides nothing.

    carry.py PROGRAM FOLDER JOB [RECORD]

A line `hook WRITER COMMAND ..` of the job is the command of a writer's hook. `./backup` calls this; docs/FORMATS.md has the lines. Ctrl-C gives the
backup up.
"""
import math
import os
import selectors
import shlex
import signal
import subprocess
import sys
import time

# How often the program is woken, and how long an order is open before that is said, in seconds.
WAKE, LONG = 0.05, 5
# The status of a job whose hooks are refused, of a standard output that failed, and of a program that ended without a word.
REFUSED, NO_OUTPUT, NO_WORD = 3, 5, 70


def say(line):
    print(f"backup: {line}", file=sys.stderr, flush=True)


def started(command):
    return subprocess.Popen(command, stdin=subprocess.PIPE, stdout=subprocess.PIPE, start_new_session=True)


class Side:
    """The program or a hook: a process, and what it has written of its next line."""

    def __init__(self, name, command):
        self.name, self.open, self.rest = name, [], b""
        try:
            self.process = started(command)
        except OSError as error:
            say(f"hook {name}: {error}")
            self.process = started(["false"])

    def tell(self, line):
        try:
            self.process.stdin.write(line.encode() + b"\n")
            self.process.stdin.flush()
        except OSError:
            pass

    def lines(self):
        """The lines that have come; none where there are no more."""
        data = os.read(self.process.stdout.fileno(), 65536)
        if not data:
            return None
        *lines, rest = (self.rest + data).split(b"\n")
        self.rest = rest[-4096:]
        return [line.decode("utf-8", "replace").strip() for line in lines]


class Carrier:
    def __init__(self, program, folder, job, *record):
        self.status, self.is_cancelled, self.is_heard, self.hooks = None, False, True, {}
        for number in (signal.SIGINT, signal.SIGTERM, signal.SIGHUP):
            signal.signal(number, self.cancel)
        for name, command in hooks_of(job):
            self.hooks[name] = Side(name, command)
        self.program = Side(None, [program, folder, job, *record])
        self.select = selectors.DefaultSelector()
        for side in [self.program, *self.hooks.values()]:
            self.select.register(side.process.stdout, selectors.EVENT_READ, side)

    def cancel(self, *_):
        self.is_cancelled = True

    def show(self, line):
        """Writes a line to the standard output, whose first failure is said."""
        try:
            os.write(1, line.encode() + b"\n")
        except OSError as error:
            if self.is_heard:
                say(f"standard output: {error}")
            self.is_heard = False

    def by_program(self, line):
        word, _, rest = line.partition(" ")
        if word == "order":
            name, number, order, nth = rest.split(" ")
            if name not in self.hooks:
                say(f"{name}: the job has no line `hook {name} ..`")
                self.program.tell(f"gone {name}")
                return
            self.hooks[name].open.append((number, f"{order} {nth}", time.monotonic()))
            self.hooks[name].tell(f"{order} {nth}")
        elif word == "abort":
            if rest in self.hooks:
                self.hooks[rest].tell("abort")
        elif word == "again":
            self.program.tell("again")
        elif word == "end":
            self.status = int(rest)
        else:
            self.show(line)

    def by_hook(self, hook, line):
        # a hook answers its orders one after another
        if hook.open:
            number, order, _ = hook.open.pop(0)
            if line != "ok":
                say(f"the hook of {hook.name} answers `{order}` by {line[:200]!r}")
            self.program.tell(f"answer {hook.name} {number} {line}")

    def read(self, side):
        lines = side.lines()
        if lines is None:
            self.select.unregister(side.process.stdout)
            if side is not self.program:
                say(f"the hook of {side.name} has ended")
                self.program.tell(f"gone {side.name}")
            elif self.status is None:
                self.status = NO_WORD
        for line in lines or []:
            if side is self.program:
                self.by_program(line)
            else:
                self.by_hook(side, line)

    def say_waits(self):
        """Says of each order that is open for long, once, who has not answered it."""
        for hook in self.hooks.values():
            number, order, asked = hook.open[0] if hook.open else ("", "", math.inf)
            if time.monotonic() - asked > LONG:
                say(f"the hook of {hook.name} has not answered `{order}` for {LONG} seconds; Ctrl-C gives the backup up")
                hook.open[0] = number, order, math.inf

    def run(self):
        woken = time.monotonic()
        while self.status is None:
            for key, _ in self.select.select(WAKE):
                self.read(key.data)
            if self.is_cancelled:
                self.is_cancelled = False
                self.program.tell("cancel")
            if time.monotonic() - woken >= WAKE:
                woken = time.monotonic()
                self.say_waits()
                self.program.tell("tick")
        self.end()
        return self.status or (0 if self.is_heard else NO_OUTPUT)

    def end(self):
        """Ends the inputs, so that all let go, and then who does not end."""
        for side in [self.program, *self.hooks.values()]:
            try:
                side.process.stdin.close()
            except OSError:
                pass
        for seconds, number in ((5, signal.SIGTERM), (2, signal.SIGKILL), (2, None)):
            until = time.monotonic() + seconds
            while any(hook.process.poll() is None for hook in self.hooks.values()) and time.monotonic() < until:
                time.sleep(0.01)
            for hook in self.hooks.values():
                if number and hook.process.poll() is None:
                    say(f"the hook of {hook.name} does not end: {number.name}")
                    os.killpg(hook.process.pid, number)


def hooks_of(job):
    """The writers of a job that have a hook, and its command. What else is no job the program refuses."""
    hooks = {}
    try:
        with open(job, encoding="utf-8") as lines:
            parts = [(number, line.split(None, 2)) for number, line in enumerate(lines, 1) if line.startswith("hook ")]
    except (OSError, UnicodeDecodeError):
        return []
    for number, words in parts:
        if len(words) < 3:
            continue
        place, command = f"{job}: line {number}: hook {words[1]}", words[2].strip()
        if words[1] in hooks:
            refuse(f"{place}: a line above has one")
        try:
            hooks[words[1]] = shlex.split(command)
        except ValueError as error:
            refuse(f"{place}: {error}: {command}")
    return hooks.items()


def refuse(why):
    say(why)
    sys.exit(REFUSED)


def fill_streams():
    """Puts a file that fails in the place of a standard stream that is closed, so that no pipe takes its number."""
    for stream in range(3):
        try:
            os.fstat(stream)
        except OSError:
            os.open(os.devnull, os.O_RDONLY if stream else os.O_WRONLY)


if __name__ == "__main__":
    fill_streams()
    if len(sys.argv) not in (4, 5):
        sys.exit(__doc__)
    sys.exit(Carrier(*sys.argv[1:]).run())
