"""Where the standard error of `images` is a terminal, a line there shows how far it is, at most ten times a second, and
is gone at the end; where it is none, nothing is written.

It is tried with `show`, of which the output is taken slowly, and with the second pass of `update`, which waits in its midst.
"""
import os
import pty
import re
import subprocess
import sys
import time

from common import ran, write

MIB = 1 << 20
CLEAR = "\r\x1b[K"


def shown(program, room, error):
    """Takes what `show` writes, a MiB each 0.3 seconds. Returns the seconds that it took."""
    began = time.monotonic()
    with subprocess.Popen([program, "show", "F", "db"], cwd=room, stdout=subprocess.PIPE, stderr=error) as run:
        while run.stdout.read(MIB):
            time.sleep(0.3)
    if run.returncode:
        sys.exit(f"status {run.returncode}")
    return time.monotonic() - began


def full_pipe():
    """Returns both ends of a pipe that takes no byte more, and how many it has."""
    end, begin = os.pipe()
    os.set_blocking(begin, False)
    had = 0
    for size in (4096, 1):
        try:
            while True:
                had += os.write(begin, b"." * size)
        except BlockingIOError:
            pass
    os.set_blocking(begin, True)
    return end, begin, had


def updated(program, room, error):
    """Lets `update` wait for a second where it prints an image that goes, which is in the midst of its second pass. Returns what it printed."""
    end, begin, had = full_pipe()
    with subprocess.Popen([program, "update", "G", "log=log"], cwd=room, stdout=begin, stderr=error) as run:
        os.close(begin)
        while run.poll() is None and not os.path.exists(os.path.join(room, "G", "images.open")):
            time.sleep(0.01)
        time.sleep(1)
        with open(end, "rb") as pipe:
            return pipe.read()[had:].decode()


def told(ours, theirs):
    """Returns what a terminal was told."""
    os.write(theirs, b".")
    text = b""
    while not text.endswith(b"."):
        text += os.read(ours, 65536)
    return text[:-1].decode()


def try_update(program, room, ours, theirs):
    """4 MiB are overwritten of which 100 blocks can be copied."""
    for calls, byte in ((["create", "G", "100", "log=log"], b"a"), (["cut", "G", "log"], b"b")):
        write(os.path.join(room, "log"), byte * (4 * MIB))
        ran([program, *calls], cwd=room, check=True)
    printed = updated(program, room, theirs)
    if printed != "evicted set 1 log\nlog written 256 copied 100\n":
        sys.exit(f"update printed {printed!r}")
    text = told(ours, theirs)
    lines = re.findall(r"\rimages: (compared|copied|written) \d of \d MiB\x1b\[K", text)
    if "copied" not in lines or not text.endswith(CLEAR):
        sys.exit(f"update told {text!r}")


def main(program, room):
    write(os.path.join(room, "db"), bytes(6 * MIB))
    ran([program, "create", "F", "1", "db=db"], cwd=room, check=True)
    ours, theirs = pty.openpty()
    took = shown(program, room, theirs)
    text = told(ours, theirs)
    lines = re.findall(r"\rimages: shown \d of 7 MiB\x1b\[K", text)
    if not 1 <= len(lines) <= 10 * took or text != "".join(lines) + CLEAR:
        sys.exit(f"{took:.1f} s: {text!r}")
    with open(os.path.join(room, "told"), "wb") as file:
        shown(program, room, file)
    if os.path.getsize(os.path.join(room, "told")):
        sys.exit("a line where there is no terminal")
    try_update(program, room, ours, theirs)
    return f"{len(lines)} lines on a terminal"
