"""Steps of a check of `images`, as rows of a text: files, calls with how they end, and commands that must succeed.

`NAME is SPEC` makes a file, and `NAME has SPEC MODE` looks at one, beside which nothing may be left: a block for each letter, and behind `+` a tail.
`STATUS WORDS => TOLD` is a call: with 0 it prints just that, ` | ` between its lines, or anything for `*`, or nothing; else its line has that in it. Behind
`small` its files end at two blocks. `! COMMAND` is for the shell, which has the program as `images`. ` / ` is between the steps of a line.
"""
import os
import resource
import shlex
import subprocess
import sys

from common import BLOCK, limited, read, write

SMALL = {"preexec_fn": limited(resource.RLIMIT_FSIZE, 2 * BLOCK)}


def bytes_of(spec):
    """A file of a block for each letter, and a tail."""
    letters, _, tail = spec.partition("+")
    return b"".join(bytes([ord(letter)]) * BLOCK for letter in letters) + tail.encode()


def has(name, data, mode):
    if read(name) != data or os.stat(name).st_mode & 0o7777 != mode or os.path.exists(f"{name}~restored"):
        sys.exit(f"{name}: {len(read(name))} bytes of mode {os.stat(name).st_mode:o}, or a file beside it was left")


def take(call, text):
    """Takes each step, whose calls are made by a counting one."""
    for step in text.strip().replace("\n", " / ").split(" / "):
        name, _, spec = step.partition(" is ")
        if step.startswith("! "):
            if subprocess.run(["bash", "-c", step[2:]], env={**os.environ, "images": call.program}, check=False).returncode:
                sys.exit(f"{step}: it failed")
        elif step[0].isdigit():
            words, _, told = step.partition(" => ")
            status, *words = shlex.split(words)
            how = SMALL if words[0] == "small" else {}
            wanted = None if told == "*" else "".join(f"{line}\n" for line in told.split(" | ") if line) if status == "0" else told
            call(int(status), wanted, *words[len(how):], **how)
        elif spec:
            write(name, bytes_of(spec))
        else:
            name, _, spec, mode = step.split(" ")
            has(name, bytes_of(spec), int(mode, 8))
