"""What the checks in Python have in common. This file is no check."""
import atexit
import os
import resource
import shutil
import signal
import subprocess
import sys
import tempfile

sys.dont_write_bytecode = True  # nothing is written beside the sources
TOP = os.path.dirname(os.path.dirname(os.path.abspath(__file__)))
sys.path.append(f"{TOP}/tools")
import crates
CHECK = os.path.basename(sys.argv[0]).removesuffix(".py")
BLOCK = 16384
wrongs = []


def told_by(*words):
    """Calls a function of tools/program.sh. Returns its status, and what it printed."""
    return crates.told_by(CHECK, *words)


def begin(*names):
    """Begins a check, in the top folder. Returns a folder of its own, in memory where there is one, and the programs of these crates."""
    os.chdir(TOP)
    os.environ.update(PYTHONPATH=f"{TOP}/checks", PYTHONDONTWRITEBYTECODE="1")  # for scripts that are run
    signal.signal(signal.SIGTERM, lambda *_: sys.exit(1))
    room, programs = tempfile.mkdtemp(dir="/dev/shm" if os.access("/dev/shm", os.W_OK) else None), [told_by("program_to_run", name) for name in names]
    atexit.register(shutil.rmtree, room, True)
    if any(status for status, _ in programs):
        sys.exit(1)
    return room, *(program for _, program in programs)


def holds(condition, what):
    """Notes what is wrong, unless the condition holds."""
    if not condition:
        wrongs.append(what)


def ends(line):
    """Ends a check: with this line, and with what is wrong."""
    for wrong in wrongs[:20]:
        print(f"{CHECK}: {wrong}", file=sys.stderr)
    print(f"{CHECK}: {line}")
    sys.exit(bool(wrongs))


def read(path):
    with open(path, "rb") as file:
        return file.read()


def write(path, data):
    with open(path, "wb") as file:
        file.write(data)


def ran(words, **how):
    """Runs words to their end, and returns their status and what they wrote."""
    return subprocess.run(words, **{"capture_output": True, "timeout": 120, "check": False, **how})


class Calls:
    """Calls of a program, which are counted."""

    def __init__(self, program, seconds=120):
        self.program, self.seconds, self.tried = program, seconds, 0

    def __call__(self, status, told, *words, **how):
        """A call ends with this status, and prints this, or anything for None; or it has this in its line on the standard error. Returns what it says."""
        self.tried += 1
        got = ran([self.program, *words], timeout=self.seconds, **how)
        said = (got.stderr if status else got.stdout).decode()
        if got.returncode != status or (told not in said if status else told not in (None, said)):
            sys.exit(f"{words}: {got.returncode} {got.stdout} {got.stderr}, wanted {status} {told}")
        return said


def files_below(folder):
    """Returns all files below a folder, each with its bytes, by their paths."""
    paths = [os.path.join(at, name) for at, _, names in os.walk(folder) for name in names]
    return {path: read(path) for path in sorted(paths) if os.path.isfile(path)}


def limited(kind, most):
    """Returns what limits a program before it begins. A file that may not grow fails the call that writes it."""
    def limit():
        signal.signal(signal.SIGXFSZ, signal.SIG_IGN)
        resource.setrlimit(kind, (most, most))

    return limit
