"""Updates a folder of images from two files while a process writes them, and sees that no update that is done has files of two moments.

The writer counts: it brings a number into all of `log` and then into all of `db`, and pauses now and then. It writes in
place and puts the time of the last change back, or it renames new files into place. So at each moment each file has one
number, and that of `log` is the one of `db` or the next. COUNT updates are made of each kind.
"""
import os
import random
import re
import subprocess
import sys
import time

from common import ran

SIZE = 60000
TOLD = re.compile(rb"images: (log|db): changed while it was read: \d+ bytes and then \d+.*; stop or freeze its writer, as SQLite's lock does: sqlite3 .*'begin immediate'.*\n")


def write(path, number, renames):
    """Brings a number into all of a file."""
    data = (b"%015d\n" % number) * (SIZE // 16)
    if renames:
        with open(path + ".other", "wb") as file:
            file.write(data)
        os.rename(path + ".other", path)
        return
    kept = os.stat(path)
    with open(path, "r+b") as file:
        file.write(data)
    os.utime(path, ns=(kept.st_atime_ns, kept.st_mtime_ns))


def write_on(renames):
    """Counts until it is killed."""
    draw = random.Random(0)
    for number in range(1, 10**9):
        write("log", number, renames)
        time.sleep(draw.choice([0, 0, 0.001, 0.01]))
        write("db", number, renames)
        time.sleep(draw.choice([0, 0.002, 0.02, 0.1]))


def in_seconds(program, library, folder):
    """Where times of files are whole seconds, a change of one that was just written is seen behind each read."""
    ran([program, "create", "S", "0", "db=db"], cwd=folder, check=True)
    for number in (2, 4):
        write(os.path.join(folder, "db"), number, True)
        preloaded = {"LD_PRELOAD": library, "WHOLE_SECONDS": "1", "CHANGE_AT": str(number), "CHANGE_FILE": "db", "CHANGE_SIZE": "-1"}
        got = ran([program, "update", "--tries", "1", "S", "db=db"], cwd=folder, env={**os.environ, **preloaded})
        if got.returncode != 12 or not TOLD.fullmatch(got.stderr):
            sys.exit(f"in whole seconds, at {number}: {got}")


def main(program, library, folder, count):
    for renames in (False, True):
        room, done = os.path.join(folder, f"renames {renames}"), 0
        os.mkdir(room)
        for name in ("log", "db"):
            write(os.path.join(room, name), 0, True)
        ran([program, "create", "F", "0", "db=db", "log=log"], cwd=room, check=True)
        with subprocess.Popen([sys.executable, __file__, str(int(renames))], cwd=room) as writer:
            for turn in range(count):
                got = ran([program, "update", "--tries", "1", "F", "db=db", "log=log"], cwd=room)
                if got.returncode not in (0, 12) or got.returncode and not TOLD.fullmatch(got.stderr):
                    sys.exit(f"{got}")
                if got.returncode == 0:
                    done += 1
                    shown = (ran([program, "show", "F", name], cwd=room, check=True) for name in ("db", "log"))
                    db, log = (set(it.stdout.split()) for it in shown)
                    if len(db) != 1 or len(log) != 1 or int(min(log)) - int(min(db)) not in (0, 1):
                        writer.kill()
                        sys.exit(f"update {turn} is done, and db has {sorted(db)[:3]}, log {sorted(log)[:3]}")
            is_there = writer.poll() is None
            writer.kill()
        if not done or not is_there:
            sys.exit("no update was done, or the writer has ended")
        print(f"{'renamed' if renames else 'in place'}: {done} of {count} updates were done, all of one moment")
    in_seconds(program, library, os.path.join(folder, "renames False"))
    return f"{2 * count} updates under a writer, and 2 in whole seconds"


if __name__ == "__main__":
    write_on(sys.argv[1] == "1")
