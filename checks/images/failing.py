"""Lets each call of the system fail that `images` makes in the scenes of kill.py, and refuses it each allocation:
alone, and with all that follow; reads and writes are also cut short to half.

A call that fails ends with a status that it can have and one line, none at 7, and the folder is then as after a kill;
one that is done has all, as without a fault.
"""
import os
import shutil

from kill import scenes

SHORT = ("read_file", "write", "write_file", "pread", "pwrite")
KINDS = ("open", "statx", "flock", "fdatasync", "fsync", "ftruncate", "rename", "unlink", "mkdir", "close", *SHORT, "malloc")
ALL = 10**6


def fail(scene, room, library, kind, first, last, is_short):
    """Lets calls fail. False where there were not so many."""
    place, folder = f"{kind} {first} to {last}{' short' if is_short else ''}", os.path.join(room, "failed")
    shutil.copytree(scene.base, folder)
    numbers = {"FAIL_CALL": kind, "FAIL_FIRST": str(first), "FAIL_LAST": str(last)}
    numbers |= {"FAIL_SHORT": "1"} if is_short else {}
    got = scene.run(folder, scene.call, LD_PRELOAD=library, **numbers)
    *told, counts = got.stderr.splitlines()
    if got.returncode not in (0, 3, 4, 5, 6, 7) or len(told) != (got.returncode not in (0, 7)) \
            or not all(line.startswith(b"images: ") for line in told):
        scene.wrong(place, f"{got.returncode} {got.stderr}")
    if got.returncode == 0 and scene.run(folder, ["list", "F"]).stdout != scene.after.answer(["list", "F"])[1]:
        scene.wrong(place, "done, and not all is there")
    scene.look_at_all(folder, place, got.stdout)
    shutil.rmtree(folder)
    return int(counts.split()[-1]) > 0


def main(program, library, folder, most=ALL):
    """Lets at most so many calls of each kind fail."""
    runs = 0
    for scene, room in scenes(program, folder):
        for kind in KINDS:
            for follow, is_short in ((False, False), (True, False), *(((False, True),) if kind in SHORT else ())):
                first = 1
                while first <= most and fail(scene, room, library, kind, first, ALL if follow else first, is_short):
                    first += 1
                runs += first - 1
    return f"{runs} runs with failing calls"
