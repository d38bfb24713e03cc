"""Backups of an application that is never stopped: two SQLite databases and a log, changed in lock step. Of 20 backups each version is of one moment; what
may go wrong in a backup has its line and its status, and behind it the application runs and the next backup keeps a set without a person; and each record
of a run is the report of a legal and complete run. Where the machine lets root mount a file system of its own, versions of one that `fsfreeze` holds are
mounted, with a PostgreSQL server on it if its package is there. `checks/backup.py all` tries 50 backups, and the rows that take long, by hand.
"""
import concurrent.futures
import os
import shutil
import sys

from common import TOP, begin, ends, holds

sys.path.append(os.path.join(TOP, "checks/backup"))
import faults
import mounted
from room import Room, Wrong


def many(programs, path, count):
    """Backups under the application, each version judged."""
    with Room(programs, path, slots=60000) as room:
        for number in range(1, count + 1):
            status, said = room.run(room.job())
            if status != 0 or room.sets()[-1] != number:
                raise Wrong(f"backup {number}: status {status}:\n{said}")
        for number in room.sets():
            room.judge(number)
    if len(room.sets()) != count:
        raise Wrong(f"{len(room.sets())} of {count} sets are there")
    return f"{count} of {count} versions are of one moment; {room.told}"


def tried(part, *words):
    """What a part says at its end; what is wrong is noted."""
    try:
        return part(*words)
    except Wrong as wrong:
        holds(False, f"{wrong}")
        return "not all is right"


def main(is_all):
    folder, *programs = begin("backup", "images", "vss_tools")
    with concurrent.futures.ThreadPoolExecutor() as pool:
        kept = pool.submit(tried, many, programs, f"{folder}/many", 50 if is_all else 20)
        said = [tried(faults.main, programs, f"{folder}/faults", is_all)]
        if os.geteuid() == 0 and all(map(shutil.which, ("mkfs.ext4", "fsfreeze", "e2fsck", "mount"))):
            os.chmod(folder, 0o711)  # the PostgreSQL server runs as another user
            said.append(tried(mounted.main, programs, f"{folder}/mounted", 2))
        ends("; ".join([kept.result(), *said]))


main(sys.argv[1:] == ["all"])
