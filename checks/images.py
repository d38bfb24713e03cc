#!/usr/bin/env python3
"""`images` answers drawn lists of calls as a second reading over plain copies of files does; killed at calls of the system that change something, it
never gives wrong bytes as right ones, nor after a loss of power; a second process is refused while one has the folder; a state of which a byte is another is
refused; a line on a terminal shows how far it is; and files that a process writes are of one moment.

    checks/images.py more [PROGRAM]

tries more, by hand, as root where disks of a few blocks are to be made: 2,000 drawn lists of calls; kills at every place; losses of power, also behind a
kill or a sync that failed; 500 updates under each kind of writer; each call of the system failing and each allocation refused, alone and with all that
follow; and real faults: disks without room, folders without rights, paths that are something else, limits, and files that change while they are read. The
last line of each says how many runs there were. Versions of databases under a process that writes are those of checks/backup.py.
"""
import os
import shutil
import subprocess
import sys

from common import TOP, begin, ends

sys.path.append(os.path.join(TOP, "checks/images"))
import beside
import damage
import devices
import failing
import faults
import kill
import lists
import long
import power
import terminal
import torn
import words

# the parts, with what each is given in the gate and by hand; None where it is left out there
PARTS = (
    (lists, (0, 80), (1000, 2000)), (kill, (3,), ()), (beside, (5,), (1,)), (power, (9,), ()), (damage, (997,), ()), (words, (), None), (long, (), (2684354560,)),
    (devices, (), ()), (torn, (20,), (500,)), (terminal, (), None), (faults, None, ()), (failing, None, ()),
)


def main(more="", given=None):
    room, program = begin("images")
    program, library, said = os.path.abspath(given or program), os.path.join(room, "calls.so"), []
    has_library = shutil.which("cc") is not None
    if has_library:
        subprocess.run(["cc", "-O1", "-shared", "-fPIC", "-o", library, f"{TOP}/checks/calls.c"], check=True)
    for part, *how in PARTS:
        words_of, needs_library = how[more == "more"], part in (kill, beside, power, torn, faults, failing)
        if needs_library and not has_library and words_of is not None:
            print(f"no cc here, so {part.__name__} was left out", file=sys.stderr)
        elif words_of is not None:
            folder = os.path.join(room, part.__name__)
            os.mkdir(folder)
            try:
                said.append(part.main(program, *[library] * needs_library, folder, *words_of))
            except SystemExit as ended:
                sys.exit(f"{part.__name__}: {ended}")
            print(said[-1], flush=True)
            shutil.rmtree(folder)
    ends("; ".join(said))


main(*sys.argv[1:])
