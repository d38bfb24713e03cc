"""A file that is longer than a volume is kept as several, and is one: it is cut, listed, shown, given back, taken away and grown by its one name."""
import json
import os
import sys

from common import BLOCK as B, Calls, ran
from steps import take

PART = 65535 * B  # so many bytes of a file are in each volume but the last


STEPS = r"""
a is +aaa / b is +bbb / 3 create F 8 db..001=a => `..` and a number
3 create F 8 nnnnnnnnnnnnnnnnnnnnnnnnnnnn:65537=a => more than 27 bytes, and 65537 blocks take several volumes
0 create F 8 db=a other=b / 0 cut F db other => set 1 / 0 grow F db=131072 => volume db blocks 131072
! [ "$(ls F/*.vol | xargs)" = 'F/db..001.vol F/db..002.vol F/db.vol F/other.vol' ]
0 list F => volume db blocks 131072 length 3 | image 1 length 3 used 0 | volume other blocks 1 length 3 | image 1 length 3 used 0 | slots 0 of 8, last set 1
3 grow F db=131072 => blocks: 131072, and it has 131072 already / 3 cut F db..001 => volume db..001: there is no such volume
3 show F db..001 => volume db..001: there is no such volume / 3 remove F db..001 => volume db..001: there is no such volume
3 update F db..001=a => volume db..001: there is no such volume / 3 revert F 1 db => db got more volumes since / 3 cut F db db => given twice
0 cut F db other => set 2 / 0 diff F 2 => volume db written 0 | volume other written 0 / ! [ "$("$images" show F db)" = aaa ]
! [ "$("$images" show F 2 db)$("$images" show F 1 db)" = aaaaaa ]
"""
REST = r"""
! mkdir out / 0 restore F 2 out / ! [ "$(ls out | xargs)$(cat out/db)" = 'db otheraaa' ]
0 delete F 2 db => deleted 1 / 0 prune --keep 1 F => deleted set 1: 2 / 0 remove F db => removed db: 0 / ! [ "$(ls F/*.vol)" = F/other.vol ]
0 check F => whole: 1 volumes, 1 images, 0 of 8 slots
"""


def main(program, room, *lengths):
    """With lengths: files of so many bytes are kept, too, most of which are holes."""
    os.chdir(room)
    call = Calls(program, 3600)
    take(call, STEPS)
    found = json.loads(ran([program, "list", "--json", "F"]).stdout)
    sizes = [(of["name"], of["blocks"], of["length"]) for of in found["volumes"]]
    if [of["images"] for of in found["sets"]] != [2, 2] or sizes != [("db", 131072, 3), ("other", 1, 3)]:
        sys.exit(f"list --json: {found}")
    take(call, REST)
    for length in lengths:
        keep(call, length)
    return f"{call.tried} calls on files longer than a volume"


def keep(call, length):
    """A file of so many bytes, with some at the ends and where a volume ends, goes through all calls."""
    places = [0, *(at for at in range(PART - 2, length - 8, PART)), length - 8]

    def put(data):
        with open("long", "r+b") as file:
            for at in places:
                os.pwrite(file.fileno(), data, at)

    def is_same(*words):
        """What these words show is the file `then`."""
        call(0, "", "restore", "--over", "G", *words, "back")
        for at in places:
            with open("back", "rb") as back, open("long" if len(words) == 1 else "then", "rb") as of:
                if os.pread(back.fileno(), B, at) != os.pread(of.fileno(), B, at) or os.stat("back").st_size != length:
                    sys.exit(f"{words}: another at {at}")

    with open("long", "wb") as file:
        file.truncate(length)
    put(b"12345678")
    call(0, "", "create", "G", "4096", "db=long", "log=a")
    call(0, "set 1\n", "cut", "G", "db", "log")
    os.system("cp --sparse=always long then")
    put(b"abcdefgh")
    said = call(0, None, "update", "--dry-run", "G", "db=long")
    done = call(0, None, "update", "G", "db=long")
    if said.splitlines()[0].replace("would write", "written").replace("copy", "copied") != done.splitlines()[0]:
        sys.exit(f"{said} and then {done}")
    is_same("db")
    is_same("1", "db")
    call(0, None, "check", "G")
    call(0, None, "revert", "G", "1", "db")
    is_same("1", "db")
    call(0, "removed db: 1\n", "remove", "G", "db")
    call(0, None, "add", "G", "db=long")
    is_same("db")
