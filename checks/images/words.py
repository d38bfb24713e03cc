"""`restore` makes a file whole or leaves what is there; `prune` and `--keep` keep the newest sets; `--wait` waits for
another process."""
import datetime
import fcntl
import json
import os
import random
import re
import resource
import shutil
import sys
import threading
import time

import plain
from common import BLOCK as B, Calls, files_below, limited, ran, read, write
from steps import take


def forecasts(program, seed):
    """What `update --dry-run` says is what the update does, and the deletion of a set gives its exclusive slots back."""
    def listed():
        return json.loads(ran([program, "list", "--json", "H"]).stdout)

    draw, tried = random.Random(seed), 0
    files = {name: bytearray(B * count) for name, count in (("one", 6), ("two", 3))}
    for name, data in files.items():
        write(name, data)
    ran([program, "create", "H", str(draw.randrange(4, 24)), "one=one", "two=two"])
    for _ in range(10):
        for data in files.values():
            data[draw.randrange(len(data))] ^= draw.randrange(2)
        for name, data in files.items():
            write(name, data)
        pairs = draw.choice([["one=one"], ["two=two"], ["one=one", "two=two"]])
        before = listed()
        said = ran([program, "update", "--dry-run", "H", *pairs]).stdout.decode()
        if listed() != before:
            sys.exit("--dry-run changed something")
        done = ran([program, "update", "H", *pairs]).stdout.decode()
        went = sorted({of["set"] for of in before["sets"]} - {of["set"] for of in listed()["sets"]})
        lines = [line for line in said.splitlines() if "would go" in line]
        if lines != [f"set {number} would go" for number in went]:
            sys.exit(f"--dry-run: {said}, and then {done}")
        if not went and re.sub("would write ([0-9]+) copy", r"written \1 copied", said).splitlines()[:-1] != done.splitlines():
            sys.exit(f"--dry-run: {said}, and then {done}")
        ran([program, "cut", "H", *draw.choice([["one"], ["two"], ["one", "two"]])])
        tried += 3
    for of in draw.sample(listed()["sets"], len(listed()["sets"])):
        before = listed()
        own = next(one["exclusive"] for one in before["sets"] if one["set"] == of["set"])
        ran([program, "delete", "H", str(of["set"])])
        if before["used"] - listed()["used"] != own:
            sys.exit(f"set {of['set']} gave back {before['used'] - listed()['used']}, not {own}")
        tried += 1
    shutil.rmtree("H")
    return tried


def growth(call):
    """A folder without sums grows and gets them. A block with another sum is not moved, nor is its length kept: nothing is changed then."""
    def refused(name, at, told, *words):
        whole = read(f"H/{name}")
        write(f"H/{name}", whole[:at] + bytes([whole[at] ^ 1]) + whole[at + 1:])
        damaged = files_below("H")
        call(9, told, *words)
        if files_below("H") != damaged:
            sys.exit(f"{words}: something was changed")
        write(f"H/{name}", whole)

    take(call, "one is a / 0 create H 1 one=one / 0 cut H one => set 1 / one is b / 0 update H one=one => one written 1 copied 1")
    write("H/images.state", plain.without_sums(read("H/images.state")))
    take(call, "0 grow H 1100 => slots 1100 / 0 check H => whole: 1 volumes, 1 images, 1 of 1100 slots")
    refused("images.area", 3 * B + 5, "slot 0: its sum is another", "grow", "H", "3000")
    refused("one.vol", 2 * B - 1, "block 1: its sum is another", "grow", "H", "one=9")
    take(call, "0 grow H 3000 => slots 3000 / 0 grow H one=9 => volume one blocks 9 / 0 check H => whole: 1 volumes, 1 images, 1 of 3000 slots")
    call(0, "a" * B, "show", "H", "1", "one")
    shutil.rmtree("H")


def space(program):
    """Behind a call by which images go, the area has the space up to its last slot in use, and its length. Where it does not get that back, the folder is
    marked and right, and the next call that writes goes on."""
    tried, files = 0, {name: [bytes([number]) * (B * count) for number in range(5)] for name, count in (("one", 30), ("two", 10))}

    def call(status, told, used, blocks, *words, **how):
        """A call, and then the slots up to the last in use, and the blocks of the area's file."""
        nonlocal tried
        tried += 1
        got, found = ran([program, *words], **how), os.stat("H/images.area") if used is not None else None
        if got.returncode != status or told not in got.stderr + got.stdout or found and (
                found.st_size != B * blocks or not B * used <= found.st_blocks * 512 <= B * (used + 6)):
            sys.exit(f"{words}: {got.returncode} {got.stdout[:99]} {got.stderr} {found}, wanted {status} {told} {used} {blocks}")

    def update(number):
        for name, data in files.items():
            write(name, data[number])
        call(0, b"", 40 * (number - 1), 202, "update", "H", "one=one", "two=two")
        call(0, b"set", 40 * (number - 1), 202, "cut", "H", "one", "two")

    for name, data in files.items():
        write(name, data[1])
    call(0, b"", None, None, "create", "H", "200", "one=one", "two=two")
    for number in (1, 2, 3, 4):
        update(number)
    call(0, b"deleted 2", 120, 202, "delete", "H", "4")
    few = limited(resource.RLIMIT_FSIZE, 1 << 20)
    call(6, b"H/images.area: could not be resized: File too large", 110, 112, "delete", "H", "3", "two", preexec_fn=few)
    call(6, b"H/images.area: could not be resized: File too large", 110, 112, "cut", "H", "one", preexec_fn=few)
    call(0, b"whole: 2 volumes, 5 images, 110 of 200 slots", 110, 112, "check", "H")
    for words in ("1 one", "2 two", "3 one", "one"):
        call(0, files[words.split()[-1]][int((words if " " in words else f"4 {words}").split()[0])], 110, 112, "show", "H", *words.split())
    call(3, b"there is no image of it on two", 110, 112, "show", "H", "3", "two")
    call(0, b"deleted set 1: 2", 110, 202, "prune", "--keep", "2", "H")
    call(0, b"", 80, 202, "revert", "H", "2", "one")
    call(0, b"removed two: 1", 0, 202, "remove", "H", "two")
    call(0, files["one"][2], 0, 202, "show", "H", "2", "one")
    call(0, b"whole: 1 volumes, 1 images, 0 of 200 slots", 0, 202, "check", "H")
    shutil.rmtree("H")
    return tried


def without_lists(program):
    """Without its lists, as of an earlier program, F gives files the mode of those that they replace, or 0600, and `cut` warns. A list that is damaged is named."""
    for data in (None, b"?"):
        shutil.copytree("F", "E")
        for name in ("E/images.dates", "E/images.together"):
            os.remove(name)
            if data:
                write(name, data)
        for words, path, mode in ((["E", "1", "db"], "one", 0o600), (["E", "db"], "two", 0o600), (["--over", "E", "1", "db"], "two", 0o666)):
            if "--over" in words:
                os.chmod(path, mode)
            got = ran([program, "restore", *words, path])
            if got.returncode or got.stderr.count(b"digest: another") != bool(data) or os.stat(path).st_mode & 0o777 != mode:
                sys.exit(f"restore {words} beside lists of {data}: {got}")
        os.remove("one")
        os.remove("two")
        got = ran([program, "cut", "E", "db"])
        if (got.returncode, b"not known to be of one moment" in got.stderr) != ((9, False) if data else (0, True)):
            sys.exit(f"cut beside lists of {data}: {got}")
        shutil.rmtree("E")
    return 8


def in_transit(program):
    """Images are listed beside a volume in transit, and it is named."""
    shutil.copytree("F", "E")
    write("E/images.open", b"update\ndb\n")
    line = b"images: E: left open by update of db; an update of db ends it, and ./images check E says what is whole\n"
    for words, part in (
        (["list", "E"], b"volume db blocks 4 in transit\nimage 1 length 49152 used 3\n"), (["list", "--json", "E"], b'"in_transit":true,"length":null'),
        (["sets", "E"], b"\nset 2 "), (["diff", "E", "1", "2"], b"volume db written 3: 0-2\n"), (["diff", "E", "1", "log"], b"volume log written 0\n"),
    ):
        got = ran([program, *words])
        if got.returncode or part not in got.stdout or got.stderr != line:
            sys.exit(f"{words} of a folder in transit: {got}")
    got = ran([program, "delete", "E", "1"])
    if (got.returncode, got.stdout, got.stderr) != (11, b"", line):
        sys.exit(f"delete in a folder in transit: {got}")
    shutil.rmtree("E")
    return 6


SETS = r"set 1 (\S+)Z images 2 used 3 exclusive 3 shared 0\nset 2 (\S+)Z images 1 used 0 exclusive 0 shared 0: nightly, before the upgrade\n"


def listed(program):
    """What `sets`, `list --json` and `diff --json` print of two sets."""
    sets = ran([program, "sets", "F"]).stdout.decode()
    told = re.fullmatch(SETS, sets)
    moments = [datetime.datetime.fromisoformat(moment + "+00:00").timestamp() for moment in told.groups()] if told else []
    if not told or not time.time() - 60 < moments[0] <= moments[1] <= time.time():
        sys.exit(f"sets: {sets}")
    found = json.loads(ran([program, "list", "--json", "F"]).stdout)
    if [of.pop("seconds") for of in found["sets"]] != [int(moment) for moment in moments] or found != {
        "volumes": [{"name": "db", "blocks": 4, "length": 3 * B, "in_transit": False, "images": [
            {"set": 1, "length": 3 * B, "used": 3}, {"set": 2, "length": 3 * B, "used": 0}]},
            {"name": "log", "blocks": 1, "length": None, "in_transit": False, "images": [{"set": 1, "length": None, "used": 0}]}],
        "sets": [{"set": 1, "note": "", "images": 2, "used": 3, "exclusive": 3, "shared": 0},
            {"set": 2, "note": "nightly, before the upgrade", "images": 1, "used": 0, "exclusive": 0, "shared": 0}],
        "used": 3, "slots": 6, "last": 2}:
        sys.exit(f"list --json: {found}")
    found = json.loads(ran([program, "diff", "--json", "F", "1"]).stdout)
    if found != {"set": 1, "other": None, "volumes": [{"name": "db", "written": 3, "runs": [[0, 2]]}, {"name": "log", "written": 0, "runs": []}]}:
        sys.exit(f"diff --json: {found}")


def helps(program, word, form):
    """The help of a word has its form and an example that is of it."""
    said = ran([program, word, "-h"]).stdout.decode()
    example = said.splitlines()[-1].split() if said else []
    if not said.startswith(f"images {form}") or said != ran([program, word, "--help"]).stdout.decode() or example[:2] != ["./images", word] \
            or ran([program, *example[1:]], cwd="/").returncode == 2:
        sys.exit(f"{word} --help: {said}")
    return 3


def waits(call):
    """A call waits for another process."""
    held = os.open("F", os.O_RDONLY)
    fcntl.flock(held, fcntl.LOCK_EX)
    call(10, "in use by another process", "check", "F")
    call(10, "in use by another process", "check", "--wait", "1", "F")
    threading.Timer(0.5, lambda: fcntl.flock(held, fcntl.LOCK_UN)).start()
    call(0, "set 4\n", "cut", "--wait", "30", "F", "db")


TWO_SETS = r"""
db is aaa
! chmod 604 db; touch -d @1600000000.123456789 db; [ "$(id -u)" != 0 ] || chown 1234:1235 db; stat -c '%y %u %g' db > then
0 create F 6 db=db log=- / 0 cut F db log => set 1 / db is bbb / ! chmod 640 db / 0 update F db=db => db written 3 copied 3
0 cut --note 'nightly, before the upgrade' F db => set 2
"""
DIFFERENCES = r"""
! mv F/images.dates dates
0 sets F => set 1 - images 2 used 3 exclusive 3 shared 0 | set 2 - images 1 used 0 exclusive 0 shared 0 / ! mv dates F/images.dates
0 diff F 2 1 => volume db written 3: 0-2 | volume log only in set 1 / 0 diff F 2 => volume db written 0
3 diff F 1 2 log => set 2: there is no image of it on log / 3 diff F 1 3 => set 3: there is no image of it
"""
RESTORES = r"""
4 update F db=/dev/null => /dev/null: is no file / 4 update F db=F => F: is no file, but a directory
0 restore F 1 db out / out has aaa 604 / ! stat -c '%y %u %g' out | cmp - then
3 restore F 2 db out => out: is there already; --over takes its place / out has aaa 604
0 restore --over F 2 db out / out has bbb 640 / ! cmp <(stat -c '%y %u %g' out) <(stat -c '%y %u %g' db)
"""
KEEPS = r"""
5 small restore --over F 1 db out => out~restored: could not be written: File too large / out has bbb 640
13 restore --over F 1 log out => set 1 of log: its file was not there / 13 restore F 1 log out => set 1 of log: its file was not there
13 restore F 1 log none => set 1 of log: its file was not there / 3 restore --over F 9 db out => there is no image of it / out has bbb 640
0 restore F db now / now has bbb 640 / ! ln -s out link / 3 restore --over F 1 db link => link: is no file
5 restore F 1 db nowhere/out => nowhere/out~restored: could not be made: there is no such folder; make it first
! printf 'of somebody else' > left~restored / 3 restore F 1 db left => left~restored: is left of a restore that did not end
! [ "$(cat left~restored)" = 'of somebody else' ] && [ ! -e left ]
! mkdir all / 0 restore F 2 all / all/db has bbb 640 / 3 restore F 1 all => all/db: is there already; --over takes its place
! mkdir all/log / 3 restore --over F 1 all => all/log: is no file / ! rmdir all/log
5 small restore --over F 1 all => all/db~restored: could not be written: File too large / all/db has bbb 640
! [ "$("$images" restore --over F 1 all/ 2>&1)" = 'images: F: set 1 of log: its file was not there' ] / all/db has aaa 604 / ! [ "$(ls all)" = db ] / ! echo newer | tee all/log > all/db
3 restore --over F 1 all => all/log: is there, and was not in set 1; remove it first
3 restore F 1 all => all/log: is there, and was not in set 1; remove it first
! [ "$(ls all)" = $'db\nlog' ] && [ "$(cat all/db all/log)" = $'newer\nnewer' ] / ! ln -s F G; cp -a F before
3 restore --over F 1 db F/db.vol => F/db.vol: lies in F / 3 restore --over F 1 db F/images.area => F/images.area: lies in F
3 restore --over F 1 db F/images.state => F/images.state: lies in F / 3 restore --over F 1 db F/new => F/new: lies in F
3 restore --over F 1 db G/images.dates => G/images.dates: lies in F / 3 restore F 1 G/ => G/db: lies in F / ! diff -r F before
3 restore F 9 all => set 9: there is no image of it / 0 create I 0 a=db a.restored=all/db / 0 cut I a a.restored => set 1 / ! mkdir both
0 restore I 1 both / ! cmp both/a db && cmp both/a.restored all/db && [ "$(ls both | wc -l)" = 2 ]
5 restore F 2 nowhere => nowhere/db~restored: could not be made: there is no such folder; make it first
"""
PRUNES = r"""
db is ccc / 0 update --dry-run F db=db => db would write 3 copy 3 | slots 3 needed, 3 free
3 update --dry-run F db=db db=out => volume db: given twice / 0 update --keep 2 F db=db => db written 3 copied 3 / 0 cut F db => set 3
db is aaa / ! cp F/images.area area
0 update --dry-run --keep 3 F db=db => db would write 3 copy 3 | slots 3 needed, 0 free | set 1 would go | refused, as 2 of 3 sets would be left
3 update --keep 3 F db=db => sets: 2 would be left, and 3 are wanted at least / ! cmp F/images.area area && [ ! -e F/images.open ]
0 restore --over F 1 db out / out has aaa 604 / 0 prune --keep 2 F => deleted set 1: 2 / 0 prune --keep 2 F
3 show F 1 db => there is no image of it / 0 prune --keep 1 F => deleted set 2: 1
! [ "$(cut -d ' ' -f 1 F/images.dates | tr '\n' ' ')" = 'sha256 1 1=db 2 2=db 3 3=db ' ]
2 prune F => usage:  / 2 prune --keep 0 F => usage:  / 2 list --over F => usage:  / 2 sets --json F => usage:  / 2 cut --keep 1 F db => usage: 
2 restore F db => usage:  / 2 diff F db => usage:  / 2 diff F 1 2 db log => usage:  / 2 create --wait 1 G 1 db=db => usage: 
2 list --wait 1 --wait 1 F => usage:  / 2 nothing --help => usage: 
"""


def main(program, room):
    os.chdir(room)
    call = Calls(program)
    take(call, TWO_SETS)
    listed(program)
    take(call, DIFFERENCES)
    for note in ("two\nlines", "\x7f", "\u00e9", "n" * 101):
        call(2, "usage: cut [--note TEXT] F NAME ..", "cut", "--note", note, "F", "db")
    call.tried += in_transit(program)
    take(call, RESTORES)
    call.tried += without_lists(program)
    take(call, KEEPS)
    take(call, PRUNES)
    call.tried += sum(helps(program, word, form) for word, form in plain.FORMS.items())
    call.tried += sum(forecasts(program, seed) for seed in range(3)) + space(program)
    growth(call)
    waits(call)
    take(call, "! [ \"$(cut -d ' ' -f 1 F/images.dates | tr '\\n' ' ')\" = 'sha256 3 3=db 4 4=db ' ]")
    os.chdir("/")
    return f"{call.tried} calls of restore, sets, diff, prune, --keep, --wait and --help"
