"""Damages the files of a folder of images, one at a time, and sees that each is refused by its file and with its status, and that nothing is changed.

Each byte of the state is another, and it is cut off or longer; each of its fields is another below a digest that is made anew; the files of volumes
and the area have other sizes; the length in a volume's last block has no room; a file is missing, or is a link; each bit of a marker is another. A
bit of each byte of volumes and of slots in use is another: `check` names the file and the block, and nothing that is shown with 0 has other bytes. A
folder without sums is read and gets them. Folders and files are for their owner alone. And a second process is refused while a first has the folder.
"""
import fcntl
import hashlib
import os
import shutil
import subprocess
import sys

import plain
from common import files_below, ran, read, write

B = 16384
NOT_TRUSTED = b"images: F/images.state: digest: another; it is damaged, so nothing in the folder can be trusted: " \
    b"copy the folder before anything else\n"


class Damage:
    def __init__(self, program, room, step):
        self.program, self.tried, self.step = program, 0, step
        os.chdir(room)
        write("db", b"a" * B * 2)
        write("wal", b"log")
        self.must("create", "F", "3", "db=db", "wal=wal")
        self.must("cut", "F", "db", "wal")
        write("db", b"b" * B * 2)
        self.must("update", "F", "db=db")
        self.whole = {name.partition("/")[2]: data for name, data in files_below("F").items()}

    def run(self, *words):
        return ran([self.program, *words])

    def must(self, *words):
        got = self.run(*words)
        if got.returncode:
            sys.exit(f"{words}: {got.returncode} {got.stderr}")

    def refuses(self, name, data, status, words, told):
        """With these bytes in a file, a call ends with this status and a line that has this in it (`check` may have more), and nothing is changed."""
        self.tried += 1
        write(f"F/{name}", data)
        before, got = files_below("F"), self.run(*words)
        is_one = got.stderr.count(b"\n") == 1 or words[0] == "check"
        is_told = got.stderr.startswith(b"images: ") and told in got.stderr and is_one
        if got.returncode != status or got.stdout or not is_told or files_below("F") != before:
            sys.exit(f"{name}, {words}: {got.returncode} {got.stdout[:100]} {got.stderr}, wanted {status} {told}, no change")
        write(f"F/{name}", self.whole[name])

    def state(self):
        state = self.whole["images.state"]
        places = [*range(120), *range(120, len(state), 499), *range(len(state) - 32, len(state))]
        for place in places:
            data = bytearray(state)
            data[place] ^= 0x41
            for words in [["list", "F"]] + [["check", "F"], ["show", "F", "1", "db"], ["update", "F", "db=db"]] * (place == places[20]):
                self.refuses("images.state", bytes(data), 9, words, NOT_TRUSTED)
        for data, told in ((state[:-1], b"digest"), (state + b"x", b"digest"), (b"", b"size"), (state[:31], b"size"), (state + bytes(137_000_000), b"size")):
            self.refuses("images.state", data, 9, ["list", "F"], b"images: F/images.state: " + told)

    def field(self, place, data, told, reseals=False):
        """The state with these bytes at a place, below a digest of its own, for which also the catalog's may be made anew."""
        state, end = bytearray(self.whole["images.state"][:-32]), 16 + self.number(12)
        state[place:place + len(data)] = data
        if reseals:
            state[end - 32:end] = hashlib.sha256(state[16:end - 32]).digest()
        for words in (["list", "F"], ["check", "F"], ["show", "F", "1", "db"], ["update", "F", "db=db"]):
            self.refuses("images.state", bytes(state) + hashlib.sha256(state).digest(), 9, words, b"images: F/images.state: " + told.encode())

    def number(self, place):
        return int.from_bytes(self.whole["images.state"][place:place + 4], "little")

    def fields(self):
        """The head, the catalog of `db` of 3 blocks and `wal` of 1, the header for 3 slots, and its records: slots 0 and 1 have blocks 0 and 1 of `db` for set 1."""
        header, catalog = 16 + self.number(12), "catalog: "
        record, of_header = header + B, "the header has "
        front = "front: not that of an area"
        for place, number, told in (
            (8, 0, catalog + "volume 0 has an image of set 1, which was not given"),
            (12, 0, catalog + "the digest is another"), (12, self.number(12) + 1, front), (12, 2**32 - 1, catalog + "cut off"),
            (header + 8, 3, of_header + "3 in field Layout"), (header + 12, 70000, front), (header + 12, 2000, front),
            (header + 16, 9, of_header + "9 in field Used"), (header + 20, 0, of_header + "0 in field Volumes"),
            (header + 20, 1, of_header + "1 in field Rest"), (header + 24, 0, of_header + "0 in field Blocks"),
            (header + 24, 9, "volume 0: 9 blocks"), (header + 100, 120, of_header + "120 in field Rest"),
            (record, 9, "slot 0: set 9 has no image"), (record, 0, of_header + "2 in field Used"),
            (record + 4, 9, "slot 0 has set 1, block 9, volume 0"), (record + 4, 1, "slot 1 has set 1, block 1, volume 0"),
            (record + 8, 7, "slot 0 has set 1, block 0, volume 7"), (record + 12, 1, "slot 0 has set 1, block 0, volume 0"),
            (record + 16, 0, "slot 1 has set 0, block 1, volume 0"), (record + 36, 1, "slot 2 has set 0, block 1, volume 0"),
            (record + 48, 1, "slot 3 has set 1, block 0, volume 0"), (record + 16 * 1023, 1, "slot 1023 has set 1, block 0, volume 0"),
        ):
            self.field(place, number.to_bytes(4, "little"), told)
        self.field(0, b"X", "letters: others")
        self.field(header, b"X", of_header + "1095979864 in field Magic")
        self.field(16, b"X", catalog + "the digest is another")
        self.field(16, b"X", catalog + "no catalog", True)
        self.field(32, b"9", catalog + "volume 0 has no name", True)
        for place, number, told in (
            (24, 0, "0 volumes"), (24, 200, "200 volumes"), (24, 3, "cut off at byte 49"), (24, 1, "more bytes at byte 30"),
            (28, 0, "volume 0 has no name"), (28, 33, "volume 0 has no name"), (34, 0, "volume 0 has 0 blocks"),
            (34, 70000, "volume 0 has 70000 blocks"), (38, 600, "volume 0 has 600 images"), (42, 0, "volume 0 at 26 falls"),
            (42, 7, "volume 0 has an image of set 7, which was not given"),
        ):
            self.field(place, number.to_bytes(4, "little"), catalog + told, True)

    def last_set(self):
        """Where the greatest number was given, no set is cut."""
        state = bytearray(self.whole["images.state"][:-32])
        state[8:12] = bytes(4 * [255])
        self.refuses("images.state", bytes(state) + hashlib.sha256(state).digest(), 3, ["cut", "F", "db"], b"images: F: sets: 4294967295 was given, there is no next")

    def sizes(self):
        for name in ("db.vol", "wal.vol"):
            data = self.whole[name]
            for other in (data[:-1], data + b"x", b"", data + data):
                for words in (["digest", "F", name[:-4]], ["cut", "F", "db"], ["update", "F", "db=db"], ["check", "F"]):
                    self.refuses(name, other, 9, words, f"images: F/{name}: size: {len(other)}, and {len(data)} are wanted".encode())
        area = self.whole["images.area"]
        for other in (area[:-1], area + b"x", b"", area + bytes(B), area[:-B]):
            self.refuses("images.area", other, 9, ["list", "F"], f"images: F/images.area: size: {len(other)}, and {len(area)} are wanted".encode())

    def shorter(self):
        """Under the marker of a call that gives space back the area may end behind its last slot in use. The next call that writes gives it its length."""
        area, told = self.whole["images.area"], b"images: F/images.area: size: "
        for lines in (b"delete\n", b"remove x\n", b"remove x 9\n", b"revert\nwal\n"):
            for size in (4 * B, 5 * B - 1, 5 * B):
                shutil.copytree("F", "kept")
                write("F/images.open", lines)
                write("F/images.area", area[:size])
                for words, out in ((["list", "F"], b"slots 2 of 3"), (["show", "F", "1", "db"], b"a" * B), (["digest", "F", "db"], b""), (["check", "F"], b"wh"),
                                   (["update", "--dry-run", "F", "wal=wal"], b""), (["update", "F", "wal=wal"], b"wal written")):
                    got, is_refused = self.run(*words), lines[:3] == b"rev" and (words[0] == "check" or words[1] == "--dry-run")
                    if got.returncode != 11 * is_refused or out not in got.stdout + b"wh" * is_refused or len(read("F/images.area")) != (5 * B if out == b"wal written" else size):
                        sys.exit(f"{lines}, an area of {size} bytes, {words}: {got}")
                self.must("check", "F")
                shutil.rmtree("F")
                os.rename("kept", "F")
                self.tried += 1
        for lines, size in ((b"delete\n", 4 * B - 1), (b"revert\nwal\n", 4 * B - 1), (b"delete\n", 5 * B + 1), (b"cut\n", 4 * B), (b"grow\n", 4 * B), (b"update\nwal\n", 4 * B)):
            write("F/images.open", lines)
            for words in (["list", "F"], ["show", "F", "1", "db"], ["check", "F"], ["update", "F", "wal=wal"]):
                self.refuses("images.area", (area + b"x")[:size], 9, words, told)
            os.remove("F/images.open")

    def lengths(self):
        for name in ("db.vol", "wal.vol"):
            data = self.whole[name]
            for length in (len(data) - 7, len(data), 2**32, 2**64 - 2):
                other = data[:-8] + length.to_bytes(8, "little")
                told = f"images: F/{name}: length: {length} in {len(data)} bytes".encode()
                write("F/images.state", self.with_sums(**{name[:-4]: other}))
                for words in (["list", "F"], ["check", "F"], ["show", "F", name[:-4]], ["digest", "F", name[:-4]]):
                    self.refuses(name, other, 9, words, told)
                write("F/images.state", self.whole["images.state"])

    def with_sums(self, **changed):
        """The state with the sums of these bytes of files."""
        files = {**self.whole, **{f"{name}.vol": data for name, data in changed.items()}}
        head, front, _sums, _slots = plain.parts_of(files["images.state"])
        state = head + front + plain.sums_of(files["images.state"], (files["db.vol"], files["wal.vol"]), files["images.area"])
        return state + hashlib.sha256(state).digest()

    def shown(self, right, what, part=0):
        """All that is shown with 0 is right; the rest ends with 9 and one line behind so many bytes. Returns what was refused."""
        refused = []
        for words, wanted in right.items():
            got = self.run("show", "F", *words.split())
            if got.returncode == 9 and got.stderr.count(b"\n") == 1 and b"its sum is another" in got.stderr and got.stdout == wanted[:part]:
                refused.append(words)
            elif got.returncode or got.stdout != wanted:
                sys.exit(f"{what}: show {words}: {got.returncode} {got.stderr}")
        return refused

    def sums(self):
        """The sums are those of the files. Each byte that is another is found, and is not shown, nor kept by an update."""
        if self.with_sums() != self.whole["images.state"]:
            sys.exit("the state has other sums")
        right = {words: self.run("show", "F", *words.split()).stdout for words in ("db", "wal", "1 db", "1 wal")}
        places = [(name, at) for name in ("db.vol", "wal.vol") for at in range(0, len(self.whole[name]), self.step)]
        places += [("images.area", at) for at in range(2 * B, 4 * B, self.step)]
        needed = {("db.vol", block): ["db"] for block in range(3)} | {("wal.vol", 0): ["wal", "1 wal"]} | {("images.area", block): ["1 db"] for block in (2, 3)}
        needed["db.vol", 2] = ["db", "1 db"]
        for number, (name, at) in enumerate(places):
            data, block = bytearray(self.whole[name]), at // B
            data[at] ^= 1 << number % 8
            told = f"slot {block - 2}: its sum is another than is kept; it has block {block - 2} of F/db.vol for set 1" if name == "images.area" else f"block {block}: its sum is another"
            self.refuses(name, bytes(data), 9, ["check", "F"], f"images: F/{name}: {told}".encode())
            write(f"F/{name}", bytes(data))
            part = B if (name, block) in (("db.vol", 1), ("images.area", 3)) else 0
            if self.shown(right, f"byte {at} of {name}", part) != needed[name, block]:
                sys.exit(f"byte {at} of {name}: it is shown")
            write(f"F/{name}", self.whole[name])
        self.replaced(right)

    def lists(self):
        """A list of which a byte is another, or that is cut off or none, is refused and stays, but where a call needs none of it. One without a digest is
        of an earlier program."""
        self.must("cut", "--note", "the second", "F", "db", "wal")
        self.whole = {name.partition("/")[2]: data for name, data in files_below("F").items()}
        for name, words in (("images.dates", ["sets", "F"]), ("images.together", ["check", "F"])):
            data, told = self.whole[name], f"images: F/{name}: digest: another; ".encode()
            spoilt = [data[:at] + bytes([data[at] ^ 1 << at % 8]) + data[at + 1:] for at in range(len(data))]
            for number, other in enumerate((*spoilt, b"", b"\n", data[:-1], data + b"x", b"\xff\n", bytes(1 << 25))):
                self.refuses(name, other, 9, words, told)
                for more in (["check", "F"], ["list", "--json", "F"], ["cut", "F", "db"]) if name == "images.dates" and number % 40 == 0 else ():
                    self.refuses(name, other, 9, more, told)
            write(f"F/{name}", data[72:])
            for more in (["check", "F"], ["sets", "F"]):
                self.must(*more)
            write(f"F/{name}", data)
        write("F/images.together", b"?")
        got, more = self.run("cut", "F", "db", "wal"), self.run("update", "F", "db=db")
        if got.returncode or got.stderr.count(b"\n") != 2 or b"not known to be of one moment" not in got.stderr or more.returncode \
                or not read("F/images.together")[72:].startswith(b"db\n=db ") or self.run("check", "F").returncode:
            sys.exit(f"cut beside a damaged list: {got} {more}")
        self.whole = {name.partition("/")[2]: data for name, data in files_below("F").items()}

    def replaced(self, right):
        """An update writes a damaged block anew that no image has, and is refused where one has it."""
        for name, block, file in (("db", 1, "db"), ("wal", 0, "wal")):
            data = bytearray(self.whole[f"{name}.vol"])
            data[B * block + 7] ^= 8
            shutil.copytree("F", "kept")
            write(f"F/{name}.vol", bytes(data))
            is_free, told = name == "db", self.run("update", "--dry-run", "F", f"{name}={file}")
            got = self.run("update", "F", f"{name}={file}")
            if told.returncode != got.returncode or got.returncode != (0 if is_free else 9) or is_free and self.run("check", "F").returncode or self.shown(right, "an update") != ([] if is_free else ["wal", "1 wal"]):
                sys.exit(f"update over block {block} of {name}: {got.returncode} {got.stderr}")
            shutil.rmtree("F")
            os.rename("kept", "F")
            self.tried += 1

    def lost(self):
        """Where one volume is lost or has another size the others are listed and shown."""
        for what, status in ((None, 6), (b"", 9)):
            os.remove("F/db.vol")
            if what is not None:
                write("F/db.vol", what)
            for words, want, out in ((["show", "F", "wal"], 0, b"log"), (["show", "F", "1", "wal"], 0, b"log"), (["show", "F", "db"], status, b""),
                                     (["show", "F", "1", "db"], status, b""), (["list", "F"], status, b"volume wal blocks 1 length 3\n"),
                                     (["list", "--json", "F"], status, b'"length":null'), (["list", "--json", "F"], status, b'"length":3')):
                got = self.run(*words)
                if got.returncode != want or got.stderr.count(b"\n") != 1 or not got.stderr.startswith(b"images: F/db.vol: ") or out not in got.stdout:
                    sys.exit(f"without db.vol, {words}: {got.returncode} {got.stdout[:99]} {got.stderr}")
                self.tried += 1
            write("F/db.vol", self.whole["db.vol"])

    def earlier(self):
        """A folder without sums, as of an earlier program, is read; its first change gives each block its sum."""
        state = plain.without_sums(self.whole["images.state"])
        for words in (["cut", "F", "wal"], ["update", "F", "db=wal"], ["revert", "F", "1", "db"]):
            shutil.copytree("F", "kept")
            write("F/images.state", state)
            for read_by, out in ((["check", "F"], b"whole: "), (["show", "F", "1", "db"], b"a" * B), (["list", "F"], b"volume db")):
                got = self.run(*read_by)
                if got.returncode or not got.stdout.startswith(out) or (b"has no sums" in got.stderr) != (read_by[0] == "check") or read("F/images.state") != state:
                    sys.exit(f"without sums, {read_by}: {got.returncode} {got.stderr}")
            self.must(*words)
            files = {name.partition("/")[2]: data for name, data in files_below("F").items()}
            if plain.parts_of(files["images.state"])[2] != plain.sums_of(files["images.state"], (files["db.vol"], files["wal.vol"]), files["images.area"]):
                sys.exit(f"{words} gave other sums")
            shutil.rmtree("F")
            os.rename("kept", "F")
            self.tried += 1

    def missing(self):
        for name, status in (("db.vol", 6), ("images.area", 6), ("images.state", 3)):
            os.remove(f"F/{name}")
            got = self.run("cut", "F", "wal")
            if got.returncode != status or got.stdout:
                sys.exit(f"without {name}: {got.returncode} {got.stderr}")
            write(f"F/{name}", self.whole[name])
            self.tried += 1

    def modes(self):
        """Whatever the umask, a folder and its files are for their owner alone."""
        for mask in (0, 0o022, 0o077):
            before = os.umask(mask)
            self.must("create", "G", "3", "db=db", "wal=wal")
            self.must("cut", "G", "db")
            self.must("update", "G", "db=wal")
            os.umask(before)
            found = {name: os.stat(f"G/{name}").st_mode & 0o777 for name in ["", *os.listdir("G")]}
            if found.pop("") != 0o700 or len(found) < 4 or set(found.values()) != {0o600}:
                sys.exit(f"umask {mask:o}: {found}")
            shutil.rmtree("G")
            self.tried += 1

    def owners(self):
        """What a call of root makes in a folder of another user is that user's, who goes on with it."""
        self.must("create", "G", "3", "db=db")
        for name in ["G", *files_below("G")]:
            os.chown(name, 12345, 12346)
        for words in (["cut", "G", "db"], ["update", "G", "db=wal"], ["add", "G", "wal=wal"], ["grow", "G", "9"], ["revert", "G", "1", "db"]):
            self.must(*words)
            found = {(os.stat(name).st_uid, os.stat(name).st_gid) for name in files_below("G")}
            if found != {(12345, 12346)}:
                sys.exit(f"{words} of root left files of {found}")
            self.tried += 1
        shutil.rmtree("G")

    def links(self):
        """No link is followed: what it names is as it was."""
        for name in ("images.state.new", "images.open.new"):
            shutil.copytree("F", "kept")
            write("other", b"of another")
            os.symlink("../other", f"F/{name}")
            self.must("cut", "F", "db")
            if read("other") != b"of another" or os.path.lexists(f"F/{name}"):
                sys.exit(f"a link at {name} was followed")
            shutil.rmtree("F")
            os.rename("kept", "F")
            self.tried += 1
        for name in ("db.vol", "images.area", "images.state"):
            os.rename(f"F/{name}", "other")
            os.symlink("../other", f"F/{name}")
            for words in (["update", "F", "db=wal"], ["cut", "F", "db"], ["digest", "F", "db"], ["show", "F", "db"], ["check", "F"]):
                got = self.run(*words)
                if got.returncode != 9 or got.stdout or f"F/{name}: is no file\n".encode() not in got.stderr:
                    sys.exit(f"a link at {name}, {words}: {got.returncode} {got.stderr}")
                self.tried += 1
            os.remove(f"F/{name}")
            os.rename("other", f"F/{name}")

    def markers(self):
        """No marker that was cut off, or of which a bit is another, lets a volume in transit be shown; without a digest it is read as those of earlier programs."""
        self.must("create", "G", "3", "b=db", "db=db", "wal=wal")
        lines = b"update\nb\ndb\n"
        whole = b"sha256 " + hashlib.sha256(lines).hexdigest().encode() + b"\n" + lines
        spoilt = [whole[:at] for at in range(len(whole))]
        for data in (lines, whole):
            for at in range(len(data)):
                spoilt += [data[:at] + bytes([data[at] ^ 1 << bit]) + data[at + 1:] for bit in range(8)]
        all_of_it = [b"update\n", b"revert\n", b"cut\nb\n", b"update\nb\nx\n", b"", b"\xff", lines + bytes(9000)]
        kinds = {"b db": [lines, whole, *spoilt], "b db wal": all_of_it, "": [b"cut\n"], "wal": [b"revert\nwal\n"]}
        for hidden, markers in kinds.items():
            for data in markers:
                write("G/images.open", data)
                for name in hidden.split() if data in spoilt else ("b", "db", "wal"):
                    got = self.run("show", "G", name)
                    if got.returncode != (11 if name in hidden.split() else 0):
                        sys.exit(f"the marker {data}: {name} is shown with {got.returncode}, {got.stderr}")
                self.tried += 1
        shutil.rmtree("G")

    def in_use(self):
        """A folder that another process has is refused, but for its images; readers share it."""
        held = os.open("F", os.O_RDONLY)
        readers, images, cut = [["show", "F", "db"], ["check", "F"]], [["list", "F"], ["show", "F", "1", "db"]], ["cut", "F", "db"]
        beside = (fcntl.LOCK_EX, [*readers, cut], images), (fcntl.LOCK_SH, [cut, ["update", "F", "db=db"]], readers + images)
        for how, refused, allowed in beside:
            fcntl.flock(held, how)
            for words in refused + allowed:
                got, want = self.run(*words), 10 if words in refused else 0
                if got.returncode != want or want and got.stderr != b"images: F: in use by another process; ./images waits for it with --wait SECONDS before F\n":
                    sys.exit(f"{words} beside another: {got.returncode} {got.stderr}")
                self.tried += 1
            fcntl.flock(held, fcntl.LOCK_UN)
        os.close(held)
        self.shown_slowly()

    def shown_slowly(self):
        """While `show` waits for a reader, nothing is written."""
        out, into = os.pipe()
        fcntl.fcntl(into, getattr(fcntl, "F_SETPIPE_SZ", 1031), 4096)
        with subprocess.Popen([self.program, "show", "F", "db"], stdout=into) as shown:
            os.close(into)
            data = os.read(out, 1)
            got = self.run("cut", "F", "db")
            while part := os.read(out, 65536):
                data += part
        os.close(out)
        if got.returncode != 10 or shown.returncode or data != b"b" * B * 2:
            sys.exit(f"beside `show`: {got.returncode} {got.stderr}; it ended with {shown.returncode}")
        self.tried += 1


def main(program, room, step=1):
    damage = Damage(program, room, step)
    for part in ("state", "fields", "last_set", "sizes", "shorter", "lengths", "sums", "lost", "earlier", "missing", "modes", *["owners"] * (os.geteuid() == 0), "links", "markers", "in_use", "lists"):
        getattr(damage, part)()
    if {name.partition("/")[2]: data for name, data in files_below("F").items()} != damage.whole:
        sys.exit("the folder is another at the end")
    os.chdir("/")
    return f"{damage.tried} tries refused"
