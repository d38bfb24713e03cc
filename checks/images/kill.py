"""Kills `images` at each call of the system that changes something, and sees that wrong bytes are never given as right ones.

Each scene is a folder that was made by some calls, and a call that is killed: before its Nth change, in the middle of it, or behind it, until it ends
by itself. Then each image that `show` gives has the bytes of its cut; one that is not there was deleted, reverted past, or evicted, and one that was
printed as evicted is not there; a volume that `show` gives is as before or as after; a call that does not bring all volumes in transit to other
contents is refused. Once all volumes are updated, all agree.
"""
import copy
import hashlib
import os
import shutil
import sys

import plain
from common import ran, read, write
from steps import bytes_of


# what makes the folder: files, and calls; behind `|` what the files become, and the call. A file is a block for each letter, and a tail
SCENES = dict(row.split(": ") for row in """\
update: db is abcd+end / wal is xy / create F 5 db=db wal:4=wal / cut F db wal / db is aBcd+end / update F db=db / cut F db
    / wal is xY+more / update F wal=wal / cut F wal db | db is ABCD+other / wal is Xyz / update F db=db wal=wal
update with room: db is abcd+end / wal is xy / create F 12 db=db wal:4=wal / cut F db wal / db is aBcd+end / update F db=db / cut F db
    | db is ABCD+other / wal is Xyz / update F wal=wal db=db
revert: db is abcd+end / wal is xy / create F 12 db=db wal:4=wal / cut F db wal / db is aBcd+end / update F db=db / cut F db
    / db is ABCd+longer / update F db=db / cut F db wal / db is 1234 / update F db=db | revert F 1 db
cut: db is ab / wal is x / create F 4 db=db wal:4=wal / cut F db wal / db is aB+end / update F db=db wal=wal | cut F wal db
delete: db is ab / wal is x / create F 6 db=db wal:4=wal / cut F db wal / db is AB+end / update F db=db / cut F db wal
    / db is CB / wal is y / update F wal=wal db=db | delete F 2
grow: db is abcd+end / wal is xy / create F 6 db=db wal:4=wal / cut F db wal / db is aBcd+end / update F db=db / cut F db
    / db is ABcd+longer / update F db=db | grow F 1100
grow a volume: db is ab+end / wal is +log / create F 8 db=db wal=wal / cut F db wal / db is aB+other / update F db=db / cut F db
    / db is aB+a third / update F db=db | grow F db=5
add: db is ab+end / wal is +log / new is n\0+ew / create F 4 db=db / cut F db / db is aB+other / update F db=db | add F new=new
remove: db is ab+end / wal is +log / create F 4 wal=wal db=db / cut F db wal / db is aB+other / wal is +more / update F db=db wal=wal | remove F wal
create: db is ab+end / wal is +short / empty is + | create F 6 db:4=db wal=wal empty=empty
""".replace("\n    ", " ").splitlines())


def step(text):
    """A file and its bytes, or the words of a call."""
    name, is_file, spec = text.partition(" is ")
    return (name, bytes_of(spec)) if is_file else text.split()


class Scene:
    """A scene that was made once, in a folder of its own."""

    def __init__(self, program, room, name, text=None):
        made, _, then = (part.split(" / ") for part in (text or SCENES[name]).partition(" | "))
        self.program, self.name, self.base, self.known = program, name, os.path.join(room, "base"), set()
        os.mkdir(self.base)
        self.before = plain.Plain({})
        for text in made:
            self.make(step(text))
        for text in then[:-1]:
            self.keep(*step(text))
        self.call = step(then[-1])
        self.after = copy.deepcopy(self.before)
        self.after.answer(self.call)

    def make(self, one):
        """Keeps a file, or makes a call."""
        if isinstance(one, tuple):
            self.keep(*one)
            return
        want, got = self.before.answer(one), self.run(self.base, one)
        if (want[0], want[1]) != (got.returncode, got.stdout):
            self.wrong("made", f"{one}: {got.returncode} {got.stdout} {got.stderr}")

    def keep(self, path, data):
        self.before.files[path] = data
        write(os.path.join(self.base, path), data)

    def run(self, folder, words, **more):
        return ran([self.program, *words], cwd=folder, env={**os.environ, **more})

    def wrong(self, place, what):
        sys.exit(f"{self.name}, {place}: {what}")

    def is_known(self, folder, *what):
        """Whether a folder of the same bytes was looked at so before: what it answers is known then."""
        found = [what] + [[at[len(folder):], sorted(folders), [[name, hashlib.sha256(read(os.path.join(at, name))).hexdigest()] for name in sorted(names)]]
                          for at, folders, names in sorted(os.walk(folder))]
        is_known = repr(found) in self.known
        self.known.add(repr(found))
        return is_known

    def look_at_all(self, folder, place, printed):
        """Looks at what a call left that did not come to its end, and mends it."""
        if self.is_known(folder, printed):
            return
        if self.call[0] == "create":
            self.look_at_new(folder, place)
        else:
            self.look(folder, place, printed)
            self.mend(folder, place)

    def stores(self):
        """The folder as it was before and after."""
        return [p.stores["F"] for p in (self.before, self.after) if "F" in p.stores]

    def images(self):
        """Each image that stood before or after, and its bytes."""
        return {(v.name, i.set): i.data for store in self.stores() for v in store.volumes for i in v.images}

    def may_miss(self, name, number):
        """Whether an image may be missing."""
        return any(v is None or v.image(number) is None for v in self.both(name))

    def both(self, name):
        """The volume of a name before and after, or None."""
        return [next((v for v in store.volumes if v.name == name), None) for store in self.stores()]

    def shown_image(self, folder, place, name, number, data):
        """Shows an image. Whether it is there, and then it has its bytes."""
        got = self.run(folder, ["show", "F", str(number), name])
        if got.returncode == 0 and got.stdout != data or got.returncode not in (0, 3):
            self.wrong(place, f"image {number} of {name}: {got.returncode} {got.stderr}")
        return got.returncode == 0

    def look(self, folder, place, printed):
        """Shows everything after a kill. The volumes that are in transit are answered."""
        torn = self.call[0] in ("update", "revert") and os.path.exists(os.path.join(folder, "F", "images.open"))
        for (name, number), data in self.images().items():
            is_there = self.shown_image(folder, place, name, number, data)
            if not is_there and not self.may_miss(name, number):
                self.wrong(place, f"image {number} of {name} is gone")
            if is_there and f"evicted set {number} {name}\n".encode() in printed:
                self.wrong(place, f"image {number} of {name} was printed as evicted, and is there")
        for name in {v.name for store in self.stores() for v in store.volumes}:
            got, both = self.run(folder, ["show", "F", name]), self.both(name)
            is_right = got.stdout in [v.data for v in both if v] if got.returncode == 0 else got.returncode == 11 and torn or got.returncode == 3 and None in both
            if not is_right:
                self.wrong(place, f"{name}: {got.returncode} {got.stderr}")
        self.look_at_calls(folder, place, torn, printed)

    def look_at_calls(self, folder, place, torn, printed):
        """Other calls are refused where volumes are in transit, and else answer as before or as after."""
        check = self.run(folder, ["check", "F"])
        if check.returncode != (11 if torn else 0) or check.stderr:
            self.wrong(place, f"check: {check.returncode} {check.stdout} {check.stderr}")
        listed = self.run(folder, ["list", "F"])
        if torn:
            if listed.returncode or not listed.stderr.startswith(b"images: F: left open by ") or listed.stdout.count(b" in transit\n") != check.stdout.count(b": in transit\n"):
                self.wrong(place, f"list: {listed.returncode} {listed.stdout} {listed.stderr}")
            words_of = [["cut", "F", "db"], ["delete", "F", "1"]]
            if len(self.call) == 4 and self.call[0] == "update":
                words_of += [["update", "F", "db=db"], ["revert", "F", "1", "db"]]
            for words in words_of:
                got = self.run(folder, words)
                if got.returncode != 11 or got.stdout:
                    self.wrong(place, f"{words}: {got.returncode} {got.stdout} {got.stderr}")
            return
        lists = [p.answer(["list", "F"])[1] for p in (self.before, self.after)]
        if listed.returncode != 0 or not printed and self.call[0] != "update" and listed.stdout not in lists:
            self.wrong(place, f"list: {listed.returncode} {listed.stdout} {listed.stderr}")

    def names(self):
        return [v.name for v in self.stores()[0].volumes if None not in self.both(v.name)]

    def look_at_files(self, folder, place):
        """Each volume has its file, and all is whole."""
        if self.is_known(folder, "files"):
            return
        for name in self.names():
            shown = self.run(folder, ["show", "F", name])
            if shown.returncode or shown.stdout != self.before.files[name]:
                self.wrong(place, f"{name} after an update: {shown.returncode} {shown.stderr}")
        checked = self.run(folder, ["check", "F"])
        if checked.returncode:
            self.wrong(place, f"check after an update: {checked.returncode} {checked.stderr}")
        listed = self.run(folder, ["list", "F"]).stdout.decode().split()
        if any(name.endswith(".vol") and name[:-4] not in listed for name in os.listdir(os.path.join(folder, "F"))):
            self.wrong(place, "the file of a volume that is none is left after an update")

    def mend(self, folder, place):
        """Updates all, and compares again."""
        got = self.run(folder, ["update", "F", *[f"{name}={name}" for name in self.names()]])
        if got.returncode:
            self.wrong(place, f"update: {got.returncode} {got.stderr}")
        if self.is_known(folder, "mended"):
            return
        self.look_at_files(folder, place)
        for (name, number), data in self.images().items():
            self.shown_image(folder, f"{place}, an update", name, number, data)

    def look_at_new(self, folder, place):
        """After a create that was killed: no folder at all, or a whole one; what is left of it is refused by name."""
        if os.path.exists(os.path.join(folder, "F")):
            self.look(folder, place, b"")
            return
        for words in (["list", "F"], ["show", "F", "db"], ["check", "F"], ["update", "F", "db=db"]):
            if self.run(folder, words).returncode != 3:
                self.wrong(place, f"{words}: not refused")
        if os.path.exists(os.path.join(folder, "F.new")):
            if self.run(folder, self.call).returncode != 3:
                self.wrong(place, "create beside F.new: not refused")
            shutil.rmtree(os.path.join(folder, "F.new"))
        if self.run(folder, self.call).returncode or self.run(folder, ["check", "F"]).returncode:
            self.wrong(place, "create again")

    def kill_at(self, room, library, number, how):
        """Kills the call at one place. False where it came to its end."""
        place = f"{number} {how}"
        folder = os.path.join(room, "killed")
        shutil.copytree(self.base, folder)
        got = self.run(folder, self.call, LD_PRELOAD=library, KILL_AT=str(number), **({how: "1"} if how else {}))
        if got.returncode != -9:
            if got.returncode:
                self.wrong(place, f"ended by itself: {got.returncode} {got.stderr}")
            shutil.rmtree(folder)
            return False
        self.look_at_all(folder, place, got.stdout)
        shutil.rmtree(folder)
        return True


def scenes(program, folder, texts=SCENES):
    """Yields each scene, with the folder that it has for itself."""
    for name, text in texts.items():
        room = os.path.join(folder, name.replace(" ", "_"))
        os.mkdir(room)
        yield Scene(program, room, name, text), room
        shutil.rmtree(room)


def main(program, library, folder, step=1):
    """Tries each so manyth place."""
    places = 0
    for scene, room in scenes(program, folder):
        for how in ("", "KILL_HALF", "KILL_AFTER"):
            number = 1
            while scene.kill_at(room, library, number, how):
                number += step
                places += 1
    if places * step < 600:
        sys.exit(f"killed at {places} places, and {600 // step} are wanted")
    return f"killed at {places} places"
