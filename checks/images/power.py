"""Takes the power away from `images` at each call of the system that changes something, on a model of a disk, and sees
that wrong bytes are never given as right ones.

Each scene of kill.py is run once, and what it changes is recorded. For each place in it folders are made of what a disk may have then: what was
synced, and of the rest nothing; or the names alone; or the contents alone; or drawn parts of both, twice. A file's contents are synced by a sync of
the file, and names by one of their folder. Of contents each 4,096 bytes may be there or not, of the names of a folder the first so many changes. Such
a folder is then as after a kill. And the call is killed at each place, or one of its syncs fails: then what was written before that is in memory, and
never comes to the disk by itself. All volumes are updated, and the power goes: they have their files.
"""
import copy
import os
import random
import shutil

from common import read, write
from kill import scenes

PIECE = 4096


class File:
    """The contents that were synced, the changes since that a sync brings there, sizes and pieces, and what a read gives."""

    def __init__(self, data=b""):
        self.synced, self.changes, self.read = bytearray(data), [], bytearray(data)

    def add(self, size, piece):
        self.changes.append((size, piece))
        self.change(self.read, size, piece)

    @staticmethod
    def change(data, size, piece):
        end = size + len(piece or b"")
        data.extend(bytes(max(0, end - len(data))))
        if piece is None:
            del data[size:]
        else:
            data[size:end] = piece

    def sync(self):
        self.synced, self.changes = self.after(lambda _: True), []

    def fail(self):
        """A sync that fails: no later one writes what was to be synced."""
        self.changes = []

    def after(self, keeps):
        """What is there where these of the changes were kept, or what a read gives."""
        if keeps is None:
            return self.read
        data = bytearray(self.synced)
        for size, piece in self.changes:
            if keeps("contents"):
                self.change(data, size, piece)
        return data


class Folder:
    """The names that were synced, those of now, and the changes between: a name, and what it gets or loses."""

    def __init__(self):
        self.synced, self.now, self.changes = {}, {}, []

    def set(self, *names):
        """Gives things names; None takes one away."""
        self.changes.append(names)
        self.apply(self.now, names)

    @staticmethod
    def apply(entries, names):
        for name, thing in names:
            if thing is None:
                entries.pop(name, None)
            else:
                entries[name] = thing

    def sync(self):
        self.synced, self.changes = dict(self.now), []

    def fail(self):
        """A sync of names that fails does not lose them."""

    def after(self, keeps):
        if keeps is None:
            return self.now
        entries = dict(self.synced)
        for names in self.changes:
            if not keeps("names"):
                break
            self.apply(entries, names)
        return entries


def disk_of(path):
    """A folder and all below it, synced."""
    folder = Folder()
    for name in os.listdir(path):
        at = os.path.join(path, name)
        folder.now[name] = disk_of(at) if os.path.isdir(at) else File(read(at))
    folder.sync()
    return folder


class Disk:
    """A model of a disk on which the calls of a record are made."""

    def __init__(self, base):
        self.base, self.top, self.printed = base, disk_of(base), b""

    def found(self, path):
        """The folder of a path, and the name there."""
        *folders, name = os.path.relpath(os.path.join(self.base, path), self.base).split("/")
        folder = self.top
        for one in folders:
            folder = folder.now[one]
        return folder, name

    def do(self, call, path, number, data):
        """Makes a call."""
        if call == "print":
            self.printed += data
            return
        folder, name = self.found(path)
        thing = folder if name == "." else folder.now.get(name)
        if call == "sync":
            thing.sync()
        elif call == "fail":
            thing.fail()
        elif call == "write":
            for at in range(0, len(data), PIECE):
                thing.add(int(number) + at, data[at:at + PIECE])
        elif call == "size":
            thing.add(int(number), None)
        elif call == "move":
            folder.set((name, None), (self.found(number)[1], thing))
        elif call == "unlink":
            folder.set((name, None))
        elif call == "mkdir":
            folder.set((name, Folder()))
        elif thing is None:
            folder.set((name, File()))
        elif number == "1":
            thing.add(0, None)

    def make(self, path, keeps, folder=None):
        """Makes what is there after a loss of power, or where it keeps None, what there is before it."""
        os.mkdir(path)
        for name, thing in (folder or self.top).after(keeps).items():
            at = os.path.join(path, name)
            if isinstance(thing, Folder):
                self.make(at, keeps, thing)
            else:
                write(at, thing.after(keeps))


def calls_of(record):
    """The calls of a record, which goes."""
    with open(record, "rb") as file:
        while line := file.readline():
            call, path, number, size = line.decode().rstrip("\n").split("\t")
            yield call, path, number, file.read(int(size)) if call in ("write", "print") else b""
    os.remove(record)


class Losing:
    """A scene whose power goes."""

    def __init__(self, scene, room, library):
        self.scene, self.library, self.tried = scene, library, 0
        self.folder, self.record = os.path.join(room, "folder"), os.path.join(room, "record")

    def after_losses(self, disk, place, number):
        """Yields each way in which the power may go here, with its folder."""
        draw = random.Random(f"{self.scene.name} {number}")
        ways = {"nothing": lambda _: False, "names": lambda what: what == "names", "contents": lambda what: what == "contents"}
        for way, keeps in {**ways, **{f"drawn {turn}": lambda _: draw.random() < 0.5 for turn in range(2)}}.items():
            disk.make(self.folder, keeps)
            yield f"{place}, {way}"
            shutil.rmtree(self.folder)
            self.tried += 1

    def lose(self, disk, place, number):
        """Looks at each folder that a loss of power may leave here."""
        for at in self.after_losses(disk, place, number):
            self.scene.look_at_all(self.folder, at, disk.printed)

    def made(self, disk, words, **how):
        """Makes a call in its folder and then on this disk. Returns how it ended, and the calls."""
        disk.base = self.folder
        got = self.scene.run(self.folder, words, LD_PRELOAD=self.library, RECORD=self.record, **how)
        shutil.rmtree(self.folder)
        return got, list(calls_of(self.record))

    def repair(self, disk, place):
        """Updates all volumes on this disk, and takes the power away then: they have their files."""
        disk = copy.deepcopy(disk)
        disk.make(self.folder, None)
        got, calls = self.made(disk, ["update", "F", *[f"{name}={name}" for name in self.scene.names()]])
        if got.returncode:
            self.scene.wrong(place, f"update: {got.returncode} {got.stderr}")
        for call in calls:
            disk.do(*call)
        for at in self.after_losses(disk, f"{place}, an update, and a loss of power", place):
            self.scene.look_at_files(self.folder, at)

    def fail_each(self, step):
        """Lets each sync of the call fail, and repairs."""
        number = 1
        while True:
            shutil.copytree(self.scene.base, self.folder)
            disk = Disk(self.folder)
            numbers = {"FAIL_CALL": "sync", "FAIL_FIRST": str(number), "FAIL_LAST": str(number)}
            got, calls = self.made(disk, self.scene.call, **numbers)
            if not any(call[0] == "fail" for call in calls):
                return
            for call in calls:
                disk.do(*call)
            if got.returncode != 6:
                self.scene.wrong(f"sync {number} fails", f"{got.returncode} {got.stderr}")
            self.repair(disk, f"sync {number} failed")
            number += (step + 2) // 3

    def lose_at_each(self, step):
        """Takes the power away at each so manyth place."""
        scene, is_new = self.scene, self.scene.call[0] == "create"
        shutil.copytree(scene.base, self.folder)
        disk = Disk(self.folder)
        got, calls = self.made(disk, scene.call)
        if got.returncode:
            scene.wrong("the whole run", got.stderr)
        self.lose(disk, "before all", 0)
        for number, (call, path, more, data) in enumerate(calls, 1):
            disk.do(call, path, more, data)
            if call == "unlink" or call != "print" and number % step == 0:
                place = f"after call {number}, {call} {os.path.basename(path)}"
                self.lose(disk, place, number)
                if not is_new:
                    self.repair(disk, place)
        if not is_new:
            self.fail_each(step)
        disk.make(self.folder, lambda _: False)
        if scene.run(self.folder, ["list", "F"]).stdout != scene.after.answer(["list", "F"])[1]:
            scene.wrong("the end", "done, and not all of it lasts")


def main(program, library, folder, step=1):
    """Tries each so manyth place."""
    tried = 0
    for scene, room in scenes(program, folder):
        losing = Losing(scene, room, library)
        losing.lose_at_each(step)
        tried += losing.tried
    return f"{tried} folders after a loss of power"
