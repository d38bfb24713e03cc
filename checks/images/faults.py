"""Real faults under `images`: files that change while they are read, disks without room, folders without rights, paths
that are something else, and limits of the system.

Disks of a few blocks are made, and other users taken, where it runs as root; what can't be made is left out, and said.
Held of each run: its status and its one line; a call that is refused before its first change leaves all files as they
were; and after each other one the folder is as after a kill.
"""
import os
import re
import resource
import shutil
import subprocess
import sys

from common import files_below, limited, ran, read
from kill import SCENES, Scene

NOBODY = 65534
WRITING = [["update", "F", "db=db"], ["cut", "F", "db"], ["delete", "F", "1"], ["revert", "F", "1", "db"]]
READING = [["list", "F"], ["show", "F", "db"], ["show", "F", "1", "db"], ["check", "F"]]
TORN = re.compile(rb"images: db: changed while it was read: \d+ bytes and then \d+.*; stop or freeze .*'begin immediate'")


class Faults:
    def __init__(self, program, library, room):
        self.program, self.library, self.room, self.counts = program, library, room, {}

    def scene(self, name):
        """A scene, made anew."""
        room = os.path.join(self.room, "scene")
        shutil.rmtree(room, ignore_errors=True)
        os.mkdir(room)
        return Scene(self.program, room, name)

    def count(self, row, status):
        self.counts.setdefault(row, {}).setdefault(status, 0)
        self.counts[row][status] += 1

    def ended(self, scene, place, row, got, statuses):
        """Looks at how a run ended."""
        told = got.stderr.splitlines()
        if got.returncode not in statuses or len(told) != (got.returncode not in (0, 7)) or not all(line.startswith(b"images: ") for line in told):
            scene.wrong(f"{row}, {place}", f"{got.returncode} {got.stdout} {got.stderr}")
        self.count(row, got.returncode)

    def changing(self):
        """A file that is cut, grows or gets another byte before each read of a block."""
        for name in ("update", "update with room", "create"):
            scene = self.scene(name)
            for size in (20001, 0, 66001, 66000, -1):
                number = 1
                while self.change(scene, number, size):
                    number += 1

    def change(self, scene, number, size):
        """Changes the file before one read. False where there were not so many."""
        place, folder, first = f"db to {size} at {number}", os.path.join(self.room, "changed"), scene.before.files["db"]
        shutil.copytree(scene.base, folder)
        path = os.path.join(folder, "db")
        changed = b"?" + first[1:] if size < 0 else first[:size] + bytes(max(0, size - len(first)))
        once = [scene.call[0], "--tries", "1", *scene.call[1:]]
        got = scene.run(folder, once if size % 2 else scene.call, LD_PRELOAD=self.library, CHANGE_AT=str(number), CHANGE_FILE=path, CHANGE_SIZE=str(size))
        came = read(path) != first
        # (a file that outgrew its volume before it was opened is refused)
        self.ended(scene, place, "a file that changes", got, (0, 12, 3) if size > len(first) else (0, 12))
        if got.returncode == 12 and not TORN.search(got.stderr):
            scene.wrong(place, got.stderr)
        if scene.call[0] == "create":
            if got.returncode and sorted(os.listdir(folder)) != sorted(os.listdir(scene.base)):
                scene.wrong(place, f"left {os.listdir(folder)}")
        elif got.returncode and b"in transit" not in got.stderr and not got.stdout:
            before = files_below(os.path.join(scene.base, "F"))
            for name, data in files_below(os.path.join(folder, "F")).items():
                if name.endswith((".vol", ".open")) and before.get(name.replace(folder, scene.base)) != data:
                    scene.wrong(place, "refused, and a volume or the marker is another")
        if got.returncode == 0:
            shown = scene.run(folder, ["show", "F", "db"])
            if shown.stdout not in (first, changed):
                scene.wrong(place, f"done, and db is another: {shown.returncode} {shown.stderr}")
        if scene.call[0] != "create":
            shutil.copy(os.path.join(scene.base, "db"), path)
            scene.mend(folder, place)
        shutil.rmtree(folder)
        return came

    def disks(self):
        """Disks with so little room that the call comes to its end, or not."""
        if os.geteuid() != 0:
            print("disks without room are left out, since they take root")
            return
        folder = os.path.join(self.room, "disk")
        os.mkdir(folder)
        for name in SCENES:
            scene = self.scene(name)
            base = sum(os.stat(os.path.join(at, one)).st_blocks for at, _, names in os.walk(scene.base) for one in names) // 8
            for more in range(1, 60):
                if subprocess.run(["mount", "-t", "tmpfs", "-o", "size=64M", "none", folder], check=False, capture_output=True).returncode:
                    print("disks without room are left out, since none can be mounted")
                    return
                try:
                    done = self.on_disk(scene, folder, base + more)
                finally:
                    subprocess.run(["umount", folder], check=True)
                if done:
                    break

    def on_disk(self, scene, folder, pages):
        """A call on a disk of so many pages. Whether it was done."""
        place, room = f"{pages} pages", os.path.join(folder, "room")
        shutil.copytree(scene.base, room)
        subprocess.run(["cp", "-r", "--sparse=always", scene.base + "/.", room], check=True)
        used = os.statvfs(folder).f_blocks - os.statvfs(folder).f_bfree
        subprocess.run(["mount", "-o", f"remount,size={4096 * max(pages, used)}", folder], check=True)
        got = scene.run(room, scene.call)
        self.ended(scene, place, "a disk without room", got, (0, 6))
        if got.returncode and b"No space left on device" not in got.stderr:
            scene.wrong(place, got.stderr)
        if scene.call[0] == "create" and got.returncode and sorted(os.listdir(room)) != sorted(os.listdir(scene.base)):
            scene.wrong(place, f"left {os.listdir(room)}")
        subprocess.run(["mount", "-o", "remount,size=64M", folder], check=True)
        if scene.call[0] != "create":
            scene.look(room, place, got.stdout)
            scene.mend(room, place)
        return got.returncode == 0

    def refused(self, folder, row, words, statuses, told, **how):
        """A call that is refused, with a line that has this in it, and changes nothing. A list has what there is beside a volume that is lost."""
        before = files_below(folder)
        got = ran([self.program, *words], cwd=folder, **how)
        is_one = got.stderr.count(b"\n") == 1 or words[0] == "check"
        if got.returncode not in statuses or told not in got.stderr or not is_one or got.stdout and words[0] != "list":
            sys.exit(f"{row}: {words}: {got.returncode} {got.stdout[:100]} {got.stderr}, wanted {statuses} {told}")
        if files_below(folder) != before:
            sys.exit(f"{row}: {words}: something was changed")
        self.count(row, got.returncode)

    def rights(self):
        """As nobody: a folder that may be read alone, one that may not, and a file."""
        if os.geteuid() != 0:
            print("other users are left out, since they take root")
            return
        base = self.scene("revert").base
        others, how = os.path.join(base, "F"), {"user": NOBODY, "group": NOBODY, "extra_groups": []}
        os.chmod(others, 0o755)
        for name in os.listdir(others):
            os.chmod(os.path.join(others, name), 0o644)
        at = base
        while at != "/":
            os.chmod(at, os.stat(at).st_mode | 0o055)
            at = os.path.dirname(at)
        for words in WRITING:
            self.refused(base, "no right to write", words, (6,), b"could not be opened: Permission denied", **how)
        for words in READING:
            if ran([self.program, *words], cwd=base, **how).returncode:
                sys.exit(f"{words}: refused to one who may read")
            self.count("no right to write", 0)
        denied, new = b": Permission denied", ["create", "G", "4", "db=db"]
        self.refused(base, "no right to write", new, (6,), b"G.new: could not be created" + denied, **how)
        os.chmod(os.path.join(others, "images.state"), 0)
        for words in WRITING + READING:
            self.refused(base, "no right to read the state", words, (6,), b"images.state: could not be read" + denied, **how)
        os.chmod(others, 0o600)
        for words in WRITING + READING:
            self.refused(base, "no right to enter", words, (3,), b"F: no folder of images (", **how)
        os.chmod(others, 0o755)
        os.chmod(os.path.join(base, "db"), 0)
        os.chmod(os.path.join(others, "images.state"), 0o644)
        for name in os.listdir(others):
            os.chown(os.path.join(others, name), NOBODY, NOBODY)
        self.refused(base, "no right to read the file", WRITING[0], (4,), b"db: could not be read" + denied, **how)

    def others(self):
        """Something else where a file or a folder has to be."""
        base = self.scene("revert").base
        os.mkfifo(os.path.join(base, "pipe"))
        os.symlink("F", os.path.join(base, "link"))
        os.symlink("none", os.path.join(base, "broken"))
        none, missing, not_folder = b"is no file", b"could not be read: No such file", b"could not be read: Not a directory"
        for name, told in (("pipe", none), ("/dev/zero", none), ("F", b"F: is no file, but a directory"), ("broken", missing), ("db/x", not_folder)):
            self.refused(base, "something else as the file", ["update", "F", f"db={name}"], (4,), told)
            self.refused(base, "something else as the file", ["create", "G", "4", f"db={name}"], (4,), told)
        for name in ("F/db.vol", "F/images.area", "F/images.state", "F/images.together"):
            told, words = f"{name}: is a file of F".encode(), ["update", "F", f"wal={name}"]
            self.refused(base, "a file of the folder as the file", words, (3,), told)
        for name in ("db", "pipe", "broken", "none", "/dev/null", "F/F"):
            for words in WRITING + READING:
                told, words = f"{name}: no folder of images (".encode(), [words[0], name, *words[2:]]
                self.refused(base, "something else as the folder", words, (3,), told)
        for name in ("F", "db", "pipe", "link", "broken", "F/"):
            words = ["create", name, "4", "db=db"]
            self.refused(base, "something else as the new folder", words, (3,), b": is there already")
        words, told = ["create", "none/G", "4", "db=db"], b"none/G.new: could not be created: No such file"
        self.refused(base, "something else as the new folder", words, (6,), told)
        if ran([self.program, "list", "link"], cwd=base).returncode:
            sys.exit("a link to the folder is refused")
        for name in ("db.vol", "images.area", "images.state"):
            # an image that lies in slots alone is shown without its volume
            reading = [words for words in READING if name != "db.vol" or words[0] != "show" or len(words) == 3]
            path = os.path.join(base, "F", name)
            os.rename(path, path + ".kept")
            for make, remove in ((os.mkdir, os.rmdir), (os.mkfifo, os.remove), (lambda at: os.symlink("none", at), os.remove)):
                make(path)
                for words in WRITING + reading:
                    self.refused(base, "something else in the folder", words, (6, 9), name.encode())
                remove(path)
            os.rename(path + ".kept", path)

    def limits(self):
        """Files that may not grow, and few open files."""
        for name in SCENES:
            scene = self.scene(name)
            for size in (0, 100, 16384, 40000, 60000, 80000, 200000):
                folder = os.path.join(self.room, "limited")
                shutil.copytree(scene.base, folder)
                got = ran([self.program, *scene.call], cwd=folder, preexec_fn=limited(resource.RLIMIT_FSIZE, size))
                self.ended(scene, f"{size} bytes", "files that may not grow", got, (0, 6))
                scene.look_at_all(folder, f"{size} bytes", got.stdout)
                shutil.rmtree(folder)
        base = self.scene("revert").base
        for files in range(4, 7):
            for words in WRITING + READING:
                few = limited(resource.RLIMIT_NOFILE, files)
                self.refused(base, "few open files", words, (3, 4, 6), b"Too many open files", preexec_fn=few)


def main(program, library, folder):
    faults = Faults(program, library, folder)
    for part in (faults.others, faults.rights, faults.limits, faults.disks, faults.changing):
        part()
    for row, counts in faults.counts.items():
        told = ", ".join(f"{status}: {count}" for status, count in sorted(counts.items()))
        print(f"{row}: {sum(counts.values())} runs, {told}")
    return f"{sum(sum(it.values()) for it in faults.counts.values())} runs with real faults"
