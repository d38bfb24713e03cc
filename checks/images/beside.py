"""Reads beside a call that writes. The call is stopped before its Nth change, as kill.py kills it, and words are tried:
each image that is shown has its bytes, what `diff` does not name is the same, and what changes is refused. Then it goes
on, while a `show` is half done: that ends with 0 and the right bytes, or with 12."""
import os
import re
import select
import shutil
import signal
import subprocess
import sys

import kill
from common import read

B = kill.plain.BLOCK
# each scene but `create`
SCENES = {name: text for name, text in kill.SCENES.items() if name != "create"}
CHANGING = re.compile(rb"(volume \S+ blocks \d+) (length \d+|absent)")


class Stopped:
    """A folder with a call that is stopped before a change; `is_there` is false if it came to its end before."""

    def __init__(self, scene, folder, library, number):
        self.scene, self.folder, self.place = scene, folder, f"stopped before {number}"
        env = {**os.environ, "LD_PRELOAD": library, "KILL_AT": str(number), "KILL_STOP": "1"}
        self.process = subprocess.Popen([scene.program, *scene.call], cwd=folder, env=env, stdout=subprocess.DEVNULL, stderr=subprocess.DEVNULL)
        status = os.waitpid(self.process.pid, os.WUNTRACED)[1]
        self.is_there = os.WIFSTOPPED(status)
        if not self.is_there:
            self.process.returncode = os.waitstatus_to_exitcode(status)

    def go_on(self):
        if self.is_there:
            self.process.send_signal(signal.SIGCONT)
        if self.process.wait():
            self.wrong(f"the call ended with {self.process.returncode}")

    def wrong(self, what):
        self.process.kill()
        self.scene.wrong(self.place, what)

    def run(self, statuses, *words):
        got = self.scene.run(self.folder, words)
        if got.returncode not in statuses or (got.returncode and got.stdout):
            self.wrong(f"{words}: {got.returncode} {got.stdout[:80]} {got.stderr}")
        return got

    def image(self, name, number, data):
        """An image by show and by restore. Whether it is there."""
        statuses = (0, 3) if self.scene.may_miss(name, number) else (0,)
        shown = self.run(statuses, "show", "F", str(number), name)
        restored = self.run((shown.returncode,), "restore", "F", str(number), name, "out")
        if shown.returncode:
            return False
        if shown.stdout != data or read(f"{self.folder}/out") != data or restored.stderr:
            self.wrong(f"image {number} of {name} is another")
        os.remove(f"{self.folder}/out")
        return True

    def look(self):
        """All words beside it. How many images were shown."""
        images = {key: data for key, data in self.scene.images().items() if self.image(*key, data)}
        for name, number in images:
            for other_name, other in images:
                if name == other_name:
                    self.diff(name, (number, images[name, number]), (other, images[name, other]))
        listed = self.run((0,), "list", "F").stdout
        self.run((0,), "list", "--json", "F")
        self.run((0,), "sets", "F")
        wanted = [CHANGING.sub(rb"\1 changing", p.answer(["list", "F"])[1]) for p in (self.scene.before, self.scene.after)]
        counts = {text.count(b" changing\n") for text in wanted}
        if len(CHANGING.findall(listed)) or listed.count(b" changing\n") not in counts or self.scene.call[0] in ("cut", "delete") and listed not in wanted:
            self.wrong(f"list: {listed}")
        for words in (["show", "F", "db"], ["digest", "F", "db"], ["restore", "F", "db", "out"], ["check", "F"], ["update", "F", "db=db"], ["cut", "F", "db"]):
            self.run((10,), *words)
        return len(images)

    def diff(self, name, one, other):
        said = self.run((0,), "diff", "F", str(one[0]), str(other[0]), name).stdout.decode().strip()
        runs = re.findall(r"(\d+)(?:-(\d+))?[,\n]", said.partition(": ")[2] + "\n")
        named = {block for first, last in runs for block in range(int(first), int(last or first) + 1)}
        size = max(len(one[1]), len(other[1]))
        if any(one[1][at:at + B] != other[1][at:at + B] and at // B not in named for at in range(0, size - size % B, B)):
            self.wrong(f"{said} between {one[0]} and {other[0]}")

    def half_shown(self, name, number):
        """A `show` of an image that has begun to write. Its process."""
        shown = subprocess.Popen([self.scene.program, "show", "F", str(number), name], cwd=self.folder, stdout=subprocess.PIPE, stderr=subprocess.PIPE, pipesize=4096)
        select.select([shown.stdout], [], [])
        return shown

    def end_shown(self, shown, data):
        """Lets it go on. Its status."""
        out, told = shown.communicate()
        is_right = out == data if shown.returncode == 0 else data.startswith(out) or shown.returncode == 12
        if shown.returncode not in (0, 3, 12) or not is_right or (shown.returncode == 12) != (b"try again" in told):
            self.wrong(f"half shown: {shown.returncode} {told} {len(out)} bytes")
        return shown.returncode


def stop_at(scene, room, library, number, found):
    """Stops the call at one place. False where it came to its end."""
    folder = os.path.join(room, "stopped")
    shutil.copytree(scene.base, folder)
    stopped = Stopped(scene, folder, library, number)
    if stopped.is_there:
        found["images"] += stopped.look()
        shown = {key: stopped.half_shown(*key) for key in scene.images()}
        stopped.go_on()
        for key, process in shown.items():
            found[stopped.end_shown(process, scene.images()[key])] += 1
        scene.look(folder, stopped.place, b"")
    shutil.rmtree(folder)
    return stopped.is_there


def main(program, library, room, step):
    places, found = 0, {"images": 0, 0: 0, 3: 0, 12: 0}
    for scene, own in kill.scenes(program, room, SCENES):
        number = 1
        while stop_at(scene, own, library, number, found):
            number, places = number + step, places + 1
    if places * step < 150 or min(found.values()) == 0:
        sys.exit(f"stopped at {places} places: {found}")
    return f"read beside calls stopped at {places} places: {found['images']} images, of {found[0] + found[12]} half shown {found[12]} refused"
