"""A room for backups under load: the application, a folder of images, jobs, runs of the program, and how its versions are judged."""
import json
import os
import shutil
import sqlite3
import subprocess
import sys
import time

from common import ran, read, write

HERE = os.path.dirname(os.path.abspath(__file__))
HOOKS = os.path.join(HERE, "..", "..", "hooks")
VOLUMES = {"app": "app.db", "appwal": "app.db-wal", "stock": "stock.db", "stockwal": "stock.db-wal", "log": "app.log"}
BLOCKS = {"app": 700, "appwal": 1000, "stock": 16, "stockwal": 600, "log": 150}
LIMIT = 5000


class Wrong(Exception):
    pass


def document(name, digit, level, limit):
    component = {"name": "main", "selectable": True, "type": 1}
    return json.dumps({"class": f"{digit * 8}-1111-4111-8111-111111111111", "components": [component], "level": level, "name": name, "source": 1,
                       "usage": 3, "freeze_timeout": limit}, separators=(",", ":"))


class Room:
    def __init__(self, programs, path, slots=20000, blocks=None, keeps=False):
        self.backup, self.images, self.tools = programs
        self.path, self.count = path, 0
        if not keeps:
            shutil.rmtree(path, ignore_errors=True)
            os.makedirs(f"{path}/live")
        self.application = subprocess.Popen([sys.executable, f"{HERE}/application.py", f"{path}/live"], stdout=subprocess.PIPE, text=True)
        self.wait_for("the application", lambda: all(self.size(name) > 0 for name in VOLUMES.values()))
        self.create("store", slots, blocks or BLOCKS)

    def size(self, name):
        try:
            return os.path.getsize(f"{self.path}/live/{name}")
        except OSError:
            return 0

    def wait_for(self, what, test, seconds=60):
        until = time.monotonic() + seconds
        while not test():
            if time.monotonic() > until:
                raise Wrong(f"{what} does not come")
            time.sleep(0.01)

    def create(self, folder, slots, blocks):
        write(f"{self.path}/empty", b"")
        words = [f"{name}:{count}={self.path}/empty" for name, count in blocks.items()]
        subprocess.run([self.images, "create", f"{self.path}/{folder}", str(slots), *words], check=True)

    def hook(self, name):
        return f"{sys.executable} {HOOKS}/sqlite.py {self.path}/live/{name}.db"

    def job(self, hooks=None, limit=LIMIT, more=""):
        """Writes a job; hooks take the place of the ready ones."""
        self.count += 1
        path = f"{self.path}/job{self.count}"
        hooks = {"app": self.hook("app"), "stock": self.hook("stock"), **(hooks or {})}
        lines = ["job 1", *(f"volume {volume} {self.path}/live/{name} or-none" for volume, name in VOLUMES.items())]
        lines += [f"writer app {document('App', '1', 3, limit)}", f"writer stock {document('Stock', '2', 2, limit)}"]
        lines += ["files app main app appwal log", "files stock main stock stockwal"]
        lines += [f"hook {writer} {command}" for writer, command in hooks.items()]
        write(path, ("\n".join(lines) + f"\n{more}").encode())
        return path

    def start(self, job, folder="store", record=None, before=()):
        """Starts a backup, as `./backup` does; its lines go to a file."""
        self.count += 1
        said = open(f"{self.path}/said{self.count}", "w", encoding="utf-8")
        words = [*before, sys.executable, f"{HOOKS}/carry.py", self.backup, f"{self.path}/{folder}", job, *([record] if record else [])]
        process = subprocess.Popen(words, stdout=said, stderr=subprocess.STDOUT, start_new_session=True)
        process.said = said.name
        return process

    def said(self, process):
        return read(process.said).decode(errors="replace")

    def run(self, job, **more):
        """A whole backup, with a record that is judged: its status and its lines."""
        record = f"{self.path}/record{self.count}"
        process = self.start(job, record=record, **more)
        status = process.wait(timeout=120)
        if os.path.exists(f"{record}.report"):
            self.judge_record(record)
        return status, self.said(process)

    def judge_record(self, record):
        again = ran([self.tools, "orders", "again", f"{record}.scenario", f"{record}.report"])
        if again.returncode != 0:
            raise Wrong(f"{record} is no record: {again.stderr or again.stdout}")

    def sets(self, folder="store"):
        lines = ran([self.images, "list", f"{self.path}/{folder}"], check=True).stdout.decode().split("\n")
        return sorted({int(line.split()[1]) for line in lines if line.startswith("image ")})

    def judge(self, number, folder="store"):
        """Raises `Wrong` unless the version of a set is of one moment."""
        then = f"{self.path}/then"
        shutil.rmtree(then, ignore_errors=True)
        os.mkdir(then)
        for volume, name in VOLUMES.items():
            with open(f"{then}/{name}", "wb") as out:
                subprocess.run([self.images, "show", f"{self.path}/{folder}", str(number), volume], stdout=out, check=True)
        self.judge_files(number, then)

    def judge_files(self, number, then):
        """Raises `Wrong` unless the application's files in a folder are of one moment."""
        counts = {}
        for name in ("app.db", "stock.db"):
            connection = sqlite3.connect(f"{then}/{name}")
            told = connection.execute("PRAGMA integrity_check").fetchone()[0]
            counts[name] = connection.execute("SELECT n FROM counter").fetchone()[0]
            last = connection.execute("SELECT max(n) FROM entry").fetchone()[0] if name == "app.db" else counts[name]
            connection.close()
            if told != "ok" or last != counts[name]:
                raise Wrong(f"set {number}: {name}: {told}; it counts {counts[name]}, and its last row is {last}")
        lines = read(f"{then}/app.log").split(b"\n")
        if lines[-1] or int(lines[-2]) != counts["app.db"] or counts["app.db"] - counts["stock.db"] not in (0, 1):
            raise Wrong(f"set {number}: app.db {counts['app.db']}, stock.db {counts['stock.db']}, the log {lines[-2:]}")

    def runs_on(self):
        """That both databases can be written, and that the application makes steps."""
        for name in ("app", "stock"):
            connection = sqlite3.connect(f"{self.path}/live/{name}.db", isolation_level=None, timeout=20)
            connection.execute("BEGIN IMMEDIATE")
            connection.execute("ROLLBACK")
            connection.close()
        size = self.size("app.log")
        self.wait_for("a step of the application", lambda: self.size("app.log") > size, 20)

    def __enter__(self):
        return self

    def __exit__(self, *_):
        """Ends the application, which tells how many steps it made, and the longest."""
        write(f"{self.path}/live/stop", b"")
        steps, longest = self.application.communicate(timeout=60)[0].split()
        self.told = f"{steps} steps of the application, the longest {longest} ms"
