"""Backups of a file system of its own, which `fsfreeze` holds still.

The volume is the file of a loop device. On the file system are the application and, where its package is there, a PostgreSQL server, and both
write all the time. Each version is mounted: the file system is whole, the databases are of one moment, the server starts on it, and what it had
confirmed before the freeze is there. Where the machine lets nobody mount, it says so.
"""
import os
import shutil
import subprocess
import sys
import time

from common import write
from room import HOOKS, Room, Wrong, document

BLOCKS = 12000
USER = "nobody"


def call(*words, **more):
    return subprocess.run(words, check=True, capture_output=True, text=True, **more).stdout


def unmount(place):
    """Unmounts a file system, once the last process of a server that was stopped there has ended."""
    for _try in range(300):
        if subprocess.run(["umount", place], capture_output=True).returncode == 0:
            return
        time.sleep(0.1)
    call("umount", place)


class Server:
    """A PostgreSQL server of its own, whose clients use a socket in a folder."""

    def __init__(self, data, room):
        self.data, self.room = data, room
        self.tools = os.path.dirname(os.path.realpath(shutil.which("initdb")))

    def tool(self, name, *words):
        return call("runuser", "-u", USER, "--", f"{self.tools}/{name}", *words, cwd="/")

    def start(self):
        os.makedirs(self.room, exist_ok=True)
        shutil.chown(self.room, USER)
        self.tool("pg_ctl", "-D", self.data, "-w", "-l", f"{self.room}/log", "-o", f"-k {self.room} -c listen_addresses=''", "start")

    def stop(self):
        self.tool("pg_ctl", "-D", self.data, "-m", "immediate", "stop")

    def ask(self, text):
        return self.tool("psql", "-h", self.room, "-U", USER, "-d", "postgres", "-At", "-c", text).strip()


class Client:
    """Adds rows to two tables in one transaction each, and knows what was confirmed."""

    def __init__(self, server):
        words = ["runuser", "-u", USER, "--", f"{server.tools}/psql", "-h", server.room, "-U", USER, "-d", "postgres", "-At", "-q"]
        self.process = subprocess.Popen(words, stdin=subprocess.PIPE, stdout=subprocess.PIPE, text=True, cwd="/")
        self.sent, self.confirmed = 0, 0

    def step(self):
        self.sent += 1
        self.process.stdin.write(f"BEGIN; INSERT INTO a VALUES ({self.sent}); INSERT INTO b VALUES ({self.sent}); COMMIT;\n\\echo {self.sent}\n")
        self.process.stdin.flush()
        self.confirmed = int(self.process.stdout.readline())

    def end(self):
        self.process.stdin.close()
        self.process.wait()


class NoMount(Exception):
    """Nothing can be mounted here."""


class Mounted(Room):
    """A room whose application lies on a file system of its own."""

    server = client = None

    def __init__(self, programs, path):
        self.path, self.mount = path, f"{path}/live"
        os.makedirs(self.mount)
        with open(f"{path}/disk", "wb") as disk:
            disk.truncate((BLOCKS - 1) * 16384)
        call("mkfs.ext4", "-q", "-F", f"{path}/disk")
        if subprocess.run(["mount", "-o", "loop", f"{path}/disk", self.mount], capture_output=True).returncode != 0:
            raise NoMount
        os.chmod(self.mount, 0o755)
        super().__init__(programs, path, keeps=True, blocks={"disk": BLOCKS})

    def mounted_job(self):
        self.count += 1
        job = f"{self.path}/job{self.count}"
        hook = f"{sys.executable} {HOOKS}/commands.py --freeze 'fsfreeze -f {self.mount}' --thaw 'fsfreeze -u {self.mount}'"
        writer = f"writer files {document('Files', '3', 1, 20000)}\nfiles files main disk\nhook files {hook}\n"
        write(job, f"job 1\nvolume disk {self.path}/disk\n{writer}".encode())
        return job

    def begin_server(self):
        server = Server(f"{self.mount}/pg", f"{self.path}/pg")
        os.mkdir(server.data, 0o700)
        shutil.chown(server.data, USER)
        server.tool("initdb", "-D", server.data, "-A", "trust", "-E", "UTF8", "-N")
        server.start()
        server.ask("CREATE TABLE a (n int PRIMARY KEY); CREATE TABLE b (n int PRIMARY KEY)")
        self.server, self.client = server, Client(server)

    def __exit__(self, *how):
        super().__exit__(*how)
        if self.client:
            self.client.end()
            self.server.stop()
        unmount(self.mount)

    def judge_mounted(self, number, client, confirmed):
        """The version of a set, mounted."""
        disk, then = f"{self.path}/then.disk", f"{self.path}/then.mount"
        with open(disk, "wb") as out:
            subprocess.run([self.images, "show", f"{self.path}/store", str(number), "disk"], stdout=out, check=True)
        if subprocess.run(["e2fsck", "-f", "-n", disk], capture_output=True).returncode != 0:
            raise Wrong(f"set {number}: the file system is not whole")
        os.makedirs(then, exist_ok=True)
        call("mount", "-o", "loop", disk, then)
        try:
            self.judge_files(number, then)
            if client:
                self.judge_server(number, f"{then}/pg", client, confirmed)
        finally:
            unmount(then)

    def judge_server(self, number, data, client, confirmed):
        server = Server(data, f"{self.path}/pg.then")
        os.remove(f"{data}/postmaster.pid")
        server.start()
        try:
            a, b = (server.ask(f"SELECT count(*), max(n) FROM {table}") for table in "ab")
        finally:
            server.stop()
        if a != b or len(set(a.split("|"))) != 1 or not confirmed <= int(a.split("|")[0]) <= client.sent:
            raise Wrong(f"set {number}: tables {a} and {b}; {confirmed} were confirmed before, {client.sent} were sent")


def back_up(room, client, number):
    process, confirmed = room.start(room.mounted_job(), record=f"{room.path}/record{number}"), client.confirmed if client else 0
    while process.poll() is None:
        if client:
            client.step()
        else:
            time.sleep(0.01)
    if process.returncode != 0:
        raise Wrong(f"backup {number}: status {process.returncode}:\n{room.said(process)}")
    room.judge_record(f"{room.path}/record{number}")
    return confirmed


def main(programs, path, count):
    try:
        mounted = Mounted(programs, path)
    except NoMount:
        return "nothing can be mounted here"
    with mounted as room:
        if shutil.which("initdb") and shutil.which("runuser"):
            room.begin_server()
            for _step in range(100):
                room.client.step()
        for number in range(1, count + 1):
            room.judge_mounted(number, room.client, back_up(room, room.client, number))
    what = f"{room.client.sent} transactions of a PostgreSQL server" if room.client else "no PostgreSQL server is here"
    return f"{count} of {count} versions of a file system are whole and of one moment; {room.told}; {what}"
