#!/usr/bin/env python3
"""The hook of a SQLite database: sqlite.py DATABASE [SECONDS]; or a job for it: sqlite.py --job DATABASE

While it is frozen nobody can commit: it holds the write lock, by BEGIN IMMEDIATE. Nobody can bring frames of the log into the database either:
it holds the lock by which SQLite lets one connection at a time do so. Before, it has brought in those that no reader still keeps in the log. So
the database and its log stand still, and belong together. It says ok to `thaw` only if it held the lock to then. It waits at most SECONDS for
the write lock, 30 without the word.

With --job it writes a job that backs up the database and its log as the volumes `db` and `log`.
"""
import fcntl
import os
import pathlib
import shlex
import sqlite3
import struct
import sys
import time

from hook import Refused, serve

# How long a freeze waits for a checkpoint of another connection, in seconds.
CHECKPOINT = 1

# The byte of DATABASE-shm by whose lock SQLite keeps checkpoints apart ("WAL-mode File Format", 2.3.1).
CHECKPOINTER = 121

# What is backed up of one database: its metadata document.
DOCUMENT = ('{"class":"11111111-1111-4111-8111-111111111111","components":[{"name":"main","selectable":true,"type":1}],"level":2,"name":"SQLite",'
            '"source":1,"usage":3}')


def job_of(path):
    """The job of a database, whose lines of the log lie beside it while some process has it open."""
    hook = shlex.join(["python3", os.path.abspath(__file__), path])
    return f"job 1\nvolume db {path}\nvolume log {path}-wal or-none\nwriter app {DOCUMENT}\nfiles app main db log\nhook app {hook}\n"


def lock_checkpoints(index, kind):
    """Takes or gives back the lock of checkpoints. It is one of the open file, so it stands against SQLite in this process, too."""
    fcntl.fcntl(index, fcntl.F_OFD_SETLK, struct.pack("hhqqi4x", kind, os.SEEK_SET, CHECKPOINTER, 1, 0))


class Database:
    def __init__(self, path, seconds):
        self.name, self.path, self.seconds, self.lock, self.index = f"hook of {path}", path, seconds, None, None

    def connect(self):
        # (a URI, so that no database is made; in a name `?`, `#` and `%` would mean something else there)
        where = pathlib.Path(self.path).absolute().as_uri()
        return sqlite3.connect(f"{where}?mode=rw", uri=True, isolation_level=None, timeout=self.seconds)

    def checkpoint(self):
        """Brings the frames of the log into the database that no reader keeps in the log."""
        connection = self.connect()
        try:
            connection.execute("PRAGMA wal_checkpoint(PASSIVE)")
        finally:
            connection.close()

    def hold_checkpoints(self):
        """Keeps all checkpoints away, if there is a log; waits for one that goes on."""
        until = time.monotonic() + CHECKPOINT
        try:
            self.index = os.open(f"{os.path.realpath(self.path)}-shm", os.O_RDWR)
        except FileNotFoundError:
            return
        while True:
            try:
                return lock_checkpoints(self.index, fcntl.F_WRLCK)
            except BlockingIOError as error:
                if time.monotonic() > until:
                    raise Refused("a checkpoint of another connection goes on; call again") from error
                time.sleep(0.002)

    def prepare_snapshot(self):
        try:
            self.checkpoint()
        except sqlite3.Error as error:
            raise Refused(error) from error

    def freeze(self):
        try:
            self.lock = self.connect()
            self.lock.execute("BEGIN IMMEDIATE")
            self.checkpoint()
            self.hold_checkpoints()
        except (sqlite3.Error, OSError) as error:
            raise Refused(error) from error

    def thaw(self):
        if not self.let_go():
            raise Refused("the lock was not held")

    def let_go(self):
        """Gives the locks back; whether the write lock was held to now."""
        lock, index, self.lock, self.index = self.lock, self.index, None, None
        if lock is None:
            return False
        try:
            was_held = lock.in_transaction
            if was_held:
                lock.execute("ROLLBACK")
            return was_held
        except sqlite3.Error:
            return False
        finally:
            self.close(lock, index)

    @staticmethod
    def close(lock, index):
        """Closes the connection first: a process that closes a file loses its own locks of it, and SQLite's are such."""
        if index is not None:
            lock_checkpoints(index, fcntl.F_UNLCK)
        lock.close()
        if index is not None:
            os.close(index)


def seconds_in(word):
    """The seconds that a word says, if it says some."""
    try:
        seconds = float(word)
    except ValueError:
        return None
    return seconds if 0 <= seconds <= 86400 else None


def wrong_in(path, more, is_job):
    """What is wrong with the database and the words behind it, if something is."""
    if not path:
        return "DATABASE is missing"
    if path.startswith("-"):
        return f"`{path}` is no option; a database of this name is `./{path}`"
    if more[1 - is_job:]:
        return f"`{more[-1]}` is one word too many; a name with spaces stands in quotes"
    if more and seconds_in(more[0]) is None:
        return f"SECONDS is `{more[0]}`, and has to be a number from 0 to 86400"
    if is_job and "\n" in path:
        return "a name with a newline has no place in a job"
    return f"{path}: there is no such database" if is_job and not os.path.isfile(path) else None


def main(words):
    if words in (["help"], ["--help"], ["-h"]):
        sys.exit(print(__doc__))
    is_job = words[:1] == ["--job"]
    path, *more = words[is_job:] or [""]
    if wrong := wrong_in(path, more, is_job):
        sys.exit(f"sqlite.py: {wrong}\n{__doc__}")
    if is_job:
        print(job_of(path), end="")
    else:
        serve(Database(path, seconds_in(more[0]) if more else 30))


if __name__ == "__main__":
    main(sys.argv[1:])
