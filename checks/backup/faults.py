"""What may go wrong in a backup, a row each. After each row the application runs, and the next backup keeps a version of one moment, without a person.
Each record of a backup that ended is judged. `is_all` asks for the rows that take long too."""
import os
import random
import signal
import sqlite3
import subprocess
import sys
import threading
import time

from common import ran, write
from room import BLOCKS, HERE, HOOKS, LIMIT, Room, Wrong, document

# The orders before a set is kept, and those behind.
BEFORE = ("identify", "prepare_backup", "prepare_snapshot", "freeze", "thaw")
BEHIND = ("post_snapshot", "backup_complete")
NOTHING, KEPT = 13, 0
WARNING = b"its files are not known to be of one moment"


def expect(name, got, status, line):
    if got[0] != status or line not in got[1]:
        raise Wrong(f"{name}: status {got[0]}, and {status} is wanted; `{line}` is wanted in:\n{got[1]}")


def next_one(room, name):
    """The application runs, and the next backup keeps a version of one moment."""
    room.runs_on()
    expect(f"the backup behind {name}", room.run(room.job()), KEPT, "kept")
    room.judge(room.sets()[-1])


def faulty(room, order, fault, writer="stock"):
    return {writer: f"{sys.executable} {HERE}/faulty.py {order} {fault} {room.hook(writer)}"}


def cut_of(room):
    """What is said as a set of one volume is cut, which a backup brought near its file."""
    return ran([room.images, "cut", f"{room.path}/store", "app"], check=True).stderr


def line_of(order, fault):
    """What is said where a hook goes wrong at an order."""
    if order == "identify":
        return "stock: it did not say ok to identify"
    if order == "thaw":
        return "stock: it did not stand frozen to its thaw"
    return "VSS_E_WRITERERROR_OUTOFRESOURCES" if fault == "veto" else "VSS_E_WRITERERROR_NONRETRYABLE"


def wrong_answers(room, is_all):
    for order in BEFORE + BEHIND:
        for fault in ("veto", "nonsense", "die"):
            got = room.run(room.job(faulty(room, order, fault)))
            if order in BEFORE:
                expect(f"{fault} at {order}", got, NOTHING, line_of(order, fault))
                room.runs_on()
            else:
                expect(f"{fault} at {order}", got, KEPT, "kept")
        next_one(room, f"wrong answers to {order}")
    gone = room.run(room.job(faulty(room, "freeze", "gone")))
    expect("gone behind its ok to freeze", gone, NOTHING, "stock: its hook has ended")
    if WARNING not in cut_of(room):
        raise Wrong("behind a backup that kept nothing a cut is silent")
    next_one(room, "a hook that died while it was frozen")
    if WARNING in cut_of(room):
        raise Wrong("behind a backup that kept a set a cut warns")


def slow_answers(room, is_all):
    expect("hang at freeze", room.run(room.job(faulty(room, "freeze", "hang"), limit=500)), NOTHING, "VSS_E_WRITERERROR_TIMEOUT")
    next_one(room, "a hook that hangs at freeze")
    expect("late at freeze", room.run(room.job(faulty(room, "freeze", "late:1.5"), limit=500)), NOTHING, "VSS_E_WRITERERROR_TIMEOUT")
    next_one(room, "a late answer")
    expect("a spent limit", room.run(room.job(limit=1)), NOTHING, "VSS_E_WRITERERROR_TIMEOUT")
    next_one(room, "a spent limit")
    for order in [order for order in BEFORE + BEHIND if order != "freeze"]:
        process = room.start(room.job(faulty(room, order, "hang")))
        room.wait_for(f"`ok` before {order}", lambda: is_asked(room, process, order))
        process.send_signal(signal.SIGINT)
        got = process.wait(timeout=60), room.said(process)
        expect(f"Ctrl-C at a hook that hangs at {order}", got, NOTHING if order in BEFORE else KEPT, "kept")
        room.runs_on()
    next_one(room, "hooks that hang")


def is_asked(room, process, order):
    """Whether the other writer has answered an order, or it alone is asked."""
    said = room.said(process)
    first = {"thaw": "provider postcommit"}.get(order, f"app {order} ok")
    return first in said


def no_holds(room, is_all):
    nothing = f"{sys.executable} {HOOKS}/commands.py --freeze true --thaw true"
    expect("hooks that hold nothing", room.run(room.job({"app": nothing, "stock": nothing})), NOTHING, "changed while it was read")
    next_one(room, "hooks that hold nothing")


def read_and_checkpoint(path, is_over, seconds):
    """Reads the database until it is over, each time by a view that gets so old, and brings frames of the log into it."""
    reader, other = (sqlite3.connect(path, isolation_level=None, timeout=20) for _connection in range(2))
    while not is_over.is_set():
        reader.execute("BEGIN")
        reader.execute("SELECT n FROM counter").fetchone()
        until = time.monotonic() + seconds
        while not is_over.wait(0.001) and time.monotonic() < until:
            other.execute("PRAGMA wal_checkpoint(PASSIVE)")
        reader.execute("ROLLBACK")
    other.close()
    reader.close()


def readers(room, is_all):
    """Readers keep frames in the log, and other connections bring them into the database as soon as they may: what is frozen stands still. The view of
    the first reader lasts to the end of the backup."""
    room.create("long", 20000, {**BLOCKS, "appwal": 8000})
    for seconds in (1000, *(0.05, 0.2) * (5 if is_all else 1)):
        process, is_over = room.start(room.job(), folder="long"), threading.Event()
        room.wait_for("prepare_backup ok", lambda: "prepare_backup ok" in room.said(process))
        reader = threading.Thread(target=read_and_checkpoint, args=(f"{room.path}/live/app.db", is_over, seconds))
        reader.start()
        try:
            expect(f"a reader's view of {seconds} s", (process.wait(timeout=120), room.said(process)), KEPT, "kept")
        finally:
            is_over.set()
            reader.join()
        room.judge(room.sets("long")[-1], "long")
        sqlite3.connect(f"{room.path}/live/app.db", timeout=20).execute("PRAGMA wal_checkpoint(TRUNCATE)")
    next_one(room, "readers")


# where to strike: a line that is said, and whether a set is kept; up to the thaw one of the hooks takes long for its own
MOMENTS = (("prepare_backup ok", False), ("provider precommit", False), ("provider postcommit", False), ("stock thaw ok", None))


def strikes(room, is_all):
    for line, is_kept in MOMENTS:
        process = room.start(room.job(faulty(room, "thaw", "late:2") if is_kept is False else None))
        room.wait_for(line, lambda: line in room.said(process))
        process.send_signal(signal.SIGINT)
        got = process.wait(timeout=60), room.said(process)
        if is_kept is None:
            expect(f"Ctrl-C at {line}", got, got[0], "kept")
        else:
            expect(f"Ctrl-C at {line}", got, NOTHING, "it was given up")
        room.runs_on()
    next_one(room, "Ctrl-C")


def children(pid):
    found = subprocess.run(["ps", "-o", "pid=,args=", "--ppid", str(pid)], capture_output=True, text=True).stdout
    return [(int(line.split()[0]), line) for line in found.splitlines()]


def kills(room, is_all):
    random.seed(7)
    for number in range(30 if is_all else 6):
        process = room.start(room.job())
        time.sleep(random.uniform(0.05, 0.9))
        what = ("program", "wrapper", "hook")[number % 3]
        pids = [process.pid] if what == "wrapper" else [pid for pid, line in children(process.pid) if (room.backup in line) == (what == "program")]
        for pid in pids[:1]:
            try:
                os.kill(pid, signal.SIGKILL)
            except ProcessLookupError:
                pass
        process.wait(timeout=60)
        room.wait_for("the lock of the folder", lambda: subprocess.run([room.images, "list", f"{room.path}/store"], capture_output=True).returncode != 10)
        next_one(room, f"kill -9 of the {what}")


def full_area(room, is_all):
    room.create("small", 250, {"app": 700, "appwal": 1000, "stock": 16, "stockwal": 600, "log": 150})
    said = ""
    for _backup in range(8):
        status, lines = room.run(room.job(), folder="small")
        expect("a small area", (status, lines), KEPT, "kept")
        said += lines
    if "evicted set" not in said or len(room.sets("small")) >= 8:
        raise Wrong(f"a small area: nothing was evicted: {room.sets('small')}")
    room.judge(room.sets("small")[-1], "small")
    for _backup in range(8):
        status, lines = room.run(room.job(more="least 8\n"), folder="small")
        if status == NOTHING:
            break
    expect("least 8", (status, lines), NOTHING, "wanted at least")
    if " freeze " in lines:
        raise Wrong("least 8: a writer was frozen")
    expect("the backup behind it", room.run(room.job(), folder="small"), KEPT, "kept")
    before = room.sets("small")
    for _backup in range(3):
        room.runs_on()
        expect("a veto", room.run(room.job(faulty(room, "freeze", "veto")), folder="small"), NOTHING, "VSS_E_WRITERERROR_OUTOFRESOURCES")
    if room.sets("small") != before:
        raise Wrong(f"a small area: vetoes left the sets {room.sets('small')} of {before}")


def outgrown(room, is_all):
    room.create("tight", 100, {"app": 700, "appwal": 1000, "stock": 16, "stockwal": 600, "log": 1})
    room.wait_for("a long log", lambda: room.size("app.log") > 17000)
    expect("a file that has outgrown its volume", room.run(room.job(), folder="tight"), NOTHING, "has room for")
    next_one(room, "a file that has outgrown its volume")


def no_room(room, is_all):
    """The spool may not grow: files of the program end at 64 KiB."""
    room.create("narrow", 100, {"app": 700, "appwal": 1000, "stock": 16, "stockwal": 600, "log": 150})
    expect("a first one", room.run(room.job(), folder="narrow"), KEPT, "kept")
    before = ("sh", "-c", 'trap "" XFSZ; ulimit -f 128; exec "$@"', "sh")
    status, lines = room.run(room.job(), folder="narrow", before=before)
    if status == KEPT:
        raise Wrong(f"no room for the spool: it is kept:\n{lines}")
    room.runs_on()
    expect("the backup behind it", room.run(room.job(), folder="narrow"), KEPT, "kept")


def full_disk(room, is_all):
    """The disk of the folder gets full while all stand still: a spool fails, or the end behind a veto. Only root mounts such a disk."""
    disk = f"{room.path}/disk"
    os.mkdir(disk)
    if subprocess.run(["mount", "-t", "tmpfs", "-o", "size=4m", "tmpfs", disk], capture_output=True).returncode != 0:
        return
    try:
        on_disk(room, disk)
    finally:
        subprocess.run(["umount", disk], check=True)


def on_disk(room, disk):
    write(f"{room.path}/file", os.urandom(1600000))
    subprocess.run([room.images, "create", f"{disk}/store", "60", f"db={room.path}/file"], check=True)

    def tried(freeze, status, line):
        hook = f"{sys.executable} {HOOKS}/commands.py --freeze '{freeze}' --thaw true"
        lines = ["job 1", f"volume db {room.path}/file", f"writer app {document('App', '1', 2, LIMIT)}", "files app main db", f"hook app {hook}"]
        write(f"{room.path}/job", "\n".join(lines).encode() + b"\n")
        expect(f"a full disk, `{freeze}`", room.run(f"{room.path}/job", folder="disk/store"), status, line)
        if os.path.exists(f"{disk}/fill"):
            os.remove(f"{disk}/fill")

    fill, change = f"cat /dev/zero > {disk}/fill", f"head -c 1600000 /dev/urandom > {room.path}/file"
    tried(f"{change}; {fill}; true", NOTHING, "db.spool: could not be written: No space left")
    if room.sets("disk/store"):
        raise Wrong("a full disk: a set is kept")
    tried(f"{fill}; false", 6, "No space left")
    tried("true", KEPT, "kept")


def no_record(room, is_all):
    process = room.start(room.job(), record=f"{room.path}/none/record")
    got = process.wait(timeout=120), room.said(process)
    expect("a record that cannot be written", got, 5, "kept")
    if os.path.exists(f"{room.path}/store/images.open"):
        raise Wrong("a record that cannot be written: the folder was left open")


ROWS = (wrong_answers, slow_answers, no_holds, readers, strikes, kills, full_area, outgrown, no_room, full_disk, no_record)


def main(programs, path, is_all):
    with Room(programs, path) as room:
        for rows in ROWS:
            then = time.monotonic()
            rows(room, is_all)
            print(f"{rows.__name__.replace('_', ' ')}: {time.monotonic() - then:.1f} s", flush=True)
    return f"{len(ROWS)} kinds of faults; {room.told}"
