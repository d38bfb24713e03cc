"""Runs of the program for the scripts beside this folder: many, some side by side, with bounds of memory and time."""
import collections
import multiprocessing
import os
import resource
import signal
import sys
import tempfile
import time

TOP = os.path.dirname(os.path.dirname(os.path.dirname(os.path.realpath(__file__))))
PROVED, TRIAL, TOOLS = (f"{TOP}/crates/{name}/out/{name}" for name in ("vss", "trials", "vss_tools"))


class Hung(Exception):
    """A run did not end in time."""


class Ended:
    """How a run ended: its status, or the signal that stopped it below 0; what it wrote; its highest memory in KiB; its seconds of processor."""

    def __init__(self, status, out, err, usage):
        self.status, self.out, self.err = status, out, err
        self.kib, self.seconds = usage.ru_maxrss, usage.ru_utime + usage.ru_stime

    def __str__(self):
        return f"status {self.status}, {len(self.out)} bytes, {self.err.decode(errors='replace').strip()!r}"


def on_alarm(_signal, _frame):
    raise Hung


class Runner:
    """Runs programs one after another in a folder of its own, with a bound on the addresses that one may take."""

    def __init__(self, room, most_bytes=None, seconds=60):
        self.seconds, self.room = seconds, tempfile.mkdtemp(dir=room)
        self.handles = [os.open(f"{self.room}/{name}", os.O_RDWR | os.O_CREAT) for name in ("in", "out", "err")]
        signal.signal(signal.SIGALRM, on_alarm)
        if most_bytes:
            resource.setrlimit(resource.RLIMIT_AS, (most_bytes, resource.RLIM_INFINITY))

    def run(self, argv, text=b"", env=None):
        """Returns how the run over this input ended; a run that does not end in time is stopped, and has status -9."""
        for handle, bytes_in in zip(self.handles, (text, b"", b"")):
            os.ftruncate(handle, 0)
            os.pwrite(handle, bytes_in, 0)
            os.lseek(handle, 0, os.SEEK_SET)
        actions = [(os.POSIX_SPAWN_DUP2, handle, number) for number, handle in enumerate(self.handles)]
        child = os.posix_spawn(argv[0], argv, {**os.environ, **(env or {})}, file_actions=actions)
        signal.setitimer(signal.ITIMER_REAL, self.seconds)
        try:
            _, status, usage = os.wait4(child, 0)
        except Hung:
            os.kill(child, signal.SIGKILL)
            _, status, usage = os.wait4(child, 0)
        signal.setitimer(signal.ITIMER_REAL, 0)
        _, out, err = (os.pread(it, os.fstat(it).st_size, 0) for it in self.handles)
        return Ended(os.waitstatus_to_exitcode(status), out, err, usage)


def begin(make_worker, room):
    """Begins a lane, whose worker makes its tasks."""
    global worker
    signal.signal(signal.SIGTERM, lambda *_: sys.exit(1))
    worker = make_worker(room)


def work(task):
    return worker.work(task)


def in_lanes(make_worker, tasks, lanes):
    """Gives what the workers make of the tasks, as it comes. A worker is made with a folder, and has a method `work`."""
    with tempfile.TemporaryDirectory(prefix="hostile-", dir="/dev/shm" if os.path.isdir("/dev/shm") else None) as room:
        with multiprocessing.get_context("fork").Pool(lanes, begin, (make_worker, room)) as pool:
            yield from pool.imap_unordered(work, tasks)


def tried(name, make_worker, tasks, lanes, kept=None):
    """Lets workers make tasks, and prints a table: of each row what came how often, the highest memory, and the seconds. What is wrong is said, with its
    input in a folder where one is kept. Returns how much was wrong."""
    began, rows, failed = time.monotonic(), {}, 0
    for row, came, kib, seconds, wrongs in in_lanes(make_worker, tasks, lanes):
        for held in (rows.setdefault(row, [collections.Counter(), 0, 0.0]), rows.setdefault("", [collections.Counter(), 0, 0.0])):
            held[0].update(came)
            held[1:] = max(held[1], kib), held[2] + seconds
        for place, wrong, text in wrongs:
            failed += 1
            if kept:
                os.makedirs(kept, exist_ok=True)
                with open(f"{kept}/{place}", "wb") as file:
                    file.write(text)
            if failed <= 20:
                print(f"{name}: {f'{kept}/' if kept else ''}{place}: {wrong}", file=sys.stderr)
    print(f"{name:<50}{'runs':>8}{'MiB':>6}{'seconds':>9}  what came of them")
    for row, (came, kib, seconds) in [*((it, rows[it]) for it in rows if it), ("all", rows[""])]:
        said = ", ".join(f"{what} {count}" for what, count in came.most_common())
        print(f"{row:<50}{sum(came.values()):>8}{kib // 1024:>6}{seconds:>9.1f}  {said}")
    print(f"{name}: {failed} wrong, {time.monotonic() - began:.0f} seconds in {lanes} lanes")
    return failed


def lane_numbers(report):
    """Returns for each lane's name the numbers of the lines that the report has for it, in order, or None where the moves are not numbered from 1 on."""
    numbers, count = {}, 0
    for line in report.split(b"\n")[1:]:
        words = line.split(b" ")
        if words[0] == b"end":
            return numbers
        if words[0] == b"=":
            continue
        count += 1
        if words[0] != b"%d" % count:
            return None
        if words[1] == b"lane":
            numbers.setdefault(words[2], []).append(int(words[3]))
    return None


def order_of(report):
    """Returns the moves of a report, or of its first lines, as the order that `orders` takes."""
    order = []
    for line in report.split(b"\n")[1:]:
        words = line.split(b" ")
        if words[0] == b"end":
            break
        if words[0] not in (b"=", b""):
            order.append(b" ".join(words[1:3] if words[1] in (b"lane", b"writer") else words[1:2]))
    return b"".join(move + b"\n" for move in order)
