"""A block device is read as a file by `create`, `update` and `add`, and never written: a loop device over a file, where the machine has one."""
import os
import shutil
import subprocess
import sys
import time

from common import ran, read, write

B = 16384
UNSEEN = "is a block device: whether it changes while it is read cannot be seen; unmount it, or name a snapshot of it"


def main(program, room):
    os.chdir(room)
    write("disk", os.urandom(600 * B + 512))
    made = ran(["losetup", "--find", "--show", "disk"]) if os.geteuid() == 0 and shutil.which("losetup") else None
    if not made or made.returncode:
        return "block devices: not tried, as root and a loop device are needed"
    device = made.stdout.decode().strip()
    try:
        return f"{tried(program, device)} calls on a block device"
    finally:
        subprocess.run(["losetup", "-d", device], check=True)


def made_longer(program, device):
    """How an update ended of which the device got longer while it was open."""
    process = subprocess.Popen([program, "update", "--tries", "1", "F", f"db={device}"], stdout=subprocess.DEVNULL, stderr=subprocess.PIPE)
    while process.poll() is None and not any(os.path.realpath(f"/proc/{process.pid}/fd/{at}") == device for at in range(3, 12)):
        time.sleep(0)
    for signal, size in ((19, 601 * B), (18, 600 * B + 512)):
        process.send_signal(signal)
        said = process.communicate()[1].decode() if signal == 18 else ""
        os.truncate("disk", size)
        subprocess.run(["losetup", "-c", device], check=True)
    return process.returncode, said


def on_itself(program, device):
    """A folder that lies on the device does not keep it. Says how many calls were tried."""
    os.mkdir("on")
    if not shutil.which("mkfs.ext2") or ran(["mkfs.ext2", "-q", device]).returncode or ran(["mount", device, "on"]).returncode:
        return 0
    try:
        write("small", b"small")
        for status, told, words in (
            (3, f"images: {device}: is the device on which on/F would lie\n", ["create", "on/F", "8", f"db={device}"]),
            (0, "", ["create", "on/F", "8", "db:700=small"]),
            (3, f"images: {device}: is a file of on/F, or the device on which it lies\n", ["update", "on/F", f"db={device}"]),
        ):
            got = ran([program, *words])
            if (got.returncode, got.stderr.decode()) != (status, told):
                sys.exit(f"{words}: {got.returncode} {got.stderr}, wanted {status} {told}")
        return 3
    finally:
        subprocess.run(["umount", "on"], check=True)


def tried(program, device):
    count, first = 0, read("disk")

    def call(status, out, told, *words):
        nonlocal count
        count += 1
        got = ran([program, *words])
        if (got.returncode, got.stdout, got.stderr.decode()) != (status, out, told and f"images: {told}\n"):
            sys.exit(f"{words}: {got.returncode} {got.stdout[:100]} {got.stderr}, wanted {status} {told}")

    call(0, b"", f"{device}: {UNSEEN}", "create", "F", "8", f"db:700={device}")
    call(0, b"set 1\n", "", "cut", "F", "db")
    with open(device, "r+b", buffering=0) as out:
        os.pwrite(out.fileno(), b"changed", 5 * B)
        os.fsync(out.fileno())
    os.symlink(device, "link")
    call(0, b"db written 1 copied 1\n", f"link: {UNSEEN}", "update", "F", "db=link")
    call(0, read("disk"), "", "show", "F", "db")
    call(0, first, "", "show", "F", "1", "db")
    call(0, b"volume more blocks 601\n", f"{device}: {UNSEEN}", "add", "F", f"more={device}")
    call(0, b"", "", "restore", "F", "1", "db", "out")
    if read("out") != first or os.stat("out").st_mode != 0o100600:
        sys.exit(f"restore of a block device: mode {os.stat('out').st_mode:o}")
    call(4, b"", "/dev/null: is no file", "update", "F", "db=/dev/null")
    call(3, b"", f"{device}: is no file; a folder, a link or a device is never replaced", "restore", "--over", "F", "1", "db", device)
    status, said, count = 0, "", count + 1
    for _ in range(100):
        if status == 0:
            status, said = made_longer(program, device)
    if status != 12 or f"{device}: changed while it was read: {len(first)} bytes and then {601 * B}" not in said:
        sys.exit(f"a device that got longer while it was read: {status} {said}")
    return count + on_itself(program, device)
