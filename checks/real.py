"""Streams and files as the system has them, of which no proof speaks: a pipe of the smallest capacity with a slow reader, a full device, a file that
may not grow, an input that comes byte by byte, and one that fails in the middle; each block of each file where it has to be, as the reports, listings
and summaries of the examples say; files that are there already; and which files are synced."""
import ctypes
import fcntl
import hashlib
import os
import re
import resource
import socket
import stat
import struct
import subprocess
import time

from common import BLOCK, begin, ends, holds, limited, ran, read, write

FOLDER, PROGRAM = begin("vss")
SET_PIPE_SIZE = 1031  # F_SETPIPE_SZ
# a report of some 70,000 bytes, which depends on nothing but the lines
LONG = b"scenario 1\nlane a\n" + b"await\n" * 2500
# three volumes over three areas, whose volumes are flushed for a set, and are written after its cut
VOLUMES = {"C": 4, "D": 1, "E": 3}
AREAS = ["C.area", "D.area", "G.shared"]
SET = b"scenario 1\narea G 4\nvolume C 4 4\nvolume D 1 2\nvolume E 3 in G\nlane a\nbegin 25\nstart\nadd C\nadd D\nadd E\nsnapshot\nawait\nend\n"


def folder(name):
    path = os.path.join(FOLDER, name)
    os.makedirs(path)
    return path


def run(text, *words, **others):
    """Runs the program over a text. Python has signals of closed pipes and full files ignored, and so has the program."""
    pipes = {"capture_output": False, "stdout": subprocess.PIPE, "stderr": subprocess.PIPE}
    return ran([PROGRAM, "run", *words], input=text, restore_signals=False, **{**pipes, **others})


def ended(done, status, line=b""):
    return done.returncode == status and done.stderr == line and (status == 0 or not done.stdout)


def failed(done, path, call):
    """Whether a run says that of the file of this path, or of some file, this call failed."""
    place = re.escape(path.encode()) if path else b"\\S+"
    return re.fullmatch(b"vss: device fault\n     " + place + b" could not be " + call + b"\n", done.stderr) and ended(done, 6, done.stderr)


# ## streams

def is_read_slowly(report):
    """Standard output is a pipe of the smallest capacity, whose reader takes few bytes at a time: all bytes come."""
    ours, theirs = os.pipe()
    capacity = fcntl.fcntl(theirs, SET_PIPE_SIZE, 4096)
    program = subprocess.Popen([PROGRAM, "run"], stdin=subprocess.PIPE, stdout=theirs)
    os.close(theirs)
    program.stdin.write(LONG)
    program.stdin.close()
    came = b""
    for part in iter(lambda: os.read(ours, 300), b""):
        came += part
        time.sleep(0.001)
    os.close(ours)
    holds(program.wait() == 0 and came == report, f"of {len(report)} bytes {len(came)} come through a pipe of {capacity} bytes")


def is_full(report):
    """Standard output takes no byte, or so many and no more, as a file of a limited size does: a write that comes short is gone on with."""
    with open("/dev/full", "wb") as full:
        holds(ended(run(LONG, stdout=full), 5, b"vss: write fault\n"), "a full device is not told")
        generated = subprocess.run([PROGRAM, "gen", "7"], stdout=full, stderr=subprocess.PIPE)
        holds(ended(generated, 5, b"vss: write fault\n"), "a full device is not told of a generated run")
    holds(ended(run(LONG, preexec_fn=lambda: os.close(1)), 5, b"vss: write fault\n"), "a closed output is not told")
    holds(ended(run(LONG, preexec_fn=lambda: os.close(0)), 4, b"vss: read fault\n"), "a closed input is not told")
    for most in (1, 4096, len(report) - 1):
        path = os.path.join(FOLDER, f"at_most_{most}")
        with open(path, "wb") as out:
            done = run(LONG, stdout=out, preexec_fn=limited(resource.RLIMIT_FSIZE, most))
        is_told = ended(done, 5, b"vss: write fault\n") and read(path) == report[:most]
        holds(is_told, f"a file of at most {most} bytes is not told, or has others")


def is_read_bytewise():
    """Standard input gives one byte at each read."""
    text = SET + b"write C 3 fill 7\nread C 3\n"
    ours, theirs = socket.socketpair(socket.AF_UNIX, socket.SOCK_SEQPACKET)
    path = os.path.join(FOLDER, "bytewise")
    with open(path, "wb") as out:
        program = subprocess.Popen([PROGRAM, "run"], stdin=theirs, stdout=out)
    theirs.close()
    for n in range(len(text)):
        ours.send(text[n:n + 1])
    ours.close()
    holds(program.wait() == 0 and read(path) == run(text).stdout, "a text that comes byte by byte has another report")


def is_cut_off():
    """Standard input fails behind a text that could be run: the other side is gone before it read what stood there for it."""
    ours, theirs = socket.socketpair()
    theirs.send(b"unread")
    ours.send(SET)
    ours.close()
    holds(ended(run(None, stdin=theirs), 4, b"vss: read fault\n"), "an input that fails behind its first lines is not told")
    theirs.close()
    with open(os.path.join(FOLDER, "written"), "wb") as written:
        holds(ended(run(None, stdin=written), 4, b"vss: read fault\n"), "an input that cannot be read is not told")


# ## files

def contents(path):
    data = read(path)
    return [data[at:at + BLOCK] for at in range(0, len(data), BLOCK)]


def payload(v, block):
    return struct.pack("<Q", 1000 * v + block) * (BLOCK // 8)


def is_in_files():
    """Each block of each volume is where it has to be, with the report's digests; each area's file keeps its size; no other file is made."""
    disks, place = folder("in_files/C.vol"), os.path.join(FOLDER, "in_files")
    stamps = b"".join(b"write %s %d stamp %d\n" % (name.encode(), block, 1000 * v + block)
                      for v, (name, blocks) in enumerate(VOLUMES.items()) for block in range(blocks))
    reads = b"".join(b"read %s %d\n" % (name.encode(), block) for name, blocks in VOLUMES.items() for block in range(blocks))
    done = run(SET + stamps + reads, "C.vol", cwd=place)
    holds(ended(done, 0), f"a run in a folder ended with {done.returncode}")
    holds(os.listdir(place) == ["C.vol"] and sorted(os.listdir(disks)) == sorted([f"{name}.vol" for name in VOLUMES] + AREAS), "other files are made")
    told = [line.split() for line in done.stdout.decode().splitlines()]
    read = [words[-1] for words in told if words[-3:-2] == ["data"]]
    for v, (name, blocks) in enumerate(VOLUMES.items()):
        wanted = [payload(v, block) for block in range(blocks)]
        holds(contents(f"{disks}/{name}.vol") == wanted, f"{name}.vol has other blocks")
        holds([read.pop(0) for _ in wanted] == [hashlib.sha256(block).hexdigest() for block in wanted], f"the reads of {name} have other digests")
        digest = hashlib.sha256(b"".join(wanted)).hexdigest()
        holds(any(words[:2] == ["volume", name] and words[-1] == digest for words in told), f"{name} has another digest in the report")
    slots = {"C.area": (4, 4), "D.area": (2, 1), "G.shared": (4, 3)}
    for name, (count, used) in slots.items():
        blocks = contents(f"{disks}/{name}")
        holds(len(blocks) == 2 + count and struct.unpack("<8s3I", blocks[0][:20]) == (b"VSSAREA1", 2, count, used), f"{name} has another header")
        holds(blocks[2:] == [bytes(BLOCK)] * count, f"the old blocks in {name} are others")


def is_as_the_examples_say():
    """In a folder the report, the listing and the summary are those of the examples, and each generated volume has its digest."""
    disks = folder("first")
    holds(run(read("examples/first.scenario"), disks).stdout == read("examples/first.report"), "a run in a folder has another report")
    listing = ran([PROGRAM, "inspect"], input=read(f"{disks}/C.area")).stdout
    holds(listing == read("examples/first.listing"), "the area's file is listed otherwise")
    disks, summary = folder("generated"), read("examples/generated_7.summary")
    for words in ([disks], []):
        holds(ran([PROGRAM, "gen", "7", *words]).stdout == summary, f"gen 7 {words} has another summary")
    for volume in range(8):
        digest = hashlib.sha256(read(f"{disks}/v{volume}.vol")).hexdigest()
        holds(f"volume v{volume} {digest}\n".encode() in summary, f"the file of volume v{volume} has another digest than the summary")


def is_refused_where_there_is():
    """What has the name of a device already is no device, whatever it is, and is left as it is."""
    mine = os.path.join(FOLDER, "mine")
    write(mine, b"mine")
    # how each kind is made, and whether it is as it was
    kinds = {
        "file": (lambda path: write(path, b"mine"), lambda path: read(path) == b"mine"),
        "folder": (os.mkdir, lambda path: os.listdir(path) == []),
        "link": (lambda path: os.symlink(mine, path), lambda path: os.path.islink(path) and read(path) == b"mine"),
        "dead link": (lambda path: os.symlink("none", path), lambda path: os.readlink(path) == "none" and
                      not os.path.exists(path)),
        "pipe": (os.mkfifo, lambda path: stat.S_ISFIFO(os.lstat(path).st_mode)),
    }
    for name in "C.vol", "C.area", "E.vol", "G.shared":
        for kind, (make, is_kept) in kinds.items():
            disks = folder(f"{kind} {name}")
            path, there = os.path.join(disks, name), rb"created: File exists \(os error 17\)"
            make(path)
            holds(failed(run(SET, disks), path, there), f"a {kind} {name} that is there is not told")
            holds(os.listdir(disks) == [name], f"where a {kind} {name} is there other files are left")
            holds(is_kept(path), f"a {kind} {name} that is there is changed, or followed")
    for place, reason in ((os.path.join(FOLDER, "none"), rb"No such file or directory \(os error 2\)"), ("n" * 300, rb"File name too long \(os error 36\)"),
                          (mine, rb"Not a directory \(os error 20\)")):
        holds(failed(run(SET, place), f"{place}/C.vol", b"created: " + reason), f"a folder that is not there is not told: {reason}")
    holds(read(mine) == b"mine", "a file in a folder's place is changed")


# ## what is made to last

def refuse_syncs(descriptor):
    """From now on this process's fsync and fdatasync of this descriptor fail (seccomp, by x86-64's numbers of calls)."""
    load, equal, end = 0x20, 0x15, 0x06
    allow, fault = 0x7FFF0000, 0x00050005
    steps = [(load, 0, 0, 0), (equal, 1, 0, 74), (equal, 0, 3, 75), (load, 0, 0, 16), (equal, 0, 1, descriptor), (end, 0, 0, fault), (end, 0, 0, allow)]
    code = ctypes.create_string_buffer(b"".join(struct.pack("<HBBI", *step) for step in steps))
    program = ctypes.create_string_buffer(struct.pack("<H6xQ", len(steps), ctypes.addressof(code)))
    system = ctypes.CDLL(None, use_errno=True).prctl
    system.argtypes = [ctypes.c_int, ctypes.c_ulong, ctypes.c_void_p, ctypes.c_ulong, ctypes.c_ulong]
    if system(38, 1, None, 0, 0) or system(22, 2, ctypes.addressof(program), 0, 0):
        raise OSError(ctypes.get_errno(), "calls cannot be refused")


def is_synced():
    """Each file is synced at the end, also where no set has flushed a volume: where that fails for one file alone, it is told of that one."""
    try:
        subprocess.run(["true"], preexec_fn=lambda: refuse_syncs(0), check=True)
    except subprocess.SubprocessError:
        return ", but the system lets no calls be refused, so it was not seen which files are synced"
    for name, text in ("set", SET), ("no_set", SET.partition(b"begin")[0]):
        came = []
        for descriptor in range(3, 16):
            disks = folder(f"{name}_synced_{descriptor}")
            done = run(text, disks, preexec_fn=lambda descriptor=descriptor: refuse_syncs(descriptor))
            if failed(done, None, rb"synced: Input/output error \(os error 5\)"):
                holds(not os.listdir(disks), "where a file is not synced, the files of the run are left")
                came.append(os.path.basename(done.stderr.split()[3].decode()))
            else:
                holds(ended(done, 0), f"where a sync fails the run ended with {done.returncode}")
        files = sorted([f"{volume}.vol" for volume in VOLUMES] + AREAS)
        holds(sorted(came) == files, f"{name}: where the sync of one file after another fails, it is told of {came}")
    return ""


report = run(LONG).stdout
is_read_slowly(report)
is_full(report)
for part in (is_read_bytewise, is_cut_off, is_in_files, is_as_the_examples_say, is_refused_where_there_is):
    part()
ends("streams and files as promised" + is_synced())
