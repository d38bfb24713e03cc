"""Which words are a command; each line of checks/lines.table is read, or refused for its reason and no other, and a person
is told what helps; inputs of the greatest size and beyond, in less than 1,000,000 KiB of addresses: one line of sixteen MiB
in each place that can have it, a hundred thousand empty lines, documents that nest deeply, numbers of millions of digits;
and areas of which each field of the header and of three records is another, or that have another length. What is refused
gets its status, one line on the standard error, and nothing on the standard output; `vss_tools explain` says the rest."""
import os
import re
import resource
import struct

import common
from common import BLOCK, begin, ends, limited, ran, read, told_by

FOLDER, PROGRAM, TOOLS = begin("vss", "vss_tools")
WRAPPER = os.path.abspath("vss")
# (the slow build takes all addresses for its own use)
ADDRESSES = "unlimited" if told_by("is_slow", PROGRAM)[0] == 0 else "1000000"
MOST = 16777216
NUMBERS = (0, 1, 2**32 - 1)
counts = {}


def holds(kind, condition, what):
    counts[kind] = counts.get(kind, 0) + 1
    common.holds(condition, f"{kind}: {what}")


def refuses(kind, what, done, status, line):
    """A run ended with this status, this line on the standard error, and nothing on the standard output."""
    said = done.stderr.decode().rstrip("\n")
    is_so = (done.returncode, done.stdout, said) == (status, b"", line)
    holds(kind, is_so, f"{what}: status {done.returncode}, \"{said[:200]}\", and not {status}, \"{line}\"")


# ## which words are a command

# (words are parted by |, and rows by ;)
COMMANDS = (
    "run;run|disks;run|gen;run|run;run|inspect;run| ;run|a-b;run|7;"
    "gen|0|disks;gen|7|disks;gen|10|gen;gen|4294967295|disks;gen|7| ;gen|7|7;inspect"
)
NO_COMMANDS = (
    "Run;RUN;run ; run;runs;run|;run|-x;run|disks|more;run|disks|;gen;gen|;gen|07;gen|00;gen|+7;gen|-7;gen|7 ;gen|0x7;"
    "gen|seven;gen|4294967296;gen|42949672950;gen|7|;gen|7|-x;gen|7|disks|more;Inspect;inspect|;inspect|area;"
    "inspect|-x;-h;--help;--version;--;-;r\u00fcn;"
)


def words():
    # a folder that is not there is a folder's name all the same
    for command in COMMANDS.split(";"):
        done = ran([PROGRAM, *command.split("|")], input=b"scenario 1\n", cwd=FOLDER)
        holds("words", done.returncode != 2, f"`vss {command}` is refused")
    for command in [it.split("|") for it in NO_COMMANDS.split(";")] + [[], [b"\xff"]]:
        refuses("words", f"`vss {command}`", ran([PROGRAM, *command], input=b"scenario 1\n"), 2, "vss: usage")
    os.symlink(WRAPPER, f"{FOLDER}/link")
    done = ran([f"{FOLDER}/link", "gen"], input=b"")
    is_so = done.returncode == 2 and b"vss: usage\n" in done.stderr and not done.stdout
    holds("words", is_so, "a link to ./vss is not ./vss")


# ## scenarios, and lines of them

CLASS = '"class":"22222222-2222-4222-8222-222222222222"'
MAIN = '[{"name":"main","path":"","selectable":true,"type":1}]'
WRITER = f'{{{CLASS},"components":{MAIN},"level":2,"name":"Database","source":1,"usage":3}}'
LANE = "scenario 1\nvolume C 4 4\nlane a\n"


def document_of(edit):
    """Returns the document of a writer, with another piece if one is named."""
    old, _, new = edit[1].replace("ID ", CLASS[9:-1] + " ").partition(" ⇒ ")
    if old and WRITER.count(old) != 1:
        raise ValueError(f"{old} is in the document {WRITER.count(old)} times")
    return WRITER.replace(old, new) if old else WRITER


def text_of(shown):
    """Returns the bytes of a text in the table."""
    whole = re.sub("«(.*?)»", document_of, shown)
    signs = re.split(r"\\(x..|.)", whole)
    signs[1::2] = ({"n": "\n", "t": "\t"}.get(it, chr(int(it[1:], 16)) if it[1:] else it) for it in signs[1::2])
    return "".join(signs).encode("latin-1")


def explained(kind, text, parts):
    """Each of these parts is said of a text."""
    said = ran([TOOLS, "explain", "scenario"], input=text).stdout.decode()
    for part in parts:
        holds(kind, part in said, f"of {text[:200]!r} it is said \"{said[:400]}\", and not \"{part}\"")
    return said


def lines():
    """Each line of checks/lines.table; where one that is read declares a volume, the report has that name."""
    before = ""
    for row in re.split(r'\n| / (?=(?:text \d+ )?[A-Za-z]+ ")', read("checks/lines.table").decode()):
        number, reason, body, parts = re.fullmatch(r'(?:text (\d+) )?(\w+) "(.*?)"(?: => (.*))?|.*', row).groups()
        if reason == "after":
            before = body
        elif reason:
            text = text_of(body if number else f"{before}{body}\\n")
            done = ran([PROGRAM, "run"], input=text)
            if reason == "read":
                name = body.split(" ")[1].encode() if body.startswith("volume ") else b""
                is_named = not name or b"\nvolume %s used 0 of " % name in done.stdout
                is_so = done.returncode == 0 and not done.stderr and is_named
                holds("lines", is_so, f"{body}: {done.stderr}, or another name of the volume")
            else:
                refuses("lines", body, done, 3, f"vss: line {number or text.count(10)}: {reason}")
                explained("explained", text, parts.split(" && ") if parts else [])


# ## the forms that are told

NAMES = dict(zip("FULL-NAME WRITER ORDER NTH CODE VOLUME NAME BLOCKS SLOTS AREA BLOCK BYTE NUMBER SET TICKS CONTEXT".split(),
                 "main db freeze 2 VSS_E_WRITERERROR_TIMEOUT C n 2 1 G 1 7 9 1 5 9".split()), DOCUMENT=WRITER)
SHORT = {"DOCUMENT": "rest", "FULL-NAME": "rest", "BYTE": "x", "NUMBER": "n", "TICKS": "n", "CONTEXT": "n", "1": "n"}


def named(form, names):
    return " ".join(names.get(word, word) for word in form.split(" "))


def forms():
    """The forms that are told are those of docs/FORMATS.md, and each is read by the program."""
    told = ran([TOOLS, "explain", "forms"]).stdout.decode().splitlines()
    rows = re.search(r"^\| Line \| Fields.*\n((?:.+\n)+)", read("docs/FORMATS.md").decode(), re.M)[1]
    documented = [form for row in re.findall(r"^\| (`[^|]*) \|", rows, re.M) for form in re.findall("`([^`]*)`", row)]
    other = set(documented) ^ {named(it, SHORT).lower() for it in told}
    holds("forms", not other and len(documented) == len(told), f"docs/FORMATS.md has other forms than are told: {sorted(other)}")
    for form in told:
        before = f"scenario 1\nvolume C 4 4\nwriter db {WRITER}\narea G 4\n" if form[:8] != "scenario" else ""
        lane = "lane a\n" if form.split(" ")[0] not in ("scenario", "area", "volume", "writer", "answer") else ""
        done = ran([PROGRAM, "run"], input=f"{before}{lane}{named(form, NAMES)}\n".encode())
        holds("forms", done.returncode == 0, f"the form \"{form}\" is told, and as \"{named(form, NAMES)}\" it gets {done.stderr}")


# ## inputs of the greatest size and beyond

def filled(before, letter, behind, size=MOST):
    """Returns a text of so many bytes, filled up with a letter."""
    return f"{before}{letter * (size - len(before) - len(behind))}{behind}"


def large_inputs():
    """Yields texts, each with the number and the reason of the line that is refused, or with nothing."""
    # one line of the greatest size
    yield filled("scenario 1\n# ", "x", "\n"), None
    yield filled("scenario 1\n# ", "x", ""), (2, "NoNewline")
    yield filled("scenario 1\n# ", "x", "\t\n"), (2, "BadByte")
    yield filled("", "x", "\n"), (1, "UnknownWord")
    yield filled("", " ", "\n"), (1, "UnknownWord")
    yield filled("scenario ", "1", "\n"), (1, "OutOfRange")
    yield filled("scenario 1\nvolume ", "x", " 1 1\n"), (2, "BadName")
    yield filled("scenario 1\nvolume C ", "9", " 1\n"), (2, "OutOfRange")
    yield filled("scenario 1\nvolume C 4 ", "0", "\n"), (2, "BadNumber")
    yield filled(f"{LANE}start", " ", "\n"), (4, "BadCount")
    yield filled(f"{LANE}tick ", "1", "\n"), (4, "OutOfRange")
    yield filled(f"{LANE}write C 1 stamp ", "8", "\n"), (4, "OutOfRange")
    yield filled(f"{LANE}read ", "C", " 1\n"), (4, "UnknownName")
    yield filled(f"scenario 1\nwriter db {WRITER}\nlane a\ncomponent db ", "x", "\n"), None
    yield filled('scenario 1\nwriter db {"name":"', "x", '"}\n'), (2, "BadDocument")
    yield filled("scenario 1\nwriter db ", " ", f"{WRITER}\n"), None
    yield filled("scenario 1\nwriter db ", "[", "\n"), (2, "BadDocument")
    yield filled('scenario 1\nwriter db {"components":[', ",", "]}\n"), (2, "BadDocument")
    yield filled("scenario 1\nwriter db ", "7", "\n"), (2, "BadDocument")
    # the most lines, and deep documents
    yield "scenario 1\n" + "\n" * 100000 + "lane a\nfinish\n", (100003, "UnknownWord")
    yield "scenario 1\n" + "\n" * 100000 + "lane a\nstatus\n", None
    yield "\n" * MOST, (MOST + 1, "Empty")
    yield "scenario 1\n" + "#\n" * 500000, None
    for depth in (126, 127, 128, 1000, 100000):
        yield 'scenario 1\nwriter db {"components":' + "[" * depth + "]" * depth + "}\n", (2, "BadDocument")
    yield "scenario 1\nwriter db " + '{"a":' * 100000 + "\n", (2, "BadDocument")


def large():
    how = {} if ADDRESSES == "unlimited" else {"preexec_fn": limited(resource.RLIMIT_AS, int(ADDRESSES) * 1024)}
    for text, refused in large_inputs():
        done, what = ran([PROGRAM, "run"], input=text.encode(), **how), f"{text[:40]!r}, {len(text)} bytes"
        if refused:
            refuses("large inputs", what, done, 3, f"vss: line {refused[0]}: {refused[1]}")
        else:
            holds("large inputs", done.returncode == 0 and not done.stderr, f"{what}: {done.returncode} {done.stderr}")
    for text in (filled("", "#", "\n", MOST + 1), "\n" * (MOST + 1)):
        done = ran([PROGRAM, "run"], input=text.encode(), **how)
        refuses("large inputs", "a byte too many", done, 8, "vss: input too long")


MANY = (
    ("volume vN 1 1", 129, "at most 128 volumes"), ("area vN 1", 129, "at most 128 areas"), ("lane lN", 65, "at most 64 lanes"),
    (f"writer wN {WRITER}", 65, "at most 64 writers"),
)


def told_of_large():
    """What is told of one line too many of each kind; of a line of five million bytes, cut; and of 16 MiB, in a second of a processor."""
    for line, count, part in MANY:
        text = "scenario 1\n" + "".join(line.replace("N", f"{n}", 1) + "\n" for n in range(1, count + 1))
        told(text, count + 1, "TooMany", f"a scenario has {part}")
    told("scenario 1\narea G 65536\nvolume C 65536 65536\n", 3, "TooMany", "at most 131072 blocks of all volumes and slots of all areas together")
    told(LANE + "gather\n" * 2001 + "end\n" * 5, 2004, "TooMany", "at most 2000 `gather`, `prepare`, `snapshot` and `complete` lines")
    told(LANE + "end\n" * 100001, 100004, "TooMany", "at most 100000 lines of all lanes together")
    said = told(f"scenario 1\nvolume C {'4' * 5000000} 4\n", 2, "OutOfRange", "     2 | volume C 444", "BLOCKS is 1 to 65536 here")
    holds("explained", len(said) < 1000, f"of a line of five million bytes {len(said)} are said")
    comments = ("# a comment of forty bytes, or about that\n" * 400000)[:16777000]
    for text, most in (LANE + "write C 4 fill 1\n", 0.1), (f"scenario 1\n{comments}\nvoluem\n", 1):
        before = resource.getrusage(resource.RUSAGE_CHILDREN)
        explained("explained", text.encode(), ["did you mean" if most == 1 else "BLOCK is 0 to 3"])
        after = resource.getrusage(resource.RUSAGE_CHILDREN)
        seconds = after.ru_utime + after.ru_stime - before.ru_utime - before.ru_stime
        holds("explained", seconds <= most, f"{len(text)} bytes are explained in {seconds} s")


def told(text, number, reason, *parts):
    refuses("explained", text[:40], ran([PROGRAM, "run"], input=text.encode()), 3, f"vss: line {number}: {reason}")
    return explained("explained", text.encode(), parts)


# ## areas

# where a field stands, and what is told where it is 0, 1 and 4,294,967,295: the first wrong field of the header with
# what was found there, a record by its slot, or the set and block of the record that is listed
FIELDS = """
0 Magic,0 Magic,1 Magic,4294967295
4 Magic,1095979862 Magic,1095979862 Magic,1095979862
8 Layout,0 Rest,4 Layout,4294967295
12 Slots,0 Slots,1 Slots,4294967295
16 Used,0 listed,3,2 Used,4294967295
20 Volumes,0 listed,3,2 Volumes,4294967295
24 Blocks,0 record,1 Blocks,4294967295
28 listed,3,2 Rest,1 Rest,255
16380 listed,3,2 Rest,1 Rest,255
16384 listed,3,2 Used,1 Used,1
16388 listed,3,2 record,0 record,0
16392 listed,3,2 record,0 record,0
16396 listed,3,2 record,0 record,0
16400 record,1 listed,1,2 listed,4294967295,2
16404 listed,3,0 listed,3,1 record,1
16408 listed,3,2 record,1 record,1
16412 listed,3,2 record,1 record,1
16416 listed,3,2 record,2 record,2
16420 listed,3,2 record,2 record,2
32764 listed,3,2 record,1023 record,1023
""".strip()
NINES = "cf606a7d35c98e2effc07a6477adc0adb4fe90931f6932be10d0302190e8b627"


def area(layout, told, *numbers, size=4 * BLOCK):
    """Compares what is told of an area with these bytes at these places, of this length."""
    # 2 slots for a volume of 4 blocks, with a record for set 3 and block 2 in slot 1, which is full of nines
    head = struct.pack("<5I", 2, 2, 1, 1, 4) if layout == 2 else struct.pack("<5I", 1, 2, 1, 4, 0)
    data = bytearray((b"VSSAREA1" + head).ljust(BLOCK + 16, b"\0") + struct.pack("<2I", 3, 2))
    data = bytearray(data.ljust(3 * BLOCK, b"\0") + b"\x09" * BLOCK)
    for at, changed in numbers:
        data[at:at + len(changed)] = changed
    listed(bytes(data.ljust(size, b"\0"))[:size], layout, told)


def listed(data, layout, told):
    word, *rest = told.split(",")
    done, what = ran([PROGRAM, "inspect"], input=data), f"an area of {len(data)} bytes"
    if word == "listed":
        # examples/area.listing is that of the whole one in layout 2
        slot = f"slot 1 set {rest[0]} volume 0 block {rest[1]} {NINES}"
        wanted = f"area layout {layout} slots 2 used 1\nvolume 0 blocks 4\n{slot}\nend\n".encode()
        is_so = done.returncode == 0 and done.stdout == wanted
        holds("areas", is_so, f"{what}: {done.stdout} {done.stderr}, and not {wanted}")
    else:
        line = f"area record {rest[0]}" if word == "record" else f"area header {word} {rest[0]}"
        refuses("areas", what, done, 9, f"vss: {line}")


def areas():
    area(2, "listed,3,2")
    for row in FIELDS.split("\n"):
        at, *told = row.split()
        for number, word in zip(NUMBERS, told):
            area(2, word, (int(at), struct.pack("<I", number)))
    area(1, "listed,3,2")
    for at, changed, told in (
        (20, b"\0\0\0\0", "Blocks,0"), (20, b"\1\0\1\0", "Blocks,65537"), (24, b"\1", "Rest,1"),
        (16408, b"\1", "record,1"), (16384, b"\3\0\0\0\2", "record,1"), (16, b"\2", "Used,2"),
    ):
        area(1, told, (at, changed))
    for size in (7, 16384, 49151, 49153, 65535, 65537):
        area(2, "Magic,1095979862" if size == 7 else "Slots,2", size=size)
    for data, told in (
        (b"", "Magic,0"), (b"scenario 1\n", "Magic,1852138355"), (b"VSSAREA1\3\0\0\0", "Layout,3"),
        (b"VSSAREA1\2\0\0\0\2\0\0\0", "Slots,2"),
    ):
        listed(data, 2, told)


for part in (words, lines, forms, large, told_of_large, areas):
    part()
ends(", ".join(f"{count} {kind}" for kind, count in counts.items()) + " taken, read, refused or told as written")
