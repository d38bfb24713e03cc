"""Limits and a day's use. What is at a limit of docs/FORMATS.md is run to its end; what is one more is refused: lanes,
writers, volumes, areas, lines and answers of a scenario, volumes of a set, components of a document. Past the bounds of
4,096 blocks and slots. And eight lanes of writes as two writers while two sets are made over three volumes."""
import json
import re

import common
from common import begin, ends, ran

_, PROGRAM = begin("vss")
tried = 0
A_SET = ["start", "add C", "prepare", "await", "snapshot", "await", "complete", "await", "end"]
PLAIN_SET = ["snapshot", "await", "end"]


def holds(condition, what):
    global tried
    tried += 1
    common.holds(condition, what)


def run(lines):
    return ran([PROGRAM, "run"], input="".join(f"{line}\n" for line in ["scenario 1", *lines]).encode())


def runs(what, lines, has):
    """A scenario is run to its end, and its report has so many lines with this."""
    done = run(lines)
    holds(done.returncode == 0, f"{what}: status {done.returncode}, {done.stderr}")
    for form, count in has.items():
        found = len(re.findall(form, done.stdout.decode(), re.M))
        holds(found == count, f"{what}: {found} lines with \"{form}\", and not {count}")


def refused(what, lines, reason):
    done = run(lines)
    is_so = done.returncode == 3 and done.stderr == f"vss: {reason}\n".encode() and not done.stdout
    holds(is_so, f"{what}: {done.returncode} {done.stderr}, and not {reason}")


def times(count, *lines):
    """Returns these lines so many times, in which N is the number, from 0."""
    return [line.replace("N", str(n)) for n in range(count) for line in lines]


def writer(name, components, title="Database", level=2, source=1, digit="2"):
    class_id = f"{digit * 8}-{digit * 4}-4{digit * 3}-8{digit * 3}-{digit * 12}"
    made = {"class": class_id, "components": components, "level": level, "name": title, "source": source, "usage": 3}
    return f"writer {name} " + json.dumps(made, separators=(",", ":"))


def component(name, path="", selectable=True, kind=1):
    return {"name": name, "path": path, "selectable": selectable, "type": kind}


# ## what a scenario may have

def lanes(count):
    return times(count, "lane lN", "status")


def writers(count):
    return times(count, writer("w#", [component("main")]).replace("N", "\0").replace("#", "N"))


def volumes(count):
    return times(count, "volume vN 1 1")


def areas(count):
    return times(count, "area aN 1") + times(count, "volume vN 1 in aN")


def declarations():
    runs("no line but the first", [], has={"^end moves 0 clock 0$": 1})
    runs("no lane", ["volume C 4 4"], has={"^volume C used 0 of 4 ": 1})
    for count in (33, 64):
        runs(f"{count} lanes", lanes(count), has={r"^\d+ lane l\d+ \d+ VSS_E_BAD_STATE$": count})
        lines = [*writers(count), "volume C 1 1", "lane a", "begin 9", "gather", "await"]
        lines += times(count, "component wN main")
        found = {"^= set 1 complete$": 1, r"^\d+ writer w\d+ thaw ok$": count, r"^writer w\d+ ": count}
        runs(f"{count} writers", lines + A_SET, has=found)
    for count in (33, 65, 128):
        for what, made in ("volumes", volumes), ("areas", areas):
            lines = [*made(count), "lane a", *times(count, "write vN 0 stamp N")]
            runs(f"{count} {what}", lines, has={r"^\d+ lane a \d+ ok$": count, r"^volume v\d+ used 0 of 1 ": count})
    for what, lines, reason in (
        ("65 lanes", lanes(65), "line 130: TooMany"), ("65 writers", writers(65), "line 66: TooMany"),
        ("129 volumes", volumes(129), "line 130: TooMany"), ("129 areas", areas(129), "line 130: TooMany"),
    ):
        refused(what, lines, reason)
    orders = ("identify", "prepare_backup", "prepare_snapshot", "freeze", "thaw")
    answers = writers(2) + [f"answer w0 {order} {n} lost" for order in orders for n in range(1, 2001)]
    runs("10,000 answers", answers, has={"^writer w[01] ": 2})
    refused("10,001 answers", answers + ["answer w1 freeze 1 lost"], "line 10004: TooMany")
    for most, line in ((2000, "snapshot"), (2000, "gather"), (2000, "prepare"), (100000, "await")):
        runs(f"{most} times {line}", ["lane a", *[line] * most], has={f"^end moves {most} clock 0$": 1})
        refused(f"{most + 1} times {line}", ["lane a", *[line] * (most + 1)], f"line {most + 3}: TooMany")


# ## sets and images, orders and documents

ZEROS = "0000000000000000 4fe7b59af6de3b665b67788cc2f99892ab827efae3a467342b3bb4e3bc8e5bfe"


def sets():
    most = " VSS_E_MAXIMUM_NUMBER_OF_VOLUMES_REACHED$"
    lines = [*volumes(65), "lane a", "begin 25", "start", *times(65, "add vN"), "end"]
    runs("volumes of a set", lines, has={r"^\d+ lane a \d+ ok$": 66, most: 1, f"^67 lane a 134{most}": 1})
    # the volumes from the 65th to the 128th of one group, each written after the cut
    lines = ["area G 128", *times(128, "volume vN 1 in G"), "lane a", "begin 25", "start", *times(128, "add vN")[64:]]
    lines += PLAIN_SET + times(128, "write vN 0 stamp N")[64:] + times(128, "image 1 vN 0")[64:]
    runs("later volumes", lines, has={
        "^= set 1 complete$": 1, r"^image 1 v\d+ ": 64, rf"^\d+ lane a \d+ data {ZEROS}$": 64,
        r"^volume v\d+ used 1 of 128 ": 64,
    })
    lines = ["volume C 4097 4097", "lane a", "begin 25", "start", "add C", *PLAIN_SET]
    runs("4,097 blocks and slots", [*lines, "write C 4096 fill 7", "read C 4096", "image 1 C 4096", "query C"], has={
        r"^\d+ lane a 10 ok$": 1, r"^\d+ lane a 11 data 0707070707070707 ": 1,
        r"^\d+ lane a 12 data 0000000000000000 ": 1, "^volume C used 1 of 4097 ": 1,
    })
    lines = ["volume C 1 1", "lane a", "begin 9", "gather", "await", *A_SET]
    runs("orders without a writer", lines, has={"^= set 1 complete$": 1})
    # 1,024 components, each with the longest path and name
    parts = [component(f"{'x' * 60}{n:04}", "x" * 255) for n in range(1025)]
    lines = ["volume C 1 1", "lane a", "begin 9 all", "gather", "await", "document", *A_SET]
    found = {r"^\d+ lane a 8 document 417835 [0-9a-f]{64}$": 1, "^= set 1 complete$": 1}
    runs("1,024 components", [writer("w", parts[:1024]), *lines], has=found)
    refused("1,025 components", [writer("w", parts), "volume C 1 1"], "line 2: BadDocument")


# ## a day's use

def day():
    logs = [component(f"log{n}", "main", False, 2) for n in (1, 2)]
    lines = [f"volume {v} 1024 2048" for v in "CDE"] + [writer("sql", [component("main"), *logs], "Sql", digit="4")]
    lines += [writer("files", [component("home", kind=2)], "Files", 1, 3, "5"), "lane r"]
    one = ["begin 9", "gather", "await", "component sql main", "component files home", "start", "add D", "add E"]
    lines += (one + A_SET[1:]) * 2 + ["delete 1"]
    for n in range(1, 9):
        lines.append(f"lane w{n} as {'sql' if n <= 4 else 'files'}")
        lines += [f"write {'CDE'[k % 3]} {128 * (n - 1) + k // 3 % 128} stamp {1000 * n + k}" for k in range(625)]
    # each lane writes blocks of its own, so the contents do not depend on the order
    runs("a day's use", lines, has={
        "^= set [12] complete$": 2, r"^= (?:evicted|set \d+ failed)": 0, r"^\d+ lane r 40 deleted 3$": 1,
        "^image 2 [CDE] ": 3, "^image ": 3,
        r"^volume C used \d+ of 2048 6da9c042c379cfd47a1430dc374362e30f0940303a2e74f2551ec9e8b9b306e7$": 1,
        r"^volume D used \d+ of 2048 396f564cb3cd324f7e4e0e94b762b20c35a24798c746bd6cacaf355404a7c409$": 1,
        r"^volume E used \d+ of 2048 f059328affcda27498afea403fe63d80d4df0bdb64b90795d89ba6f7ee8e4650$": 1,
    })


declarations()
sets()
day()
ends(f"{tried} things as promised")
