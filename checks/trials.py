"""The service over streams and devices in memory: both volumes of a set are cut at one moment in each of 126 orders, and each call of the source, the
sink and the devices that fails leads to a status that it may have; and each first part of a text is read or refused at its last line. In threads: the
gate is told once before and once after each step of 129 actors, whatever the threads do; and of two hundred runs of lanes that are active at the same
time each makes each line once, in order. That each report is that of its own legal and complete trail is proved (`run`, clause `done`)."""
import itertools
import re

from common import begin, ends, holds, ran, read, write

FOLDER, TRIAL, TOOLS, VSS = begin("trials", "vss_tools", "vss")


# ## both volumes of a set are cut at one moment

# what the images of both volumes have by the number of writes before the cut: blocks 0 and 1 of each
ZEROS = "c35020473aed1b4642cd726cad727b63fff2824ad68cedd7ffb73c7cbd890479"
ONES = "d8dad37662ab2d109722504101f1984d316ea6ab1bf239264f56258389f66f80"
TWOS = "c1b5635a1b2812d2c270a1d3a91cfa4b45f1cba43e87b61be8e0ee5de29de09f"
ALL_OF_C = "b283b11a5bb6a93bf64ff7d2e12155021bcdeff36c8b5c2e2d0296ef3de268f6"
ALL_OF_D = "c41488ff342589aa25c49de04a5c6f86c60f6a76711242aa610dd44d8954f956"
OF_C, OF_D = (ZEROS, ONES, ONES, ALL_OF_C, ALL_OF_C), (ZEROS, ZEROS, TWOS, TWOS, ALL_OF_D)
MOVES = ["lane r"] * 5 + ["provider"] * 11 + ["lane r"] * 2


def order_of(places):
    """Returns the moves of a set over two volumes with four writes, each after so many of the other moves, and whether the last one has to wait.
    Writes 1 and 3 are of the first volume, which is held from move 9 on; the others are of the second, held one move later; each for four moves."""
    order = []
    for after in range(len(MOVES) + 1):
        for write_of in range(4):
            if places[write_of] == after:
                order.append("lane w")
                if 9 + write_of % 2 <= after <= 13 + write_of % 2:
                    return order, True
        order += MOVES[after:after + 1]
    return order, False


def one_cut():
    all_of = list(itertools.combinations_with_replacement((0, 9, 10, 11, 14, 15), 4))
    for places in all_of:
        order, waits = order_of(places)
        write(f"{FOLDER}/order", "".join(f"{move}\n" for move in order).encode())
        done = ran([TOOLS, "orders", "order", "checks/trials/one_cut.scenario", f"{FOLDER}/order"])
        before = sum(it < 11 for it in places)
        if waits:
            line = f"orders: {FOLDER}/order: line {len(order)}: this move may not come here: its actor has to wait\n"
            holds(done.returncode == 3 and done.stderr.decode().startswith(line), f"one cut: {places}: {done.stderr}")
        else:
            images = [f"image 1 C {OF_C[before]}", f"image 1 D {OF_D[before]}"]
            found = re.findall("^image .*$", done.stdout.decode(), re.M)
            holds(found == images, f"one cut: {places}: {done.stdout} {done.stderr}")
    return f"{len(all_of)} orders of one cut"


# ## failing calls

def failing_calls():
    """Each call of the source, the sink and the devices of the first example fails, alone or with all that follow."""
    words = ["--program", VSS, "--trial", TRIAL, "--orders", TOOLS, "--scenarios", "examples/first.scenario"]
    done = ran(["tools/failing", "calls", *words], timeout=3600)
    runs = re.search(r"^all +(\d+)", done.stdout.decode(), re.M)
    holds(done.returncode == 0 and runs, done.stderr.decode())
    return f"{runs and runs[1]} runs with failing calls"


# ## first parts of a text

def first_parts():
    """Each first part of a text is read, or refused at its last line."""
    text = re.sub(rb"^#.*\n", b"", read("examples/orders/freeze_levels.scenario"), flags=re.M)
    for size in range(len(text)):
        part = text[:size]
        line = part.count(b"\n") + 1
        wanted = "made" if part.endswith(b"\n") else f"vss: line {line}: NoNewline" if part else "vss: line 1: Empty"
        said = ran([TRIAL, "run"], input=part).stderr.decode().split("\n")
        # (a set that fails has a line above)
        said = next(it for it in said if not it.startswith("vss: set "))
        holds(said.startswith(wanted), f"the first {size} bytes: {said} and not {wanted}")
    return f"{len(text)} first parts"


# ## actors in threads

COUNTED = re.compile(rb"before (\d+) after (\d+) moved (\d+)\n$")


def turns():
    """64 lanes, 64 writers and the provider at one turn: the gate is told once before and once after each step, and
    each line is made once."""
    names, text = range(10, 74), ["scenario 1", "volume C 1 1"]
    main = '"components":[{"name":"main","path":"","selectable":true,"type":2}],"level":2,"source":3,"usage":3'
    for n in names:
        text.append(f'writer w{n} {{"class":"000000{n}-1111-4111-8111-111111111111","name":"W{n}",{main}}}')
    for n in names:
        text.append(f"lane l{n}")
        # the first two lanes make a set each, for which all writers are asked for their metadata and one takes part
        if n < 12:
            text += ["begin 9", "gather", "await", f"component w{n} main", "start", "add C", "prepare", "await"]
            text += ["snapshot", "await", "complete", "await", "end"]
        text.append(f"write C 0 fill {n}")
    for run in range(10):
        done = ran([TRIAL, "run"], input="\n".join([*text, ""]).encode())
        before, after, moved = map(int, COUNTED.search(done.stderr).groups())
        is_told = done.returncode == 0 and before == after >= 129 and 1 <= moved <= after
        holds(is_told, f"turns, run {run}: {before} times before a step, {after} after one, {moved} moves")
        made = re.findall(r"^\d+ lane (\w+ \d+)", done.stdout.decode(), re.M)
        counts = len(made), len(set(made))
        holds(counts == (64 + 2 * 13,) * 2, f"turns, run {run}: {counts[0]} lines, {counts[1]} different")
    return f"10 runs of 129 actors, the last with {before} steps"


def active_lanes():
    """200 runs of a scenario whose lanes are active at the same time: each report has each line once, in order, and they
    are not all alike."""
    lines = ["scenario 1", *(f"volume V{lane} 4 4" for lane in range(4))]
    wanted = {}
    for lane in range(4):
        lines.append(f"lane l{lane}")
        wanted[f"l{lane}"] = [len(lines) + n for n in range(1, 13)]
        lines += [f"write V{lane} {n % 4} fill {n}" for n in range(1, 13)]
    reports = set()
    for run in range(200):
        done, made = ran([VSS, "run"], input="\n".join([*lines, ""]).encode()), {}
        for lane, line in re.findall(r"^\d+ lane (\w+) (\d+)", done.stdout.decode(), re.M):
            made.setdefault(lane, []).append(int(line))
        holds(done.returncode == 0 and made == wanted, f"lanes, run {run}: status {done.returncode}, {made}")
        reports.add(done.stdout)
    holds(len(reports) > 1, "all reports of active lanes are alike")
    return f"200 runs of active lanes with {len(reports)} different reports"


ends("; ".join(part() for part in (one_cut, failing_calls, first_parts, turns, active_lanes)))
