"""Volumes with images reply as a second reading of what they promise, checks/storage/volumes.py: copy-on-write volumes, also taken apart and up
again; volumes with mirrors; images that writers mend; and volumes behind locks, two writers and a cut in every order of their calls, and in threads.
Rows by hand, single calls of devices that fail, drawn lists, and the most that there may be.

A file checks/storage/SUBJECT.rows has rows `CALL => REPLY`, with ` / ` between those of a line, worked out by hand. `SHORT` has
what is left out of a reply, or all of it, with the arrow. A call that replies nothing has no arrow, and a further line of
a reply has no call. An empty line begins anew. A line `N times ROWS` stands for N lines, with the number of each in place of
`#`. The rows have to be as the rules have it; the modules there make the drawn lists.

In threads each of 3 writers makes 2,000 writes, the nth of which puts n into block n modulo 4; 12 cuts are made
meanwhile. What has to be so is computed from the numbers that the entries of each writer have in the journal.
"""
import concurrent.futures
import itertools
import os
import re
import sys
from pathlib import Path

from common import TOP, begin, ends, holds, ran

sys.path.append(os.path.join(TOP, "checks/storage"))
import groups
import mirrors
import recover
import shards

SHARDS, WRITES, CUTS, BLOCKS, RUNS = 3, 2000, 12, 4, 12
# the rules of the rows by hand, None where an order of calls alone has one, and the module of the lists
SUBJECTS = {
    "cow": (groups.Groups, groups), "cow_again": (groups.Catalog, None), "mirror": (mirrors.Singly, mirrors), "recover": (recover.Recover, recover),
    "shards": (None, shards),
}


# how replies are written in the rows: of which subjects, to which calls, in short, and in full, where @ is the call's word
SHORT = [re.fullmatch(r"([a-z ]+)  ([a-z_ -]+): ?(.*) => (.*)", line).groups() for line in r"""
cow mirror recover  write: => Ok(Written { evicted_up_to: 0 })
cow recover  write: (\d+) => Ok(Written { evicted_up_to: \1 })
cow mirror  read image lend-image: (\d+) => Ok(Some(\1))
recover  read image: (\d+) => Ok(Fill(\1))
recover  read image: stamp (\d+) => Ok(Stamp(\1))
mirror  step: (\d+) => Ok(Copied { block: \1 })
mirror  step: => Ok(InStep)
cow recover  cut: => ()
cow mirror recover  cut drop revert flush sync pre_final recover: => Ok(())
cow mirror recover  read image lend-image write cut drop revert flush sync step pre_final recover: ((?!Ok)[A-Z]\w+.*) => Err(\1)
shards  volume shards draft: => Done
shards  give_back: => GaveBack
shards  collect gather: => @(Ok(()))
shards  record: (\d+) => @(Ok(\1))
shards  fill stamp: (\d+) => Write(Ok(\1))
shards  fill stamp: (\w+) => Write(Err(\1))
shards  image read: (\d+) => @(Ok(Fill(\1)))
shards  image read: stamp (\d+) => @(Ok(Stamp(\1)))
shards  collect record image read: (\w+) => @(Err(\1))
shards  cuts number: (\d+) => @(\1)
shards  is_held: (\w+) => IsHeld(\1)""".splitlines()[1:]]


def in_full(subject, call, reply):
    """A reply in full; nothing where a call has none."""
    for subjects, words, short, full in SHORT:
        if subject in subjects.split() and call.split()[0] in words.split() and (found := re.fullmatch(short, reply)):
            return found.expand(full).replace("@", call.split()[0].title())
    return reply


def lines_of(path):
    for line in path.read_text(encoding="ascii").splitlines():
        times = re.match(r"(\d+) times ", line)
        if times:
            yield from (line[times.end():].replace("#", str(n)) for n in range(1, int(times[1]) + 1))
        elif not line.startswith("#"):
            yield line


def subject_of(name):
    """The subject of a file or a list, whose name begins with it."""
    return re.match("[a-z]+", name)[0]


def rows_of(path, rules):
    """The calls of a file, each with the lines of its reply; those by rules have one subject from the first to the last."""
    rows, subject = [], subject_of(path.stem)
    for line in lines_of(path):
        if not line and not rules:
            rows.append((f"subject {subject}", []))
        for text in line.split(" / ") if line else ():
            call, _, reply = text.partition("=> ")
            if call:
                reply = in_full(subject, call, reply)
                rows.append((call.rstrip(), [reply] * bool(reply)))
            else:
                rows[-1][1].append(reply)
    return rows


def said_to(program, subject, calls):
    """What the program says to calls, a line each."""
    done = ran([program, subject], input="".join(f"{call}\n" for call in calls).encode())
    return done.stdout.decode().splitlines() if done.returncode == 0 else [f"status {done.returncode}"]


def wrong_by_rules(name, rules, rows):
    """The first row by hand that is another by the rules."""
    ruled = rules().make_all(call for call, _ in rows).rows if rules else rows
    differ = (f"{name}: by the rules {call} replies {by_rule}, and not {lines}" for (call, lines), (_, by_rule) in zip(rows, ruled) if list(by_rule) != lines)
    return list(itertools.islice(differ, 1))


def wrong_by_program(program, name, rows):
    """The first reply of the program that is another than its row has."""
    wanted = [(call, line) for call, lines in rows for line in lines]
    said = said_to(program, subject_of(name), [call for call, _ in rows])
    differ = (f"{name}: of {call[:150]} it is said {reply[:150]}, and not {line[:150]}"
              for (call, line), reply in itertools.zip_longest(wanted, said, fillvalue=("", "")) if line != reply)
    return list(itertools.islice(differ, 1))


# ## in threads

def calls():
    """The calls, in order."""
    yield from [f"volume {BLOCKS} 64"] * SHARDS
    yield from ("shards", f"threads {WRITES} {CUTS}", "cuts")
    yield from (f"cut {cut}" for cut in range(1, CUTS + 1))
    for cut, volume, block in itertools.product(range(1, CUTS + 1), range(SHARDS), range(BLOCKS)):
        yield f"image {volume} {cut} {block}"
    yield from ("fill 0 0 255", "gather")


def image_of(count, block):
    """What a block has after the first so many writes of a writer."""
    last = next((n for n in range(count, 0, -1) if n % BLOCKS == block), 0)
    return f"Image(Ok(Stamp({last})))" if last else "Image(Ok(Fill(0)))"


def is_one_prefix(entries, parts):
    """Whether some first so many entries of the journal have just these many of each volume."""
    last = [entries[volume][count - 1] for volume, _, count in parts if count]
    following = [number for volume, _, count in parts for number in entries[volume][count:count + 1]]
    return max(last, default=0) < min(following, default=SHARDS * WRITES + 1)


def what_is_so(reply, tally):
    """Each thing that has to be so, and whether it is. Adds to the tally how many cuts fell between writes."""
    numbers = re.fullmatch(r"Entries\(\[(.*)\]\)", reply[f"threads {WRITES} {CUTS}"])[1]
    entries = [[int(n) for n in own.split(", ")] for own in re.findall(r"\[([^]]*)\]", numbers)]
    is_in_order = all(own == sorted(own) for own in entries)
    yield "each writer made its writes, in order", [len(own) for own in entries] == [WRITES] * SHARDS and is_in_order
    yield "each number of the journal is of one entry", sorted(sum(entries, [])) == list(range(1, SHARDS * WRITES + 1))
    yield "the journal has no other entry", reply["fill 0 0 255"] == f"Write(Ok({SHARDS * WRITES + 1}))"
    yield "each cut was made", reply["cuts"] == f"Cuts({CUTS})"
    part = re.compile(r"volume: (\d+), image: (\d+), count: (\d+)")
    cuts = [[tuple(map(int, it)) for it in part.findall(reply[f"cut {cut}"])] for cut in range(1, CUTS + 1)]
    for cut, parts in enumerate(cuts, 1):
        yield f"cut {cut} has its image of each volume", [it[:2] for it in parts] == [(v, cut) for v in range(SHARDS)]
        yield f"cut {cut} is one prefix of the journal", is_one_prefix(entries, parts)
        for (volume, image, count), block in itertools.product(parts, range(BLOCKS)):
            is_so = reply[f"image {volume} {image} {block}"] == image_of(count, block)
            yield f"block {block} of image {image} of volume {volume} is that after the prefix", is_so
    yield "all is one whole", reply["gather"] == "Gather(Ok(()))"
    tally.append(sum(0 < sum(count for _, _, count in parts) < SHARDS * WRITES for parts in cuts))


def main():
    _, program = begin("trials")
    count, tally, jobs = {}, [], []
    with concurrent.futures.ThreadPoolExecutor() as pool:
        for subject, (rules, module) in SUBJECTS.items():
            rows = rows_of(Path(f"checks/storage/{subject}.rows"), rules)
            jobs.append(pool.submit(wrong_by_rules, subject, rules, rows))
            for name, made in {"by hand": rows, **(module.lists() if module else {})}.items():
                rows = made if rules is None or name == "by hand" else [row for one in made for row in one.rows]
                jobs.append(pool.submit(wrong_by_program, program, f"{subject} {name}", rows))
                count[subject] = count.get(subject, 0) + sum(len(lines) for _, lines in rows)
        for run in range(RUNS):
            said = dict(zip(calls(), said_to(program, "shards", calls())))
            is_whole = len(said) == len(set(calls()))
            for what, is_so in what_is_so(said, tally) if is_whole else [(said, False)]:
                holds(is_so, f"run {run} in threads: {what}")
        for wrong in (wrong for job in jobs for wrong in job.result()):
            holds(False, wrong)
    ends(f"{sum(count.values())} replies ({', '.join(f'{name} {number}' for name, number in count.items())}), and {RUNS} runs of three "
         f"writers and {CUTS} cuts in threads, {sum(tally)} of the cuts between writes")


main()
