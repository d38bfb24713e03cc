"""The calls of a group of copy-on-write volumes, and lists of them: with each call of each device failing, drawn, and with groups that are taken
apart and up again after a sync."""
import hashlib
import random
import struct

from rows import Subject, as_result, fails, reverted, written
from volumes import Group, Refused, some

NAMES = [bytes([letter]) for letter in b"CDEFGHIJKLMNOPQRSTUVWXYZ"]


class Groups(Subject):
    """Calls of a group."""

    group = None

    def reply(self, word, *rest):
        values = [int(n) for n in rest]
        if word == "group":
            self.group = Group(values[1:], values[0], self.taken_failing())
            return None
        group = self.group
        return {
            "write": lambda *place: written(*group.write(*place)),
            "read": lambda *place: as_result(lambda: some(group.read(*place))),
            "image": lambda *place: as_result(lambda: some(group.image(*place))),
            "lend": lambda v, block: lent(group.devices[v], block),
            "lend-image": lambda *place: as_result(lambda: lent(*group.shown(*place))),
            "cut": lambda *image: str(group.cut(*image) or "()"),
            "drop": lambda *image: as_result(lambda: group.drop(*image)),
            "revert": lambda *image: reverted(lambda: group.revert(*image), "Fault {}"),
            "flush": lambda v: as_result(lambda: group.devices[v].call("flush")),
            "sync": lambda: as_result(group.sync),
            "slots": lambda: str(len(group.slots)),
            "used_all": lambda: str(group.used()),
            "used": lambda v: str(group.used(v)),
            "used_by": lambda v, set_: some(group.used(v, set_)) if set_ in group.images[v] else "None",
            "images": lambda v: str(group.images[v]),
            "up_to": lambda *place: str(group.goes_up_to(*place)),
        }[word](*values)


def lent(device, place):
    content = device.lend(place)
    return "None" if content is None else some(some(content))


# ## taken apart and up again

def sealed(body):
    """With its digest, two digits a byte."""
    return (body + hashlib.sha256(body).digest()).hex()


def body_of(names, blocks, images):
    """A catalog but for its digest: the letters, the number of volumes, and for each its name, blocks and sets."""
    body = b"VSSCAT01" + struct.pack("<I", len(blocks))
    for name, count, sets in zip(names, blocks, images):
        body += struct.pack("<I", len(name)) + name + struct.pack("<II", count, len(sets))
        body += b"".join(struct.pack("<I", s) for s in sets)
    return body


def lists_in(digits):
    """The sets of each volume that a good catalog names."""
    body, at, lists = bytes.fromhex(digits), 12, []
    for _ in range(int.from_bytes(body[8:12], "little")):
        at += 4 + int.from_bytes(body[at:at + 4], "little") + 4
        count = int.from_bytes(body[at:at + 4], "little")
        lists.append([int.from_bytes(body[at + 4 * n:at + 4 * n + 4], "little") for n in range(1, count + 1)])
        at += 4 + 4 * count
    return lists


class Catalog(Groups):
    """Calls of a group that is taken apart and up again."""

    def reply(self, word, *rest):
        if word == "again":
            return [sealed(body_of(NAMES, self.blocks(), self.group.images))] + self.again(*rest)
        return super().reply(word, *rest)

    def blocks(self):
        return [len(device.blocks) for device in self.group.devices]

    def again(self, digits=None):
        """What comes of the bytes of a catalog, the group's own or others, and of the area, which is loaded."""
        if digits is not None and sealed(bytes.fromhex(digits)[:-32]) != digits:
            return ["Err(Digest)"]
        try:
            self.group.load()
        except Refused:
            return ["Err(Device)"]
        slot = None if digits is None else self.group.slot_without_image(lists_in(digits))
        return ["Ok(())" if slot is None else f"Err(NoImage {{ slot: {slot}, set: {self.group.slots[slot][0]} }})"]


class Life(Catalog):
    """A group with calls by chance."""

    def __init__(self, blocks, slots, failing=None):
        super().__init__()
        for name, by_kind in (failing or {}).items():
            self.make_all(fails(name, by_kind))
        self.make(" ".join(map(str, ["group", slots] + blocks)))
        self.newest = 0

    def make_counts(self, v):
        self.make_all(["used_all", f"used {v}", f"images {v}"])
        self.make_all([f"used_by {v} {s}" for s in self.group.images[v][:2] + [self.newest + 1]])
        self.make(f"up_to {v} {(self.newest * 7 + v) % self.blocks()[v]}")

    def make_all_reads(self):
        for v, sets in enumerate(self.group.images):
            for block in range(self.blocks()[v]):
                self.make_all([f"read {v} {block}"] + [f"image {v} {s} {block}" for s in sets])

    def make_any(self, dice, reverts):
        """One call of any kind: of a set that mostly stands, and of a block that mostly is there."""
        v = dice.randrange(len(self.group.devices))
        sets, size = self.group.images[v], self.blocks()[v]
        block = min(dice.randrange(size * 8 + 1) // 8, size)
        set_ = dice.choice(sets) if sets and dice.random() < 0.85 else self.newest + 1
        turn = dice.random()
        if turn < 0.2:
            self.newest += dice.randint(0, 2) if self.newest and self.newest not in sets else 1
            self.make(f"cut {v} {self.newest}")
        elif turn < 0.6:
            self.make(f"write {v} {block} {dice.randint(0, 250)}")
        elif turn < 0.75:
            self.make(f"image {v} {set_} {block}")
        elif turn < 0.8 and block < size:
            self.make(f"read {v} {block}")
        elif turn < 0.87:
            self.make(f"drop {v} {set_}")
        elif turn < 0.9 and reverts:
            self.make(f"revert {v} {set_}")
        else:
            self.make_counts(v)


# ## lists of calls

# two volumes with images, of which the older goes by merging, an eviction on both volumes, a revert and a sync
ALL_CALLS = """\
cut 0 1 / cut 1 1 / write 0 0 11 / write 1 2 12 / cut 0 2 / write 0 0 13 / write 0 1 14 / image 0 1 0 / image 0 2 1 / revert 0 1 / write 0 3 15 / sync
cut 1 2 / write 1 2 16 / write 1 0 17 / write 1 1 18 / used 0 / used 1 / used_all / flush 0 / flush 1 / sync / used 0 / used 1 / used_all""".replace("\n", " / ").split(" / ")


def failing():
    """The calls above over devices of which one call fails, up to the number that is never reached."""
    for device in "volume0", "volume1", "area":
        for kind, most in ("read", 6), ("write", 12), ("flush", 3):
            for number in range(1, most + 1):
                yield Groups().make_all([f"fails {device} {kind} {number}", "group 4 4 4"] + ALL_CALLS)


def drawn(seed):
    """A list of calls drawn at random."""
    draw = random.Random(seed)
    volumes, blocks, slots = draw.randint(1, 3), draw.randint(1, 6), draw.randint(0, 9)
    lines = []
    for device in [f"volume{n}" for n in range(volumes)] + ["area"]:
        lines += fails(device, {call: sorted(draw.sample(range(1, 20), 3)) for call in ("read", "write", "flush") if draw.random() < 0.2})
    lines.append(" ".join(map(str, ["group", slots] + [blocks] * volumes)))
    newest = 0
    for _ in range(120):
        v, block = draw.randrange(volumes), draw.randrange(blocks + (draw.random() < 0.1))
        wanted, inside = draw.randint(1, newest + 1), draw.randrange(blocks)
        choices = [f"write {v} {block} {draw.randrange(256)}"] * 6
        choices += [f"cut {v} {newest + 1}", f"read {v} {block}", f"lend {v} {inside}", f"image {v} {wanted} {block}"]
        choices += [f"lend-image {v} {wanted} {block}", f"drop {v} {wanted}", f"revert {v} {wanted}", f"used_by {v} {wanted}"]
        choices += [f"flush {v}", "sync", f"used {v}", f"images {v}", "slots", f"up_to {v} {inside}", "used_all"]
        lines.append(draw.choice(choices))
        newest += lines[-1].startswith("cut")
    return Groups().make_all(lines)


def groups(seeds, most):
    """What a group is like, by a seed: the numbers of blocks of its volumes, and of slots; and the dice with the further choices."""
    for seed in seeds:
        dice = random.Random(seed)
        yield [dice.randint(1, 5) for _ in range(dice.randint(1, most))], dice.randint(0, 9), dice


def lives(most, is_reopened):
    """Forty lists of calls, with a sync now and then, after which the group may be taken apart and up again."""
    for blocks, slots, dice in groups(range(40), most):
        life = Life(blocks, slots)
        for turn in range(90):
            life.make_any(dice, True)
            if turn % 17 == 16:
                life.make("sync")
                if is_reopened:
                    life.make("again")
        life.make_all_reads()
        yield life


def faulty(seeds):
    """Groups of which device calls fail, some of them after the group was taken up; one that is not taken up is gone."""
    for blocks, slots, dice in groups(seeds, 3):
        failing = {}
        for name in ["area"] + [f"volume{v}" for v in range(len(blocks))]:
            failing[name] = {kind: sorted(dice.sample(range(1, 25), dice.randint(0, 3))) for kind in ("read", "write")}
        life = Life(blocks, slots + 2, failing)
        for turn in range(90):
            life.make_any(dice, False)
            if turn % 23 == 22 and life.make("sync") == ["Ok(())"] and life.make("again")[1] != "Ok(())":
                break
        else:
            life.make_all_reads()
        yield life


def unread():
    """An area of which a read fails as it is loaded."""
    for number in (1, 2):
        yield Life([3, 2], 4, {"area": {"read": [number]}}).make_all(["cut 1 1", "write 1 1 6", "sync", "again"])


def lacking():
    """Groups that are taken up with lists of which one set is missing: each set of each volume in turn."""
    for blocks, slots, _ in groups(range(200, 212), 3):
        for v in range(len(blocks)):
            for place in range(4):
                again = random.Random(blocks[0] * 100 + slots)
                life = Life(blocks, slots + 4)
                for _ in range(60):
                    life.make_any(again, False)
                life.make("sync")
                lists = [list(sets) for sets in life.group.images]
                if place < len(lists[v]):
                    del lists[v][place]
                life.make("again " + sealed(body_of(NAMES, blocks, lists)))
                yield life


def limits():
    """As many volumes as a group may have, of which the last one is written; volumes past 4,096 blocks; and as many images as there may be."""
    life = Life([1] * 128, 128)
    life.make_all(f"cut {v} 1" for v in range(128))
    life.make_all(f"write {v} 0 {v + 1}" for v in range(64, 128))
    life.make_all(["used_all", "sync"])
    life.make_all(f"image {v} 1 0" for v in range(63, 128))
    yield life
    life = Life([5000, 4097], 4097)
    life.make_all(["cut 0 1", "cut 1 1", "write 0 4999 7", "write 1 4096 8", "write 1 4097 9", "sync", "again"])
    life.make_all(["image 0 1 4999", "read 0 4999", "image 1 1 4096", "read 1 4096", "image 1 1 4097", "used_all"])
    yield life
    life = Life([2], 512)
    for set_ in range(1, 513):
        life.make_all([f"cut 0 {set_}", f"write 0 0 {set_ % 251}"])
    yield life.make_all(["images 0", "used_all", "sync", "again", "image 0 1 0", "image 0 512 0", "up_to 0 0", "up_to 0 1", "write 0 1 9"])


def but_again(lists):
    """What lists reply, but to the calls that take a group up again."""
    return [lines for one in lists for call, lines in one.rows if not call.startswith("again")]


def lists():
    """Of groups that are never taken apart, or after each sync; of which device calls fail; of which a catalog lacks a set; and at the limits."""
    kept, again = list(lives(3, False)), list(lives(3, True))
    if but_again(kept) != but_again(again):
        raise SystemExit("storage: a group that was taken up again goes on otherwise")
    return {
        "failing": failing(), "drawn": map(drawn, range(300)), "kept": kept, "again": again,
        "faults": [*faulty(range(100, 140)), *unread()], "lacking": lacking(), "limits": limits(),
    }
