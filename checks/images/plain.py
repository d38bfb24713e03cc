"""A folder of images as whole copies of files: what each call of `images` prints, and with which status it ends. A
second reading, written from the description of the calls alone.

A volume is the bytes of its file and a number of blocks; an image is a copy of these bytes. Blocks come in only where images go for want of slots: an
image uses a slot for each block that was overwritten between its cut and the next one's on the same volume.
"""
import hashlib
import struct

BLOCK = 16384
MOST = 128 * 65535 + 1  # blocks of a file: 65,535 in each of 128 volumes, and one with its length
FORMS = {
    "create": "create [--tries N] F SLOTS NAME[:BLOCKS]=FILE ..",
    "cut": "cut [--note TEXT] F NAME ..",
    "update": "update [--dry-run] [--tries N] [--keep N] F NAME=FILE ..",
    "list": "list [--json] F",
    "sets": "sets F",
    "diff": "diff [--json] F SET [SET] [NAME]",
    "show": "show F [SET] NAME",
    "restore": "restore [--over] F [SET] NAME FILE, restore [--over] F SET FOLDER",
    "digest": "digest F [SET] NAME",
    "delete": "delete F SET [NAME]",
    "prune": "prune --keep N F",
    "revert": "revert F SET NAME",
    "grow": "grow F SLOTS, grow F NAME=BLOCKS",
    "add": "add [--tries N] F NAME[:BLOCKS]=FILE",
    "remove": "remove F NAME",
    "check": "check F",
}
# the forms that are drawn, of which the first that the words have is meant
READ = {
    "create": ["F SLOTS PAIR +"], "cut": ["F NAME +"], "update": ["F FILE +"], "list": ["F"], "diff": ["F SET", "F SET SET", "F SET NAME", "F SET SET NAME"],
    "show": ["F NAME", "F SET NAME"], "digest": ["F NAME", "F SET NAME"], "delete": ["F SET", "F SET NAME"], "revert": ["F SET NAME"],
    "grow": ["F SLOTS", "F GROWN"], "add": ["F PAIR"], "remove": ["F NAME"], "check": ["F"],
}
SLOTS = "; SLOTS says for how many old blocks of 16,384 bytes there is room: as many as change while a version is kept"


class Ends(Exception):
    """A call that is not done: its status and its line."""

    def __init__(self, status, line):
        super().__init__(line)
        self.status, self.line = status, line


def hold(condition, line, status=3):
    """Ends the call with this line where the condition does not hold."""
    if not condition:
        raise Ends(status, line)


def number(word, least):
    """The number that a word is, or None."""
    if not (word.isascii() and word.isdigit()) or (len(word) > 1 and word[0] == "0"):
        return None
    value = int(word)
    return value if least <= value < 2**32 else None


def pair(word):
    """The name, the number of blocks and the file of a word, or None."""
    front, sign, file = word.partition("=")
    if not sign or not file:
        return None
    name, sign, blocks = front.partition(":")
    if not sign:
        return name, None, file
    blocks = number(blocks, 0)
    return None if blocks is None else (name, blocks, file)


def grown(word):
    """The name and the number of blocks of a word, or None."""
    name, sign, blocks = word.partition("=")
    return (name, number(blocks, 0)) if sign and number(blocks, 0) is not None else None


KINDS = {
    "F": str, "NAME": str, "SLOTS": lambda word: number(word, 0), "SET": lambda word: number(word, 1), "PAIR": pair, "GROWN": grown,
    "FILE": lambda word: pair(word) if (pair(word) or ("", 0))[1] is None else None,
}


def read(task, words):
    """What the words of a task are, by the first form that they have, or None."""
    for form in READ[task]:
        kinds = form.split()
        if kinds[-1] == "+":
            kinds[-1:] = kinds[-2:-1] * (len(words) - len(kinds) + 1)
        values = [KINDS[kind](word) for kind, word in zip(kinds, words)]
        if len(kinds) == len(words) and None not in values:
            return values
    return None


def blocks_of(data, count):
    """The blocks of a volume that has the file, or that has None, for a file that was not there."""
    whole = (data or b"").ljust(BLOCK * count - 8, b"\0") + struct.pack("<Q", 2**64 - 1 if data is None else len(data))
    return [whole[BLOCK * b:BLOCK * (b + 1)] for b in range(count)]


def runs_of(blocks):
    """The words of blocks as runs of neighbours."""
    firsts = [b for b in sorted(blocks) if b - 1 not in blocks]
    lasts = [b for b in sorted(blocks) if b + 1 not in blocks]
    return ",".join(str(first) if first == last else f"{first}-{last}" for first, last in zip(firsts, lasts))


def sum_of(block):
    """The sum of a block: of its numbers of four bytes the sum, and the sum of the sums up to each."""
    first = second = 0
    for word in struct.unpack("<4096I", block):
        first += word
        second += first
    return struct.pack("<2Q", first, second)


def parts_of(state):
    """The head of a state, its front, its sums, and the number of its slots."""
    end = 16 + int.from_bytes(state[12:16], "little")
    slots = int.from_bytes(state[end + 12:end + 16], "little")
    sums = end + BLOCK * (1 + -(-slots // 1024))
    return state[:end], state[end:sums], state[sums:-32], slots


def without_sums(state):
    """A state as of an earlier program."""
    head, front, _sums, _slots = parts_of(state)
    return head + front + hashlib.sha256(head + front).digest()


def sums_of(state, volumes, area):
    """The sums that a state has to have where these are the bytes of its volumes, and of its area; those of free slots as they are."""
    _head, front, sums, slots = parts_of(state)
    data = b"".join(volumes)
    wanted = [sum_of(data[at:at + BLOCK]) for at in range(0, len(data), BLOCK)]
    for slot in range(slots):
        at, place = len(front) + BLOCK * slot, 16 * len(wanted)
        is_free = front[BLOCK + 16 * slot:BLOCK + 16 * slot + 4] == bytes(4)
        wanted.append(sums[place:place + 16] if is_free else sum_of(area[at:at + BLOCK]))
    return b"".join(wanted)


def length_of(data):
    return b"absent" if data is None else b"length %d" % len(data)


class Image:
    def __init__(self, number_of_set, data, tails):
        self.set = number_of_set
        self.data = data
        self.copied = set()  # the blocks that are in slots for it
        self.tails = dict(tails)


class Volume:
    def __init__(self, name, data, count):
        self.name = name
        self.data = data
        self.count = count
        self.images = []  # the oldest first
        self.tails = {}  # what blocks that were the last end with, while they are not written

    @staticmethod
    def parts_for(count):
        """How many volumes of 65,536 blocks keep a file of so many, of which each has one for a length."""
        return max(1, -(-(count - 1) // 65535))

    def parts(self):
        return self.parts_for(self.count)

    def blocks(self):
        """Its blocks as they are."""
        blocks = blocks_of(self.data, self.count)
        return [block[:-8] + self.tails.get(b, block[-8:]) for b, block in enumerate(blocks)]

    def grow(self, count):
        """More blocks: the length of its file, and of each image's, is in the new last one."""
        for of in [self, *self.images]:
            of.tails[self.count - 1] = blocks_of(of.data, self.count)[-1][-8:]
        for image in self.images:
            if self.count - 1 in image.copied:
                image.copied.add(count - 1)
        self.count = count

    def written(self, one, other):
        """The blocks that were written between the cuts of two sets, or since one. All others are the same."""
        first, last = sorted((one, other)) if other else (one, None)
        blocks = set().union(*(i.copied for i in self.images if first <= i.set and (last is None or i.set < last)))
        old, new = (blocks_of(at.data, self.count) for at in (self.image(one), self.image(other) if other else self))
        assert all(old[b] == new[b] for b in range(self.count) if b not in blocks)
        return blocks

    def image(self, number_of_set):
        return next((i for i in self.images if i.set == number_of_set), None)


class Store:
    """What a folder holds."""

    def __init__(self, slots, volumes):
        self.slots = slots
        self.volumes = volumes
        self.last = 0
        self.together = [{v.name for v in volumes}]  # the names that one call brought to files last

    def bring(self, names):
        self.together = [line - set(names) for line in self.together] + [set(names)]

    def used(self):
        return sum(len(i.copied) for v in self.volumes for i in v.images)

    def evict_for(self, volume, block):
        """The images that go so that a write of the block has its slot, the least set of all together, in order of sets and then of volumes."""
        gone = []
        while volume.images and block not in volume.images[-1].copied and self.used() == self.slots:
            least = min(i.set for v in self.volumes for i in v.images)
            for v in self.volumes:
                gone += [(least, v.name) for i in v.images if i.set == least]
                v.images = [i for i in v.images if i.set != least]
        return gone

    def named(self, folder, name):
        found = [v for v in self.volumes if v.name == name]
        hold(found, f"{folder}: volume {name}: there is no such volume; ./images list shows all")
        return found[0]

    def all_named(self, folder, names):
        for place, name in enumerate(names):
            self.named(folder, name)
            hold(name not in names[:place], f"{folder}: volume {name}: given twice")
        return [self.named(folder, name) for name in names]

    def image(self, folder, number_of_set, volume):
        found = volume.image(number_of_set)
        hold(found, f"{folder}: set {number_of_set}: there is no image of it on {volume.name}; ./images list shows all")
        return found

    def images(self, folder, number_of_set, volumes, is_named):
        """Those of the volumes that have an image of a set: the one that is named, or some."""
        if is_named:
            self.image(folder, number_of_set, volumes[0])
        found = [v for v in volumes if v.image(number_of_set)]
        hold(found, f"{folder}: set {number_of_set}: there is no image of it; ./images sets shows all")
        return found


class Plain:
    """The folders and the files: `files` has the bytes of each path, or None for a folder that is no folder of images."""

    def __init__(self, files):
        self.files = files
        self.stores = {}

    def answer(self, words):
        """The status, the standard output and the line on the standard error, None where there is none."""
        out = []
        try:
            task, rest = (words[0], words[1:]) if words else ("", [])
            hold(task in FORMS, "usage: " + " | ".join(FORMS.values()) + "; --wait SECONDS may stand before F", 2)
            if rest[:1] == ["--tries"]:
                rest = rest[2:] if task in ("create", "update", "add") and number("".join(rest[1:2]), 1) else []
            values = read(task, rest)
            hold(values is not None, "usage: " + FORMS[task] + self.more(task, words), 2)
            line = getattr(self, task)(out, *values)
            return 0, b"".join(out), line
        except Ends as ended:
            return ended.status, b"".join(out), ended.line

    @staticmethod
    def more(task, words):
        """What is said behind a form."""
        if task == "create":
            return SLOTS
        if task in ("show", "digest", "delete", "revert") and len(words) == 4 and number(words[3], 1) is not None:
            return f"; did you mean `{task} {words[1]} {words[3]} {words[2]}`?"
        return ""

    def read(self, path):
        if path == "-":
            return None
        hold(path in self.files, f"{path}: could not be read: No such file or directory (os error 2)", 4)
        hold(self.files[path] is not None, f"{path}: is no file, but a directory", 4)
        return self.files[path]

    def store(self, folder):
        missing = "No such file or directory (os error 2)" if self.files.get(folder) is None else "Not a directory (os error 20)"
        hold(folder in self.stores, f"{folder}: no folder of images (images.state: {missing}); ./images create makes one of a new name")
        return self.stores[folder]

    # ## what is refused

    def fits(self, name, count, file):
        """The bytes of a file that a volume of so many blocks has room for."""
        data = self.read(file)
        length = len(data or b"")
        told = f"{length} bytes, and {name} has room for {BLOCK * (count or 0) - 8}; it needs {-(-(length + 8) // BLOCK)} blocks"
        hold(count is None or length <= BLOCK * count - 8, f"{file}: length: {told}")
        return data

    def new_volume(self, name, count, file):
        data = self.fits(name, count, file)
        return Volume(name, data, -(-(len(data or b"") + 8) // BLOCK) if count is None else count)

    @staticmethod
    def check_more(store, more):
        total = sum(v.parts() for v in store.volumes)
        hold(total + more <= 128, f"volumes: {total} are there and {more} would come, at most 128")

    @staticmethod
    def check_count(name, count):
        hold(count is None or 1 <= count <= MOST, f"{name}: blocks: {count}, and a file has 1 to {MOST}")

    @staticmethod
    def check_slots(slots):
        hold(slots <= 65536, f"SLOTS {slots}: at most 65536")

    @staticmethod
    def check_name(name):
        hold(name, "name ``: is empty")
        hold(len(name) <= 32, f"name `{name}`: more than 32 bytes")
        hold(name[0].isascii() and name[0].isalpha(), f"name `{name}`: a letter comes first")
        hold(all(c.isascii() and (c.isalnum() or c in "_-.") for c in name), f"name `{name}`: letters, digits, `_`, `-` and `.` alone")

    # ## the calls

    def create(self, _out, folder, slots, *pairs):
        for place, (name, count, _file) in enumerate(pairs):
            self.check_name(name)
            hold(name not in [earlier for earlier, _, _ in pairs[:place]], f"{folder}: volume {name}: given twice")
            self.check_count(name, count)
        self.check_slots(slots)
        hold(len(pairs) <= 128, f"volumes: {len(pairs)}, at most 128")
        is_there = folder in self.stores or folder in self.files
        hold(not is_there, f"{folder}: is there already; create takes a new name, and ./images update a folder of images")
        volumes = []
        for of in pairs:
            volumes.append(self.new_volume(*of))
            total = sum(v.parts() for v in volumes)
            hold(total <= 128, f"volumes: {total}, at most 128")
        self.stores[folder] = Store(slots, volumes)

    def cut(self, out, folder, *names):
        store = self.store(folder)
        volumes = store.all_named(folder, names)
        for v in volumes:
            hold(len(v.images) < 512, f"{folder}: images of {v.name}: 512, at most 512; ./images prune deletes old ones")
        store.last += 1
        for v in volumes:
            v.images.append(Image(store.last, v.data, v.tails))
        out.append(b"set %d\n" % store.last)
        told = "its files are not known to be of one moment; they are if one update of all of them comes before the cut"
        return None if any(set(names) <= line for line in store.together) else f"{folder}: set {store.last}: {told}"

    def update(self, out, folder, *pairs):
        store, jobs, counts = self.store(folder), [], []
        for v, (_, _, file) in zip(store.all_named(folder, [name for name, _, _ in pairs]), pairs):
            data = self.fits(v.name, v.count, file)
            old, new = v.blocks(), blocks_of(data, v.count)
            jobs.append((v, data, [b for b in range(v.count) if old[b] != new[b]]))
        for v, data, marked in jobs:
            copied = 0
            for b in marked:
                out += [b"evicted set %d %s\n" % (number_of_set, name.encode()) for number_of_set, name in store.evict_for(v, b)]
                if v.images and b not in v.images[-1].copied:
                    v.images[-1].copied.add(b)
                    copied += 1
            counts.append(b"%s written %d copied %d\n" % (v.name.encode(), len(marked), copied))
        for v, data, _ in jobs:
            v.data, v.tails = data, {}
        store.bring([v.name for v, _, _ in jobs])
        out += counts

    def list(self, out, folder):
        store = self.store(folder)
        for v in store.volumes:
            out.append(b"volume %s blocks %d %s\n" % (v.name.encode(), v.count, length_of(v.data)))
            out += [b"image %d %s used %d\n" % (i.set, length_of(i.data), len(i.copied)) for i in v.images]
        out.append(b"slots %d of %d, last set %d\n" % (store.used(), store.slots, store.last))

    def diff(self, out, folder, *words):
        store, sets, names = self.store(folder), [it for it in words if isinstance(it, int)], [it for it in words if isinstance(it, str)]
        volumes = [store.named(folder, names[0])] if names else store.volumes
        for number_of_set in sets:
            store.images(folder, number_of_set, volumes, names)
        for v in volumes:
            has = [number_of_set for number_of_set in sets if v.image(number_of_set)]
            if len(has) == len(sets):
                blocks = v.written(sets[0], sets[1] if len(sets) == 2 else None)
                out.append(f"volume {v.name} written {len(blocks)}{': ' if blocks else ''}{runs_of(blocks)}\n".encode())
            elif has:
                out.append(f"volume {v.name} only in set {has[0]}\n".encode())

    def shown(self, folder, *of):
        """The bytes of a volume, or of its image of a set."""
        store, name = self.store(folder), of[-1]
        v = store.named(folder, name)
        data = v.data if len(of) == 1 else store.image(folder, of[0], v).data
        hold(data is not None, f"{folder}: {name if len(of) == 1 else f'set {of[0]} of {name}'}: its file was not there", 13)
        return data

    def show(self, out, *of):
        out.append(self.shown(*of))

    def digest(self, out, *of):
        out.append(hashlib.sha256(self.shown(*of)).hexdigest().encode() + b"\n")

    def delete(self, out, folder, number_of_set, *names):
        store = self.store(folder)
        volumes = store.images(folder, number_of_set, [store.named(folder, name) for name in names] or store.volumes, names)
        for v in volumes:
            at = v.images.index(v.image(number_of_set))
            if at > 0:
                v.images[at - 1].copied |= v.images[at].copied
            del v.images[at]
        out.append(b"deleted %d\n" % len(volumes))

    def revert(self, _out, folder, number_of_set, name):
        store = self.store(folder)
        v = store.named(folder, name)
        image = store.image(folder, number_of_set, v)
        v.images = v.images[:v.images.index(image) + 1]
        image.copied = set()
        v.data, v.tails = image.data, dict(image.tails)
        store.bring([v.name])

    def grow(self, out, folder, room):
        store = self.store(folder)
        if isinstance(room, int):
            self.check_slots(room)
            hold(room > store.slots, f"SLOTS {room}: there are {store.slots} already; slots only get more")
            store.slots = room
            out.append(b"slots %d\n" % room)
            return
        name, count = room
        v = store.named(folder, name)
        self.check_count(name, count)
        hold(count > v.count, f"{name}: blocks: {count}, and it has {v.count} already; a volume only grows")
        self.check_more(store, Volume.parts_for(count) - v.parts())
        needed, free = sum(v.count - 1 in i.copied for i in v.images), store.slots - store.used()
        hold(needed <= free, f"{folder}: slots: too few are free for the images of {name}; ./images grow {folder} SLOTS makes more")
        v.grow(count)
        out.append(b"volume %s blocks %d\n" % (name.encode(), count))

    def add(self, out, folder, of):
        store, (name, count, file) = self.store(folder), of
        self.check_name(name)
        hold(all(v.name != name for v in store.volumes), f"{folder}: volume {name}: is there already; ./images update brings it to a file")
        self.read(file)
        self.check_count(name, count)
        v = self.new_volume(*of)
        self.check_more(store, v.parts())
        store.volumes.append(v)
        store.bring([name])
        out.append(b"volume %s blocks %d\n" % (name.encode(), v.count))

    def remove(self, out, folder, name):
        store = self.store(folder)
        v = store.named(folder, name)
        hold(len(store.volumes) > 1, f"{folder}: volume {v.name}: is the only one; a folder has one at least")
        store.volumes.remove(v)
        out.append(b"removed %s: %d\n" % (v.name.encode(), len(v.images)))

    def check(self, out, folder):
        store = self.store(folder)
        images = sum(len(v.images) for v in store.volumes)
        out.append(b"whole: %d volumes, %d images, %d of %d slots\n" % (len(store.volumes), images, store.used(), store.slots))
