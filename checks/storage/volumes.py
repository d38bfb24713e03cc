"""The rules of volumes with images, for the checks of storage: what each call answers, and what it leaves.

Where the crates keep maps, queues and pools, the rules look at all there is. A block's content is any value. The rules come from the pages of the crates and
docs/FORMATS.md; no output of a program went into them.
"""

BLOCK = 16384
COPIES_OF_PAGE = 1024
MOST_IMAGES = 512
MOST_CLAIMS = 64


class Refused(Exception):
    """A call is refused, or a device failed it. The word is the cause."""


class Device:
    """Blocks of one content. `failing` has the numbers of the calls that fail, by their kind, counted from 1."""

    def __init__(self, blocks, failing=None, cause="Volume", blank=0, lends=True):
        self.blocks = [blank] * blocks
        self.failing = failing or {}
        self.cause = cause
        self.lends = lends and "read" not in self.failing
        self.made = {"read": 0, "write": 0, "flush": 0}

    def call(self, kind):
        self.made[kind] += 1
        if self.made[kind] in self.failing.get(kind, ()):
            raise Refused(self.cause)

    def check(self, block):
        if block >= len(self.blocks):
            raise Refused("NoSuchBlock")

    def read(self, block):
        self.check(block)
        self.call("read")
        return self.blocks[block]

    def lend(self, block):
        """The content, or None from a device that does not lend."""
        self.check(block)
        return self.blocks[block] if self.lends else None

    def write(self, block, content):
        self.check(block)
        self.call("write")
        self.blocks[block] = content


class Group:
    """Copy-on-write volumes over one area. A slot has the set, the volume and the block of its copy, or None."""

    def __init__(self, blocks, slots, failing, names=None, blank=0, lends=True):
        names = names or [f"volume{v}" for v in range(len(blocks))]
        pages = -(-slots // COPIES_OF_PAGE)
        self.devices = [Device(n, failing.get(name), "Volume", blank, lends) for n, name in zip(blocks, names)]
        self.area = Device(1 + pages + slots, failing.get("area"), "Area", blank, lends)
        self.first = 1 + pages
        self.slots = [None] * slots
        self.images = [[] for _ in blocks]
        self.all_pages = set(range(pages))
        self.changed = set(self.all_pages)

    def put(self, slot, copy):
        if self.slots[slot] != copy:
            self.slots[slot] = copy
            self.changed.add(slot // COPIES_OF_PAGE)

    def used(self, v=None, set_=None):
        """How many slots are used: of all volumes, of one, or of one of its images."""
        return sum(copy is not None and v in (None, copy[1]) and set_ in (None, copy[0]) for copy in self.slots)

    # ## writes, and the images that go for them

    def goes_up_to(self, v, block):
        """Up to which set images go for a write, or 0: the least set goes, until a slot is free or no copy is needed."""
        images, slots, gone = self.images, self.slots, 0
        while images[v] and (images[v][-1], v, block) not in slots and None not in slots:
            gone = min(sets[0] for sets in images if sets)
            images = [[s for s in sets if s != gone] for sets in images]
            slots = [None if copy and copy[0] == gone else copy for copy in slots]
        return gone

    def evict(self, gone):
        self.images = [[s for s in sets if s > gone] for sets in self.images]
        for slot, copy in enumerate(self.slots):
            if copy and copy[0] <= gone:
                self.put(slot, None)

    def write(self, v, block, content):
        """The cause of a fault, or None; and up to which set images went."""
        if block >= len(self.devices[v].blocks):
            return "NoSuchBlock", 0
        gone = self.goes_up_to(v, block)
        self.evict(gone)
        copy = (self.images[v][-1], v, block) if self.images[v] else None
        lacks_copy = copy is not None and copy not in self.slots
        slot = self.slots.index(None) if lacks_copy else None
        try:
            if lacks_copy:
                self.area.write(self.first + slot, self.devices[v].read(block))
            self.devices[v].write(block, content)
        except Refused as fault:
            return str(fault), gone
        if lacks_copy:
            self.put(slot, copy)
        return None, gone

    # ## what is read

    def read(self, v, block):
        return self.devices[v].read(block)

    def has(self, v, set_):
        if set_ not in self.images[v]:
            raise Refused("NoSuchImage")

    def shown(self, v, set_, block):
        """The device and the place of a block of an image: in its own copy, in that of the next newer image with one, or in the volume."""
        self.has(v, set_)
        self.devices[v].check(block)
        for newer in self.images[v]:
            if newer >= set_ and (newer, v, block) in self.slots:
                return self.area, self.first + self.slots.index((newer, v, block))
        return self.devices[v], block

    def image(self, v, set_, block):
        device, place = self.shown(v, set_, block)
        return device.read(place)

    # ## images that come and go

    def cut(self, v, set_):
        self.images[v].append(set_)

    def drop(self, v, set_):
        """The image's copies go to the next older image, where it lacks them."""
        self.has(v, set_)
        older = [s for s in self.images[v] if s < set_]
        for slot, copy in enumerate(self.slots):
            if copy and copy[:2] == (set_, v):
                handed = (older[-1], v, copy[2]) if older else None
                self.put(slot, None if handed in self.slots else handed)
        self.images[v].remove(set_)

    def revert(self, v, set_):
        """The cause of a fault, or None; and how many blocks were restored. Newer images go either way."""
        self.has(v, set_)
        blocks = sorted({copy[2] for copy in self.slots if copy and copy[1] == v and copy[0] >= set_})
        for restored, block in enumerate(blocks):
            try:
                self.devices[v].write(block, self.image(v, set_, block))
            except Refused as fault:
                for newer in [s for s in self.images[v] if s > set_][::-1]:
                    self.drop(v, newer)
                return str(fault), restored
        self.images[v] = [s for s in self.images[v] if s <= set_]
        for slot, copy in enumerate(self.slots):
            if copy and copy[1] == v and copy[0] >= set_:
                self.put(slot, None)
        return None, len(blocks)

    # ## the area

    def sync(self):
        """The header and the pages with changed records are written, and then the area is flushed."""
        for _ in range(1 + len(self.changed)):
            self.area.call("write")
        self.changed = set()
        self.area.call("flush")

    def load(self):
        """The header and all pages are read."""
        for _ in range(1 + len(self.all_pages)):
            self.area.call("read")
        self.changed = set(self.all_pages)

    def slot_without_image(self, lists):
        """The first slot whose copy is of no image of these lists."""
        return next((slot for slot, copy in enumerate(self.slots) if copy and copy[0] not in lists[copy[1]]), None)


class Mirrors:
    """A volume with whole mirrors. A mirror holds an image of a set, or None; its stale blocks differ from the primary's."""

    def __init__(self, blocks, mirrors, failing):
        self.primary = Device(blocks, failing.get("primary"))
        self.mirrors = [Device(blocks, failing.get(f"mirror{k}")) for k in range(mirrors)]
        self.holds = [None] * mirrors
        self.stale = [set() for _ in range(mirrors)]
        self.images = []

    def ready(self):
        """The mirrors that can hold an image now."""
        return [k for k, (held, stale) in enumerate(zip(self.holds, self.stale)) if held is None and not stale]

    def write(self, block, content):
        """The cause of a fault, or None; and up to which set images went, which is always 0. A fault of a mirror leaves the block stale."""
        try:
            self.primary.write(block, content)
        except Refused as fault:
            return str(fault), 0
        for device, held, stale in zip(self.mirrors, self.holds, self.stale):
            stale.add(block)
            if held is None:
                self.copy(device, stale, block, content)
        return None, 0

    def flush(self, *mirror):
        """Of the primary, or of a mirror."""
        try:
            (self.mirrors[mirror[0]] if mirror else self.primary).call("flush")
        except Refused:
            raise Refused("Failed") from None

    def sync(self):
        """The primary, and then each mirror, up to the first that fails."""
        self.flush()
        for k in range(len(self.mirrors)):
            self.flush(k)

    def again(self):
        """Taken apart and up again: without images, and with each block of each mirror stale."""
        self.holds = [None] * len(self.mirrors)
        self.stale = [set(range(len(self.primary.blocks))) for _ in self.mirrors]
        self.images = []

    @staticmethod
    def copy(device, stale, block, content):
        try:
            device.write(block, content)
            stale.remove(block)
        except Refused:
            pass

    def read(self, block):
        return self.primary.read(block)

    def mirror_of(self, set_):
        if set_ not in self.images:
            raise Refused("NoSuchImage")
        return self.holds.index(set_)

    def image(self, set_, block):
        return self.mirrors[self.mirror_of(set_)].read(block)

    def cut(self, set_):
        if not self.ready():
            raise Refused("NoMirror")
        self.holds[self.ready()[0]] = set_
        self.images.append(set_)

    def drop(self, set_):
        self.holds[self.mirror_of(set_)] = None
        self.images.remove(set_)

    def step(self, k):
        """Copies the first stale block of a mirror, and gives its number, or None where there is none."""
        if self.holds[k] is not None:
            raise Refused(f"HoldsImage {{ set: {self.holds[k]} }}")
        if not self.stale[k]:
            return None
        block = min(self.stale[k])
        self.mirrors[k].write(block, self.primary.read(block))
        self.stale[k].remove(block)
        return block


class Mended:
    """A copy-on-write volume whose newest image writers mend, while its window is open, in blocks of an overlay."""

    def __init__(self, blocks, slots, overlay_slots, failing, blank):
        self.copies = Group([blocks], slots, failing, ["volume"], blank)
        self.overlay = Device(overlay_slots, failing.get("overlay"), "Area", blank)
        self.mended = {}  # the content of each mended block, by its set and block
        self.window = None
        self.claims = []
        self.final = set()  # the sets of the images whose window was closed
        self.synced = None  # the mended blocks that the overlay's table of one page has

    @property
    def images(self):
        return self.copies.images[0]

    @property
    def blocks(self):
        return len(self.copies.devices[0].blocks)

    def settle(self):
        """What is known of images is known of those that are left."""
        self.mended = {place: content for place, content in self.mended.items() if place[0] in self.images}
        self.window = self.window if self.window in self.images else None
        self.final &= set(self.images)

    def write(self, block, content):
        done = self.copies.write(0, block, content)
        self.settle()
        return done

    def read(self, block):
        return self.copies.read(0, block)

    def image(self, set_, block):
        if (set_, block) in self.mended:
            self.overlay.call("read")
            return self.mended[set_, block]
        return self.copies.image(0, set_, block)

    def cut(self, set_):
        """Whether the call may be made, and was."""
        may = 0 < set_ and set_ > max(self.images, default=0) and len(self.images) < MOST_IMAGES and self.window is None
        if may:
            self.copies.cut(0, set_)
        return may

    def drop(self, set_):
        self.copies.drop(0, set_)
        self.settle()

    def mended_of(self, set_):
        return sum(s == set_ for s, _ in self.mended)

    def revert(self, set_):
        if self.mended_of(set_):
            raise Refused(f"Recovered {{ blocks: {self.mended_of(set_)} }}")
        try:
            done = self.copies.revert(0, set_)
        except Refused as refusal:
            raise Refused(f"Other({refusal})") from None
        self.settle()
        return done

    def flush(self):
        self.copies.devices[0].call("flush")

    def sync(self):
        """The area of the copies, and then the overlay: its header, its page if that changed, and a flush."""
        self.copies.sync()
        for _ in range(1 + (set(self.mended) != self.synced)):
            self.overlay.call("write")
        self.synced = set(self.mended)
        self.overlay.call("flush")

    def again(self, final):
        """It is taken apart and taken up again, with these final sets."""
        self.window, self.claims, self.final = None, [], set(final)

    # ## the window

    def pre_final(self, set_, claims):
        """Opens the window of the newest image for writers, each with the first and the number of its blocks. Whether the call may be made."""
        if len(claims) > MOST_CLAIMS:
            return False
        self.copies.has(0, set_)
        if self.images[-1] != set_:
            raise Refused(f"NotNewest {{ newest: {self.images[-1]} }}")
        if self.window is not None:
            raise Refused(f"AlreadyOpen {{ set: {self.window} }}")
        if set_ in self.final:
            raise Refused("Final")
        for number, (_, first, count) in enumerate(claims):
            if count == 0 or first + count > self.blocks:
                raise Refused(f"BadRange {{ claim: {number} }}")
        for second, (_, first, count) in enumerate(claims):
            for earlier, (_, begin, length) in enumerate(claims[:second]):
                if first < begin + length and begin < first + count:
                    raise Refused(f"Overlap {{ first: {earlier}, second: {second} }}")
        self.window, self.claims = set_, claims
        return True

    def owner(self, block):
        return next((writer for writer, first, count in self.claims if first <= block < first + count), None)

    def recover(self, set_, writer, block, content):
        if self.window is None or self.window != set_:
            raise Refused("NotOpen")
        self.copies.devices[0].check(block)
        owner = self.owner(block)
        if owner != writer:
            raise Refused(f"NotOwner {{ owner: {some(owner)} }}")
        if (set_, block) not in self.mended and len(self.mended) == len(self.overlay.blocks):
            raise Refused("Full")
        self.overlay.call("write")
        self.mended[set_, block] = content

    def post_final(self):
        closed, self.window = self.window, None
        if closed is not None:
            self.final.add(closed)
        return closed


def some(number):
    """An optional number as Rust prints it."""
    return "None" if number is None else f"Some({number})"
