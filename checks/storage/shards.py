"""Volumes behind locks of their own: two writers and one who makes a cut, in every order of their calls.

What is replied is computed from lists of writes alone: a held volume refuses a write; an image has what the writes before it was held left.
"""
WRITERS = [
    [(0, 0, 1), (0, 1, 2)],  # volume, block, byte
    [(1, 1, 3), (1, 1, 4)],
]
RECORDED = ["collect 0", "collect 1", "record", "give_back 1", "give_back 0"]
GIVEN_UP = ["collect 1", "collect 0", "give_back 1", "give_back 0"]


def orders(*lists):
    """Every order of the members of these lists, each of which keeps its own."""
    if not any(lists):
        yield []
    for place, items in enumerate(lists):
        if items:
            yield from ([items[0], *order] for order in orders(*lists[:place], items[1:], *lists[place + 1:]))


def content(writes, block):
    """The byte of a block after these writes."""
    bytes_there = [byte for at, byte in writes if at == block]
    return bytes_there[-1] if bytes_there else 0


class Scene:
    """The writes of two volumes, and one cut of both."""

    def __init__(self):
        self.writes = [[], []]
        self.held = [None, None]
        self.images = [None, None]
        self.parts = []
        self.recorded = False
        self.rows = [(call, ["Done"]) for call in ("volume 2 4", "volume 2 4", "shards", "draft")]

    def say(self, call, reply):
        self.rows.append((call, [reply]))

    def write(self, volume, block, byte):
        if self.held[volume] is not None:
            answer = "Err(Held)"
        else:
            self.writes[volume].append((block, byte))
            answer = f"Ok({len(self.writes[0]) + len(self.writes[1])})"
        self.say(f"fill {volume} {block} {byte}", f"Write({answer})")

    def cut(self, call):
        word, *number = call.split()
        if word == "record":
            self.recorded = True
            self.say(call, "Record(Ok(1))")
            return
        volume = int(number[0])
        if word == "collect":
            self.held[volume] = len(self.writes[volume])
            self.parts.append((volume, self.held[volume]))
            self.say(call, "Collect(Ok(()))")
        else:
            if self.recorded:
                self.images[volume] = self.writes[volume][: self.held[volume]]
            self.held[volume] = None
            self.say(call, "GaveBack")

    def look(self):
        """What is seen at the end: both volumes, their images, the cuts, and that all is one whole."""
        for volume in (0, 1):
            for block in (0, 1):
                image = self.images[volume]
                shown = "Err(NoSuchImage)" if image is None else f"Ok(Fill({content(image, block)}))"
                self.say(f"image {volume} 1 {block}", f"Image({shown})")
                self.say(f"read {volume} {block}", f"Read(Ok(Fill({content(self.writes[volume], block)})))")
        self.say("cuts", f"Cuts({int(self.recorded)})")
        if self.recorded:
            parts = ", ".join(f"Part {{ volume: {volume}, image: 1, count: {count} }}" for volume, count in self.parts)
            self.say("cut 1", f"Cut([{parts}])")
        self.say("gather", "Gather(Ok(()))")


def every_order():
    """The orders of both kinds of a cut, each on volumes of its own."""
    rows, count = [], 0
    for cut in (RECORDED, GIVEN_UP):
        for order in orders(*WRITERS, cut):
            scene = Scene()
            for call in order:
                if isinstance(call, str):
                    scene.cut(call)
                else:
                    scene.write(*call)
            scene.look()
            rows += scene.rows + [("subject shards", [])]
            count += 1
    if count != 1176:
        raise SystemExit(f"storage: {count} orders of two writers and a cut")
    return rows


def lists():
    return {"orders": every_order()}
