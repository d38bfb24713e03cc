"""Single calls of a volume with mirrors, again and again on a new volume, of which another device call fails each time, alone or with all that follow."""
from rows import Subject, as_result, written
from volumes import Mirrors, some


class Singly(Subject):
    """Single calls of a volume with mirrors."""

    volume = None

    def reply(self, word, *rest):
        values = [int(n) for n in rest]
        volume = self.volume
        if word == "volume":
            self.volume = Mirrors(*values, self.taken_failing())
            return None
        if word == "again":
            return volume.again()
        if word == "write":
            return written(*volume.write(*values))
        if word in ("read", "image"):
            return as_result(lambda: some(getattr(volume, word)(*values)))
        if word in ("cut", "drop", "flush", "sync"):
            return as_result(lambda: getattr(volume, word)(*values))
        if word == "step":
            return as_result(lambda: volume.step(*values), lambda block: "InStep" if block is None else f"Copied {{ block: {block} }}")
        return str({
            "stale": lambda k: len(volume.stale[k]), "ready": lambda: len(volume.ready()), "images": lambda: volume.images,
            "blocks": lambda: len(volume.primary.blocks), "mirrors": lambda: len(volume.mirrors),
        }[word](*values))


ONE_LIFE = """\
write 0 1 / cut 1 / write 0 2 / write 1 3 / ready / image 1 0 / image 1 1 / read 0 / read 1 / cut 2 / write 1 4 / image 2 1 / drop 1 / stale 0
stale 1 / step 0 / step 0 / step 0 / step 1 / cut 3 / image 3 0 / image 3 1 / drop 2 / write 0 5 / step 1 / step 1 / step 1 / ready / images
read 0 / read 1 / cut 4 / image 4 0 / image 4 1 / read 0 / read 1 / write 2 6 / read 2 / image 4 2 / image 5 0 / drop 5 / drop 3 / drop 4
stale 0 / stale 1 / flush / flush 0 / flush 1 / sync / sync / read 2""".replace("\n", " / ").split(" / ")


def singly():
    """The life of a volume of two blocks with two mirrors, with one device call after another failing, alone or with all that follow, and
    without any."""
    lists = Singly().make_all(["volume 2 2"] + ONE_LIFE)
    for device in "primary", "mirror0", "mirror1":
        for kind, most in ("read", 12), ("write", 12), ("flush", 4):
            for number in range(1, most + 1):
                for those in number, f"{number}-99":
                    lists.make_all([f"fails {device} {kind} {those}", "volume 2 2"] + ONE_LIFE)
    return lists


def lists():
    return {"singly": [singly()]}
