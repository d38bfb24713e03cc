"""Draws lists of calls of `images`, makes each on real files, and compares what it prints, and its status, with plain.py.

Each list has 6 to 14 calls over 1 to 3 files of 0 to 6 blocks, with 0 to 12 slots; some calls have a wrong word, name or set. At the end of each list
every volume and image is shown, and the folder is checked. Before them, the most images and volumes are made.
"""
import os
import random
import shutil
import sys

import plain
from common import ran, write

EDGES = [0, 1, 16375, 16376, 16377, 16384, 16385, 32760, 32761]


class Drawing:
    """A list of calls in the making."""

    def __init__(self, draw, room):
        self.draw, self.room = draw, room
        self.names = ["db", "wal", "x.1"][:draw.randint(1, 3)]
        self.plain = plain.Plain({"folder": None})
        os.mkdir(os.path.join(room, "folder"))

    def keep(self, path, data):
        """A file of these bytes."""
        self.plain.files[path] = data
        write(os.path.join(self.room, path), data)

    def new_file(self, path, most):
        """A file of its own bytes, at most so many."""
        length = self.draw.choice([n for n in EDGES if n <= most] + [self.draw.randint(0, max(most, 0))])
        self.keep(path, bytes([self.draw.randint(0, 255)]) * length)

    def change(self, path, most):
        """A file of which some blocks have other bytes, or the length is another."""
        data = bytearray(self.plain.files[path])
        for _ in range(self.draw.randint(0, 3)):
            if data:
                data[self.draw.randrange(len(data))] = self.draw.randint(0, 255)
        if self.draw.random() < 0.4:
            length = self.draw.randint(0, max(most, 1))
            data = data[:length] + bytes([self.draw.randint(0, 255)]) * max(0, min(length, most) - len(data))
        self.keep(path, bytes(data))

    def name(self):
        return self.draw.choice(self.names + ["none"]) if self.draw.random() < 0.1 else self.draw.choice(self.names)

    def number_of_set(self):
        store = self.plain.stores.get("F")
        sets = [i.set for v in store.volumes for i in v.images] if store else []
        if not sets or self.draw.random() < 0.1:
            return self.draw.choice(["9", "0", "01", "x", "4294967296", "4294967295", "1"])
        return str(self.draw.choice(sets))

    def create(self):
        words = []
        for name in self.names:
            self.new_file(name, self.draw.choice([16376, 32760, 98296]))
            words.append(f"{name}{self.draw.choice(['', '', ':6', ':7', ':1'])}={name}")
        return ["create", "F", str(self.draw.choice([0, 1, 2, 3, 4, 5, 6, 8, 10, 12])), *words]

    def update(self):
        store = self.plain.stores.get("F")
        names = self.draw.sample(self.names, self.draw.randint(1, len(self.names)))
        for name in names:
            count = next((v.count for v in store.volumes if v.name == name), 1) if store else 1
            self.change(name, plain.BLOCK * count - 8 + (1 if self.draw.random() < 0.05 else 0))
        words = [f"{name}={name if self.draw.random() < 0.93 else '-'}" for name in names]
        if self.draw.random() < 0.06:
            words.append(self.draw.choice(["db=missing", "db=folder", "db", "none=db", "db=db", "db:3=db", "db="]))
        return ["update", *self.draw.choice([[]] * 9 + [["--tries", "2"]]), "F", *words]

    def call(self):
        kind = self.draw.random()
        if kind < 0.34:
            return self.update()
        if kind < 0.56:
            names = self.draw.sample(self.names, self.draw.randint(1, len(self.names)))
            return ["cut", "F", *names, *([self.name()] if self.draw.random() < 0.08 else [])]
        if kind < 0.64:
            return ["show", "F", *([self.number_of_set()] if self.draw.random() < 0.8 else []), self.name()]
        if kind < 0.70:
            return ["digest", "F", *([self.number_of_set()] if self.draw.random() < 0.8 else []), self.name()]
        if kind < 0.74:
            return ["list", "F"]
        if kind < 0.78:
            sets = [self.number_of_set() for _ in range(self.draw.choice([1, 2, 2]))]
            return ["diff", "F", *sets, *([self.name()] if self.draw.random() < 0.4 else [])]
        if kind < 0.85:
            return ["delete", "F", self.number_of_set(), *([self.name()] if self.draw.random() < 0.5 else [])]
        if kind < 0.90:
            return ["revert", "F", self.number_of_set(), self.name()]
        return self.shape() if kind < 0.97 else self.other()

    def shape(self):
        """A call that changes the volumes or the slots."""
        store = self.plain.stores.get("F")
        kind = self.draw.random()
        if kind < 0.3:
            return ["grow", "F", str((store.slots if store else 0) + self.draw.choice([0, 1, 2, 5, 1024, 3000]))]
        if kind < 0.6:
            count = {v.name: v.count for v in store.volumes} if store else {}
            name = self.name()
            return ["grow", "F", f"{name}={count.get(name, 1) + self.draw.choice([0, 1, 1, 3, 9000000])}"]
        if kind < 0.8:
            return ["remove", "F", self.name()]
        self.new_file("new", 40000)
        return ["add", "F", f"{self.draw.choice(self.names + ['x.2'])}{self.draw.choice(['', '', ':4', ':0'])}={self.draw.choice(['new', 'new', 'new', '-'])}"]

    def other(self):
        return self.draw.choice([
            ["check", "F"], ["check", "folder"], ["list", "none"], ["list", "db"], [], ["list"], ["lists", "F"], ["cut", "F"], ["show", "F"], ["delete", "F"],
            ["create", "F", "4", "db=db"], ["create", "G", "70000", "db=db"], ["create", "G", "04", "db=db"], ["create", "G", "4", "9x=db"], ["create", "G", "4", "=db"],
            ["create", "G", "4", "a=db", "a=db"], ["create", "G", "4", "a:0=db"], ["create", "G", "4", "a:8388482=db"], ["create", "G", "4", "a:x=db"],
            ["create", "G", "4", "a b=db"], ["create", "G", "4", "n" * 33 + "=db"], ["create", "G", "4", "a=missing"], ["create", "G", "4", "a=folder"],
            ["create", "G", "4", "a:8388481=db", "b:65537=db"], ["create", "folder", "4", "a=db"], ["update", "F"], ["revert", "F", "1"],
            ["create", "G", "4", "a=-"], ["update", "--tries", "0", "F", "db=db"], ["update", "--tries", "F", "db=db"], ["list", "--tries", "1", "F"],
            ["create", "G", "a=db"], ["show", "F", "db", "1"], ["digest", "F", "db", "0"], ["delete", "F", "db", "2"], ["revert", "F", "db", "1"],
            ["grow", "F"], ["grow", "F", "x"], ["grow", "F", "db=x"], ["grow", "F", "70000"], ["add", "F", "db"], ["add", "F", "9=db"], ["add", "F", "n=missing"],
            ["add", "--tries", "2", "F", "n=folder"], ["remove", "F"], ["remove", "F", "none"],
        ])


def drawn(drawing):
    """Yields the calls of a drawn list, and at the end such as show everything."""
    yield drawing.create()
    for _ in range(drawing.draw.randint(5, 13)):
        yield drawing.call()
    if "F" in drawing.plain.stores:
        yield from (["list", "F"], ["check", "F"])
        for v in drawing.plain.stores["F"].volumes:
            yield ["show", "F", v.name]
            yield from (["show", "F", str(i.set), v.name] for i in v.images)
            yield from (["diff", "F", str(i.set), *([str(v.images[-1].set)] if i.set % 2 else []), v.name] for i in v.images)


def limits(drawing):
    """As many images as a volume may have and one more, and one volume too many."""
    drawing.keep("db", b"d" * 5)
    yield from (["create", "F", "1", "db=db", "wal=db"], *[["cut", "F", "db"]] * 513, ["cut", "F", "wal", "db"])
    yield from (["cut", "F", "wal"], ["delete", "F", "512"], ["cut", "F", "db"], ["list", "F"], ["check", "F"])
    yield from (["create", "G", "1", *[f"v{v}=db" for v in range(count)]] for count in (129, 128))
    yield ["list", "G"]


def compared(program, folder, number, calls_of):
    """Makes a list, compares each answer, and returns how many calls it had."""
    room, calls = os.path.join(folder, "list"), 0
    os.mkdir(room)
    drawing = Drawing(random.Random(number), room)
    for calls, words in enumerate(calls_of(drawing), 1):
        status, out, line = drawing.plain.answer(words)
        got = ran([program, *words], cwd=room)
        told = b"" if line is None else f"images: {line}\n".encode()
        # (of words that ask for nothing the first mistake is named too)
        said = got.stderr[: len(told) - 1] + b"\n" if status == 2 else got.stderr
        if (status, out, told) != (got.returncode, got.stdout, said):
            wanted = f"wanted {status} {out[:300]} {told}"
            sys.exit(f"list {number}: {words}: {wanted}, got {got.returncode} {got.stdout[:300]} {got.stderr}")
    shutil.rmtree(room)
    return calls


def main(program, folder, seed, count):
    compared(program, folder, 0, limits)
    calls = sum(compared(program, folder, number, drawn) for number in range(seed, seed + count))
    return f"{count} lists, {calls} calls agree"
