"""Calls of a volume whose newest image writers mend, and lists of them: as many claims as a window takes, at their ends, one too many, and overlapping;
each write and each read of the overlay fails, alone and with all that follow; four hundred lists of calls by chance."""
import collections
import random
import re

from rows import Subject, as_result, fails, reverted, written
from volumes import Mended, Refused, some


def payload(kind, number):
    """The first eight bytes of a block."""
    return bytes([int(number)]) * 8 if kind == "fill" else int(number).to_bytes(8, "little")


def shown(content):
    """How a reply shows a block that has these eight bytes again and again."""
    return f"Fill({content[0]})" if len(set(content)) == 1 else f"Stamp({int.from_bytes(content, 'little')})"


class Recover(Subject):
    """Calls of a volume whose newest image writers mend."""

    volume = None

    def reply(self, word, *rest):
        if word in ("write", "recover"):
            rest = [*map(int, rest[:-2]), payload(*rest[-2:])]
        values, volume = [it if isinstance(it, bytes) else int(it) for it in rest], self.volume
        if word == "volume":
            self.volume = Mended(*values, self.taken_failing(), bytes(8))
            return None
        return {
            "write": lambda *place: written(*volume.write(*place)),
            "read": lambda block: as_result(lambda: shown(volume.read(block))),
            "image": lambda *place: as_result(lambda: shown(volume.image(*place))),
            "cut": lambda set_: "()" if volume.cut(set_) else "unmet",
            "drop": lambda set_: as_result(lambda: volume.drop(set_)),
            "revert": lambda set_: reverted(lambda: volume.revert(set_), "Other(Fault {})"),
            "pre_final": lambda *opened: pre_final(volume, *opened),
            "recover": lambda *place: as_result(lambda: volume.recover(*place)),
            "post_final": lambda: some(volume.post_final()),
            "window": lambda: some(volume.window),
            "images": lambda: str(volume.images),
            "used": lambda: str(volume.copies.used()),
            "overlay_used": lambda: str(len(volume.mended)),
            "flush": lambda: as_result(volume.flush),
            "sync": lambda: as_result(volume.sync),
            "again": lambda *final: volume.again(final),
        }[word](*values)


def pre_final(volume, set_, *claims):
    try:
        return "Ok(())" if volume.pre_final(set_, list(zip(claims[::3], claims[1::3], claims[2::3]))) else "unmet"
    except Refused as refusal:
        return f"Err({refusal})"


# ## claims

def opening(claims):
    return "pre_final 1 " + " ".join(f"{writer} {first} {count}" for writer, first, count in claims)


def of_claims():
    """64 writers claim two blocks each, every claim from where another ends, in order and in another order."""
    chance = random.Random(64)
    for shuffled in (False, True):
        claims = [(100 + writer, 2 * writer, 2) for writer in range(64)]
        if shuffled:
            chance.shuffle(claims)
        one = Recover().make_all(["volume 129 4 128", "cut 1"])
        one.make_all([opening(claims + [(200, 128, 1)]), opening(claims[:63] + [(200, 128, 2)])])
        for second in range(1, 64):
            _, first, _ = claims[chance.randrange(second)]
            one.make(opening(claims[:second] + [(200, first + 1, 1)] + claims[second + 1:]))
        one.make_all(["window", opening(claims), "window"])
        for block in range(128):
            owner = 100 + block // 2
            one.make_all(f"recover 1 {writer} {block} stamp {9 if writer != owner else block}" for writer in (owner - 1, owner + 1, owner))
        one.make_all(["recover 1 163 128 fill 1", "overlay_used", "used"] + [f"image 1 {block}" for block in range(128)])
        yield one.make_all(["post_final", "revert 1", "drop 1", "overlay_used"])


# ## an overlay of which chosen calls fail

MENDING = """\
cut 1 / pre_final 1 0 0 2 1 2 1 / recover 1 0 0 fill 1 / recover 1 0 1 fill 2 / image 1 0 / image 1 1 / recover 1 0 0 fill 3 / image 1 0
recover 1 1 2 fill 4 / overlay_used / write 0 fill 5 / image 1 0 / image 1 2 / post_final / cut 2 / image 2 0 / pre_final 2 1 0 3
recover 2 1 0 fill 6 / image 2 0 / image 1 0 / overlay_used / drop 1 / overlay_used / recover 2 1 1 fill 7 / recover 2 1 2 fill 8
overlay_used / image 2 0 / image 2 1 / image 2 2 / post_final / read 0 / read 1 / read 2 / used""".replace("\n", " / ").split(" / ")


def mending(calls):
    """These calls on a new volume; and the places of those that reach the overlay, by the kind of its call."""
    one, reached = Recover().make_all(["volume 3 4 4"]), {"write": [], "read": []}
    for place, call in enumerate(calls):
        before = dict(one.volume.overlay.made)
        one.make(call)
        for kind, places in reached.items():
            places += [place] * (one.volume.overlay.made[kind] - before[kind])
    return one.rows, reached


def of_failing():
    """Each write of the overlay, and each read, fails alone, and with all that follow: the reply is Err(Area) then, and every other call is answered
    as if the failing ones had not been made."""
    reached = mending(MENDING)[1]
    holds([len(places) for places in reached.values()] == [7, 10], "the calls that reach the overlay")
    for kind, places in reached.items():
        for number in range(1, len(places) + 2):
            for numbers, failing in (f"{number}", places[number - 1:number]), (f"{number}-99", places[number - 1:]):
                one = Recover().make_all([f"fails overlay {kind} {numbers}", "volume 3 4 4"] + MENDING)
                others = iter(mending([call for place, call in enumerate(MENDING) if place not in failing])[0][1:])
                wanted = [(call, ["Err(Area)"]) if place in failing else next(others) for place, call in enumerate(MENDING)]
                holds(one.rows[2:] == wanted, f"overlay {kind} {numbers}")
                yield one


# ## lists by chance

def any_claims(chance, blocks):
    claims, first = [], chance.randint(0, 1)
    while first < blocks and chance.random() < 0.9:
        count = chance.randint(1, blocks - first)
        claims.append((chance.randint(0, 2), first, count))
        first += count + chance.randint(0, 1)
    if chance.random() < 0.3:
        claims.append((chance.randint(0, 2), chance.randint(0, blocks), chance.randint(0, 2)))
    chance.shuffle(claims)
    return claims


def any_payload(chance):
    return chance.choice((f"fill {chance.randint(0, 255)}", f"stamp {chance.randint(0, 2**32 - 1)}"))


def any_block(chance, volume):
    return volume.blocks + chance.randint(0, 1) if chance.random() < 0.05 else chance.randrange(volume.blocks)


def any_set(chance, volume):
    return chance.choice(volume.images) if volume.images and chance.random() < 0.85 else chance.randint(0, 9)


def any_recover(chance, volume):
    set_ = volume.window if volume.window is not None and chance.random() < 0.9 else any_set(chance, volume)
    block = any_block(chance, volume)
    owner = volume.owner(block)
    writer = owner if owner is not None and chance.random() < 0.85 else chance.randint(0, 2)
    return f"recover {set_} {writer} {block} {any_payload(chance)}"


def any_opening(chance, volume):
    set_ = max(volume.images, default=0) if chance.random() < 0.8 else any_set(chance, volume)
    return " ".join([f"pre_final {set_}"] + [f"{w} {f} {c}" for w, f, c in any_claims(chance, volume.blocks)])


# Each kind of calls, how often it is drawn, and how; more often one that is taken than one that is refused.
KINDS_OF_CALLS = (
    (16, lambda chance, volume: f"write {any_block(chance, volume)} {any_payload(chance)}"),
    (3, lambda chance, volume: f"read {any_block(chance, volume)}"),
    (14, lambda chance, volume: f"image {any_set(chance, volume)} {any_block(chance, volume)}"),
    (9, lambda chance, volume: f"cut {max(volume.images, default=0) + chance.choice((1, 1, 1, 2, 0))}"),
    (4, lambda chance, volume: f"drop {any_set(chance, volume)}"),
    (6, lambda chance, volume: f"revert {any_set(chance, volume)}"),
    (12, any_opening),
    (24, any_recover),
    (6, lambda chance, volume: "post_final"),
    (8, lambda chance, volume: chance.choice(("window", "images", "used", "overlay_used"))),
)


def any_failing(chance):
    for device, share in (("overlay", 0.4), ("area", 0.2), ("volume", 0.2)):
        by_kind = {}
        for kind in ("read", "write"):
            if chance.random() < share:
                first = chance.randint(1, 16)
                by_kind[kind] = [f"{first}" + chance.choice(("", f"-{first + chance.randint(1, 3)}"))]
        yield from fails(device, by_kind)


def by_chance(seed):
    chance = random.Random(seed)
    sizes = chance.randint(1, 5), chance.randint(0, 6), chance.randint(0, 5)
    one = Recover().make_all(any_failing(chance)).make_all([f"volume {sizes[0]} {sizes[1]} {sizes[2]}"])
    shares, kinds = zip(*KINDS_OF_CALLS)
    for _ in range(80):
        one.make(chance.choices(kinds, shares)[0](chance, one.volume))
    one.make_all(["window", "images", "used", "overlay_used"])
    for block in range(one.volume.blocks):
        one.make_all([f"read {block}"] + [f"image {set_} {block}" for set_ in one.volume.images])
    return one


# The replies that come in the lists, with n for a number.
KINDS_OF_REPLIES = {
    "write": "Ok(Written { evicted_up_to: n })|" + "|".join(
        f"Err(WriteFault {{ cause: {cause}, evicted_up_to: n }})" for cause in ("NoSuchBlock", "Volume", "Area")),
    "read": "Ok(Fill(n))|Ok(Stamp(n))|Err(NoSuchBlock)|Err(Volume)",
    "image": "Ok(Fill(n))|Ok(Stamp(n))|Err(NoSuchImage)|Err(NoSuchBlock)|Err(Volume)|Err(Area)",
    "cut": "()|unmet",
    "drop": "Ok(())|Err(NoSuchImage)",
    "revert": "Ok(())|Err(Other(NoSuchImage))|Err(Recovered { blocks: n })|" + "|".join(
        f"Err(Other(Fault {{ restored: n, cause: {cause} }}))" for cause in ("Volume", "Area")),
    "pre_final": "Ok(())|Err(NoSuchImage)|Err(NotNewest { newest: n })|Err(AlreadyOpen { set: n })|Err(Final)|Err(BadRange { claim: n })|"
                 "Err(Overlap { first: n, second: n })",
    "recover": "Ok(())|Err(NotOpen)|Err(NoSuchBlock)|Err(NotOwner { owner: None })|Err(NotOwner { owner: Some(n) })|Err(Full)|Err(Area)",
    "post_final": "Some(n)|None",
}


def by_chance_lists(count):
    made = [by_chance(seed) for seed in range(count)]
    came = collections.Counter(
        (call.split()[0], re.sub(r"\d+", "n", reply)) for one in made for call, replies in one.rows for reply in replies)
    wanted = [(word, kind) for word, kinds in KINDS_OF_REPLIES.items() for kind in kinds.split("|")]
    for kind in wanted:
        holds(came[kind] >= 10, f"{' '.join(kind)}: {came[kind]} times in the lists")
    print(f"each of {len(wanted)} replies {min(came[kind] for kind in wanted)} times or more in {count} lists")
    return made


def holds(condition, what):
    if not condition:
        raise SystemExit(f"recover: {what}")


def lists():
    return {"claims": of_claims(), "failing": of_failing(), "by_chance": by_chance_lists(400)}
