"""A subject of trials is a class that says what each of its calls replies, by the rules of volumes.py."""
from volumes import Refused


def numbers(word):
    """The numbers of `1,4` and `3-7`."""
    ends = [part.split("-") for part in word.split(",")]
    return {n for part in ends for n in range(int(part[0]), int(part[-1]) + 1)}


class Subject:
    """Calls, each with the lines of its reply. A class below this one has a method `reply`, which takes the words of a call."""

    def __init__(self):
        self.rows = []
        self.failing = {}

    def make(self, call):
        """Makes a call, and gives the lines of its reply."""
        word, *rest = call.split()
        said = None
        if word == "fails":
            self.failing[rest[0]] = {kind: numbers(those) for kind, those in zip(rest[1::2], rest[2::2])}
        else:
            said = self.reply(word, *rest)
        lines = [] if said is None else [said] if isinstance(said, str) else said
        self.rows.append((call, lines))
        return lines

    def make_all(self, calls):
        for call in calls:
            self.make(call)
        return self

    def taken_failing(self):
        """The calls that fail of the devices that are made now."""
        failing, self.failing = self.failing, {}
        return failing


def fails(device, by_kind):
    """The line for the calls of a device that fail; a list for nothing, where none does."""
    words = [f"{kind} {','.join(map(str, those))}" for kind, those in by_kind.items() if those]
    return [" ".join(["fails", device] + words)] if words else []


def as_result(work, show=lambda value: "()" if value is None else str(value)):
    """What work answers, as Rust prints it."""
    try:
        return f"Ok({show(work())})"
    except Refused as refusal:
        return f"Err({refusal})"


def written(cause, gone):
    """What a write answers, as Rust prints it."""
    if cause is None:
        return f"Ok(Written {{ evicted_up_to: {gone} }})"
    return f"Err(WriteFault {{ cause: {cause}, evicted_up_to: {gone} }})"


def reverted(work, fault):
    """What a revert answers, as Rust prints it, with a fault of this form."""
    try:
        cause, restored = work()
    except Refused as refusal:
        return f"Err({refusal})"
    return "Ok(())" if cause is None else f"Err({fault.format(f'{{ restored: {restored}, cause: {cause} }}')})"
