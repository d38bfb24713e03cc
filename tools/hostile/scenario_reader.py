"""A second reading of a scenario, written from docs/FORMATS.md and from nothing of the program: whether a text is a scenario, or at which line
it is refused and for which reason."""
import re

from metadata_reader import metadata_of

NUMBER = re.compile(rb"0|[1-9][0-9]*")
NAME = re.compile(rb"[A-Za-z][A-Za-z0-9_.-]{0,31}")
ORDERS = set(b"identify prepare_backup prepare_snapshot freeze thaw post_snapshot backup_complete".split())
ERRORS = {b"VSS_E_WRITERERROR_" + it for it in b"INCONSISTENTSNAPSHOT OUTOFRESOURCES TIMEOUT RETRYABLE NONRETRYABLE".split()}
AGENDAS = {b"gather", b"prepare", b"snapshot", b"complete"}

# The forms of each word: what each field is. A name that is new or has to be declared is told by its kind; a word in quotes is fixed.
FORMS = {line.split()[0].encode(): [form.split() for form in line.partition(" ")[2].split(" | ")] for line in """\
scenario 1
area new-area slots
volume new-volume blocks slots | new-volume blocks 'in' area
writer new-writer rest
answer writer order nth 'lost' | writer order nth 'veto' code
lane new-lane | new-lane 'as' writer
write volume block payload filling
read volume block
image set volume | set volume block
query volume
properties set volume
revert set volume
delete set | set volume
tick ticks
begin context | context 'all'
disable writer
component writer rest
add volume""".splitlines()}
FORMS |= {word: [[]] for word in b"gather document start prepare snapshot await status complete abort end".split()}
DECLARATIONS = {b"area", b"volume", b"writer", b"answer"}
WORDS = {"order": ORDERS, "code": ERRORS, "payload": {b"fill", b"stamp"}, **{f"'{word}'": {word.encode()} for word in ("in", "lost", "veto", "as", "all")}}
BOUNDS = {
    "1": (1, 1), "slots": (0, 65536), "blocks": (1, 65536), "nth": (1, 2000), "set": (1, 2**32 - 1), "ticks": (1, 10**9),
    "context": (0, 2**32 - 1),
}
MOST = {"area": 128, "volume": 128, "writer": 64, "lane": 64}


class Refused(Exception):
    """The first check that a line does not pass."""


def hold(condition, reason):
    if not condition:
        raise Refused(reason)


class Lane:
    """A lane: its name, and the numbers of its lines."""

    def __init__(self, name):
        self.name, self.lines, self.is_open = name, [], False

    def line_numbers(self):
        """Returns the numbers of the lane's lines, with 0 for an `end` that it is given."""
        return self.lines + ([0] if self.is_open else [])


class Scenario:
    """What is read so far."""

    def __init__(self):
        self.has_begun, self.lanes, self.answers = False, [], set()
        self.names = {"area": {}, "volume": {}, "writer": {}, "lane": {}}
        self.lane_lines = self.agenda_lines = self.room = 0

    def read_line(self, number, line):
        """Reads a line that is not skipped, or raises the first refusal."""
        word, _, rest = line.partition(b" ")
        hold(word in FORMS, "UnknownWord")
        hold((word == b"scenario") != self.has_begun, "Misplaced")
        hold(word in (b"scenario", b"lane") or (word in DECLARATIONS) != bool(self.lanes), "Misplaced")
        fields, form = fields_of(word, rest, b" " in line)
        self.take(number, word, fields, self.read_fields(fields, form))

    def read_fields(self, fields, form):
        """Returns what is read, by the field's kind."""
        read = {}
        for field, kind in zip(fields, form):
            if kind.startswith("new-"):
                hold(NAME.fullmatch(field), "BadName")
                hold(field not in self.names[kind[4:]], "DoubleName")
            elif kind in self.names:
                hold(field in self.names[kind], "UnknownName")
            elif kind in WORDS:
                hold(field in WORDS[kind], "UnknownWord")
            elif kind != "rest":
                read[kind] = number_of(field, *(BOUNDS.get(kind) or self.bounds(kind, read)))
                hold(kind != "nth" or (read["writer"], read["order"], read["nth"]) not in self.answers, "DoubleName")
            read.setdefault(kind, field)
        return read

    def bounds(self, kind, read):
        if kind == "block":
            return 0, self.names["volume"][read["volume"]] - 1
        return 0, 255 if read["payload"] == b"fill" else 2**64 - 1

    def take(self, number, word, fields, read):
        """Takes up the line, whose fields are read, or raises that it is one too many."""
        if word == b"scenario":
            self.has_begun = True
        elif word == b"answer":
            self.answers.add((read["writer"], read["order"], read["nth"]))
            hold(len(self.answers) <= 10000, "TooMany")
        elif word in DECLARATIONS or word == b"lane":
            self.declare(word.decode(), fields, read)
        else:
            self.lane_lines += 1
            self.agenda_lines += word in AGENDAS
            hold(self.lane_lines <= 100000 and self.agenda_lines <= 2000, "TooMany")
            lane = self.lanes[-1]
            lane.lines.append(number)
            if word in (b"begin", b"end"):
                lane.is_open = word == b"begin"

    def declare(self, word, fields, read):
        hold(word != "writer" or metadata_of(fields[1]) is not None, "BadDocument")
        self.names[word][fields[0]] = read.get("blocks", 0)
        self.room += read.get("blocks", 0) + read.get("slots", 0)
        hold(len(self.names[word]) <= MOST[word] and self.room <= 131072, "TooMany")
        if word == "lane":
            self.lanes.append(Lane(fields[0]))


def fields_of(word, rest, has_fields):
    """Returns the fields of a line and the form that has so many."""
    for form in FORMS[word]:
        fields = rest.split(b" ", len(form) - 1 if "rest" in form else -1) if has_fields else []
        if len(fields) == len(form) and not ("rest" in form and fields[-1] == b""):
            return fields, form
    raise Refused("BadCount")


def number_of(field, low, high):
    hold(NUMBER.fullmatch(field), "BadNumber")
    # digits that are more than twenty are out of every range
    hold(len(field) <= 20 and low <= int(field) <= high, "OutOfRange")
    return int(field)


def read_scenario(text):
    """Returns the scenario, or the number of the first bad line and its reason."""
    scenario, lines = Scenario(), text.split(b"\n")
    has_rest = lines[-1] != b""
    if not has_rest:
        lines.pop()
    for number, line in enumerate(lines, 1):
        try:
            hold(all(32 <= byte <= 126 for byte in line), "BadByte")
            hold(not has_rest or number < len(lines), "NoNewline")
            if line and not line.startswith(b"#"):
                scenario.read_line(number, line)
        except Refused as refused:
            return number, str(refused)
    return scenario if scenario.has_begun else (len(lines) + 1, "Empty")
