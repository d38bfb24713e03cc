"""A second reading of a metadata document, written from docs/FORMATS.md: its class, and the full names of its components with their flags; and the
component document of a session that selects all of them."""
import json
import re

HEX = re.compile(r"[0-9A-Fa-f]{32}")
DEEPEST = 127


class NoDocument(Exception):
    """The text is no JSON, or its value is no metadata document."""


def hold(condition):
    if not condition:
        raise NoDocument


def whole(digits):
    """Returns the number that digits are, one with a fraction where 64 bits do not have it."""
    return int(digits) if len(digits) < 21 and -2**63 <= int(digits) < 2**64 else real(digits)


def real(digits):
    hold(abs(float(digits)) != float("inf"))
    return float(digits)


def members(pairs):
    """Returns the members of an object, of which none may have half a character."""
    json.dumps(pairs, ensure_ascii=False).encode()
    return dict(pairs)


def json_of(text):
    """Returns the value of a JSON text, or raises NoDocument."""
    depth = 0
    for sign in re.sub(rb'"(?:[^"\\]|\\.)*"', b"", text):
        depth += (sign in b"[{") - (sign in b"]}")
        hold(depth <= DEEPEST)
    try:
        hooks = {"object_pairs_hook": members, "parse_int": whole, "parse_float": real, "parse_constant": lambda _: hold(False)}
        value = json.loads(text.decode("ascii"), **hooks)
        members([(0, value)])
        return value
    except ValueError:
        raise NoDocument from None


def has_members(value, needed, more):
    return isinstance(value, dict) and set(needed.split()) <= set(value) <= {*needed.split(), more}


def is_whole(value, low, high):
    return isinstance(value, int) and not isinstance(value, bool) and low <= value <= high


def is_printable(value, low, high):
    return isinstance(value, str) and low <= len(value) <= high and all(" " <= it <= "~" for it in value)


def class_of(value):
    """Returns the 32 digits of a UUID in any of its four forms, digits and prefix in either case, or raises NoDocument."""
    hold(isinstance(value, str))
    if len(value) == 45 and value[:9].lower() == "urn:uuid:":
        value = value[9:]
    elif len(value) == 38 and value[0] == "{" and value[37] == "}":
        value = value[1:37]
    if len(value) == 36:
        hold([value[at] for at in (8, 13, 18, 23)] == ["-"] * 4)
        value = value[:8] + value[9:13] + value[14:18] + value[19:23] + value[24:]
    hold(HEX.fullmatch(value))
    return value.lower()


def component_of(value):
    """Returns the full name of a component and whether it is selectable, or raises NoDocument."""
    hold(has_members(value, "type name selectable", "path"))
    path, name = value.get("path", ""), value["name"]
    hold(is_whole(value["type"], 1, 2) and isinstance(value["selectable"], bool))
    hold(is_printable(path, 0, 255) and not (path.startswith("\\") or path.endswith("\\") or "\\\\" in path))
    hold(is_printable(name, 1, 64) and "\\" not in name)
    return (f"{path}\\{name}" if path else name), value["selectable"]


def metadata_of(text):
    """Returns the class and the components of a metadata document, or None where the text is none."""
    try:
        value = json_of(text)
        hold(has_members(value, "class name level usage source components", "freeze_timeout"))
        class_id = class_of(value["class"])
        hold(is_printable(value["name"], 1, 128))
        hold(all(is_whole(value[member], 1, high) for member, high in (("level", 3), ("usage", 4), ("source", 3))))
        hold(is_whole(value.get("freeze_timeout", 60000), 1, 60000))
        hold(isinstance(value["components"], list) and len(value["components"]) <= 1024)
        components = [component_of(it) for it in value["components"]]
        hold(len({name for name, _ in components}) == len(components))
        return class_id, components
    except NoDocument:
        return None


def document_of_all(metadata):
    """Returns the component document of a session in context 9 that selects all components of its one writer."""
    digits, components = metadata
    class_id = "-".join((digits[:8], digits[8:12], digits[12:16], digits[16:20], digits[20:]))
    paths = [name.replace("\\", "\\\\").replace('"', '\\"') for name, _ in components]
    rows = ",".join(f'{{"class":"{class_id}","explicit":false,"path":"{path}","writer":0}}' for path in paths)
    return f'{{"components":[{rows}],"context":9,"select":false}}'.encode()
