"""A second reading of a diff area, written from docs/FORMATS.md: its listing, or the line of its first refusal."""
import hashlib
import struct

BLOCK = 16384


def number(text, at):
    return struct.unpack_from("<I", text, at)[0]


def blocks_of(header):
    return [number(header, 20)] if number(header, 8) == 1 else list(struct.unpack_from(f"<{number(header, 20)}I", header, 24))


def header_refusal(header, length):
    """Returns the first field of the header that is not of the format with what was found there, or None."""
    layout, slots, volumes = number(header, 8), number(header, 12), number(header, 20)
    if header[:8] != b"VSSAREA1":
        return "Magic", number(header, 0)
    if layout not in (1, 2):
        return "Layout", layout
    if slots > 65536 or length != BLOCK * (1 + (slots + 1023) // 1024 + slots):
        return "Slots", slots
    if layout == 2 and not 1 <= volumes <= 128:
        return "Volumes", volumes
    wrong = [("Blocks", it) for it in blocks_of(header) if not 1 <= it <= 65536]
    wrong += [("Rest", it) for it in header[24 + 4 * volumes if layout == 2 else 24:] if it]
    return wrong[0] if wrong else None


def read_area(text):
    """Returns the status and the text that `inspect` has to give: the listing, or the line of the refusal."""
    header = text[:BLOCK].ljust(BLOCK, b"\0")
    refusal = header_refusal(header, len(text))
    if refusal:
        return 9, f"vss: area header {refusal[0]} {refusal[1]}\n".encode()
    layout, slots, blocks = number(header, 8), number(header, 12), blocks_of(header)
    seen, lines, pages = set(), [f"volume {j} blocks {it}\n" for j, it in enumerate(blocks)], (slots + 1023) // 1024
    for slot in range(pages * 1024):
        record = struct.unpack_from("<4I", text, BLOCK + 16 * slot)
        image, block, volume, rest = record
        if record == (0, 0, 0, 0):
            continue
        if not image or rest or volume >= len(blocks) or block >= blocks[volume] or slot >= slots or record in seen or layout == 1 and volume:
            return 9, f"vss: area record {slot}\n".encode()
        seen.add(record)
        begin = BLOCK * (1 + pages + slot)
        lines.append(f"slot {slot} set {image} volume {volume} block {block} {hashlib.sha256(text[begin:begin + BLOCK]).hexdigest()}\n")
    if number(header, 16) != len(seen):
        return 9, f"vss: area header Used {number(header, 16)}\n".encode()
    return 0, (f"area layout {layout} slots {slots} used {len(seen)}\n" + "".join(lines) + "end\n").encode()
