"""Saves as docs/MACHINE.md has them, files of the Quetzal 1.4 standard (named Q): how one is written, and the first refusal (Q1 to Q9) of
one that is read. Of Q10 it says where a save has more frames than a certificate lets stand, and no more; of
Q11, want of memory, nothing. A certificate with marks asks of a save what its limit of frames does, and no more."""
import struct

from stories import word_at

KNOWN = (b"IFhd", b"UMem", b"CMem", b"Stks")
SAVE = 0xB5


def chunk(name, data):
    return name + struct.pack(">I", len(data)) + data + b"\0" * (len(data) % 2)


def written(machine):
    """The save of a machine that stands at a `save` (Q 2 to 5, 8)."""
    story = machine.story
    place = struct.pack(">I", machine.place + 1)[1:]
    head = story.memory[2:4] + story.memory[0x12:0x18] + struct.pack(">H", checksum(story)) + place
    stacks = b"".join(written_frame(it) for it in machine.frames)
    chunks = chunk(b"IFhd", head) + chunk(b"UMem", bytes(machine.memory[: story.static])) + chunk(b"Stks", stacks)
    return b"FORM" + struct.pack(">I", len(chunks) + 4) + b"IFZS" + chunks


def checksum(story):
    return story.stated_sum or story.sum


def written_frame(frame):
    head = struct.pack(">I", frame.back)[1:] + bytes([len(frame.locals), frame.to, (1 << frame.supplied) - 1])
    values = [len(frame.stack), *frame.locals, *frame.stack]
    return head + struct.pack(">%dH" % len(values), *values)


def chunks_of(save):
    """The chunks behind the head, or None where a length or a pad byte doesn't fit (Q 8)."""
    found, at = [], 12
    while at < len(save):
        if at + 8 > len(save):
            return None
        size = struct.unpack(">I", save[at + 4 : at + 8])[0]
        end = at + 8 + size
        if end + size % 2 > len(save) or (size % 2 and save[end]):
            return None
        found.append((save[at : at + 4], save[at + 8 : end]))
        at = end + size % 2
    return found


def form_fault(save):
    """Q1 to Q5 of a file, and its chunks."""
    if len(save) < 12 or save[:4] != b"FORM" or save[8:12] != b"IFZS":
        return "Q1", None
    chunks = chunks_of(save)
    if chunks is None or struct.unpack(">I", save[4:8])[0] != len(save) - 8:
        return "Q2", None
    if any(name == b"IFhd" and len(data) != 13 for name, data in chunks):
        return "Q2", None
    names = [name for name, _ in chunks if name in KNOWN]
    if b"IFhd" not in names or b"Stks" not in names or not {b"UMem", b"CMem"} & set(names) or names[0] != b"IFhd":
        return "Q3", None
    if any(names.count(it) > 1 for it in (b"IFhd", b"UMem", b"Stks")):
        return "Q4", None
    return ("Q5" if b"CMem" in names else None), dict(chunks)


def frames_of(data):
    """The frames, the oldest first, or None where they are none (Q 4)."""
    found, at = [], 0
    while at < len(data):
        if at + 8 > len(data) or data[at + 3] > 15 or data[at + 5] not in (0, 1, 3, 7):
            return None
        count, height = data[at + 3], word_at(data, at + 6)
        end = at + 8 + 2 * count + 2 * height
        if end > len(data) or (not found and any(data[at : at + 6])):
            return None
        values = struct.unpack(">%dH" % (count + height), data[at + 8 : end])
        back = data[at] << 16 | word_at(data, at + 1)
        found.append((back, data[at + 4], bin(data[at + 5]).count("1"), values[:count], values[count:]))
        at = end
    return found if 1 <= len(found) <= 4097 else None


def judged(story, save, memory, certificate=None):
    """The refusal of a save, and the memory, place and frames in which play goes on from it (Z 15 restore). A certificate lists places,
    which one with marks doesn't ask for, and has a limit of frames."""
    fault, parts = form_fault(save)
    if fault:
        return fault, None
    head = parts[b"IFhd"]
    if head[:8] != story.memory[2:4] + story.memory[0x12:0x18] or word_at(head, 8) not in (checksum(story), story.stated_sum):
        return "Q6", None
    if len(parts[b"UMem"]) != story.static:
        return "Q7", None
    frames = frames_of(parts[b"Stks"])
    if frames is None:
        return "Q8", None
    place = (head[10] << 16 | word_at(head, 11)) - 1
    restored = bytearray(parts[b"UMem"] + story.memory[story.static :])
    flags = bytes([restored[0x10], restored[0x11] & 0xFC | memory[0x11] & 3])
    restored[:64] = story.memory[:0x10] + flags + story.memory[0x12:64]
    if certificate and not certificate.marks and place not in certificate.instructions:
        return "Q9", None
    if not 0 <= place < story.length or restored[place] != SAVE or not is_whole(restored, place):
        return "Q9", None
    if certificate and len(frames) > certificate.limit + 1:
        return "Q10", None
    return None, (restored, place, frames)


def is_whole(memory, place):
    """Whether the branch data of the `save` at a place is in memory."""
    return place + 2 <= len(memory) and (memory[place + 1] & 0x40 or place + 3 <= len(memory))
