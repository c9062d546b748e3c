"""The second path of Intel HEX: what `hex` writes, the first fault of a text, and where it differs from a file."""

from elf_path import File
from fault import Fault

DATA, END, UPPER_ADDRESS, ENTRY = 0, 1, 4, 5
LENGTHS = {END: 0, UPPER_ADDRESS: 2, ENTRY: 4}
BLOCK = 1 << 16  # what the four digits of an address tell
WIDTH = 16  # data bytes of a record that is written
DIGITS = b"0123456789abcdefABCDEF"


def record(kind: int, address: int, data: bytes) -> bytes:
    body = bytes([len(data)]) + address.to_bytes(2, "big") + bytes([kind]) + data
    return b":%s%02X\n" % (body.hex().upper().encode(), -sum(body) % 256)


def write(file: File) -> bytes:
    """The bytes of a file's segments and its entry."""
    records = []
    upper = None
    for segment in sorted(file.segments, key=lambda segment: segment.address):
        data = file.bytes[segment.offset:segment.offset + segment.file_size]
        for start, end in cuts(segment.address, segment.address + segment.file_size):
            if start // BLOCK != upper:
                upper = start // BLOCK
                records.append(record(UPPER_ADDRESS, 0, upper.to_bytes(2, "big")))
            records.append(record(DATA, start % BLOCK, data[start - segment.address:end - segment.address]))
    records.append(record(ENTRY, 0, file.header.entry.to_bytes(4, "big")))
    records.append(record(END, 0, b""))
    return b"".join(records)


def cuts(start: int, end: int) -> list[tuple[int, int]]:
    """A range in pieces: cut each sixteen bytes from its start, and where the upper half of the address changes."""
    places = {*range(start, end, WIDTH), *range(start // BLOCK * BLOCK + BLOCK, end, BLOCK)} if start < end else set()
    ordered = sorted(places) + [end]
    return list(zip(ordered, ordered[1:]))


def read(text: bytes) -> tuple[dict[int, int], int | None]:
    """The bytes and the entry that a text spells, or its first fault."""
    spelled: dict[int, int] = {}
    entry = None
    upper = 0
    lines = text.split(b"\n")
    for number, line in enumerate(lines[:-1]):
        kind, address, data = read_record(line, number)
        if kind == END:
            if lines[number + 1:] != [b""]:
                raise Fault(14, "trailing", number + 1)
            return spelled, entry
        if kind == UPPER_ADDRESS:
            upper = int.from_bytes(data, "big")
        elif kind == ENTRY:
            entry = int.from_bytes(data, "big")
        else:
            given = dict(enumerate(data, upper * BLOCK + address))
            if not spelled.keys().isdisjoint(given):
                raise Fault(14, "twice", number)
            spelled |= given
    if lines[-1]:
        raise Fault(14, "bad-record", len(lines) - 1)
    raise Fault(14, "no-end", len(lines) - 1)


def read_record(line: bytes, number: int) -> tuple[int, int, bytes]:
    """The type, the address and the data of a line."""
    digits = line.removesuffix(b"\r")
    if digits[:1] != b":" or len(digits) % 2 == 0 or any(digit not in DIGITS for digit in digits[1:]):
        raise Fault(14, "bad-record", number)
    body = bytes.fromhex(digits[1:].decode())
    if len(body) < 5 or body[0] != len(body) - 5:
        raise Fault(14, "bad-record", number)
    if sum(body) % 256:
        raise Fault(14, "bad-check", number)
    address, kind, data = int.from_bytes(body[1:3], "big"), body[3], body[4:-1]
    if kind not in (DATA, *LENGTHS):
        raise Fault(14, "bad-kind", number, kind)
    fits = address + len(data) <= BLOCK if kind == DATA else address == 0 and len(data) == LENGTHS[kind]
    if not fits:
        raise Fault(14, "bad-record", number)
    return kind, address, data


def check(file: File, text: bytes) -> None:
    """The first fault of a text, or the place where it and the file differ."""
    spelled, entry = read(text)
    image = {}
    for segment in file.segments:
        image.update(enumerate(file.bytes[segment.offset:segment.offset + segment.file_size], segment.address))
    differing = [at for at in spelled.keys() | image.keys() if spelled.get(at) != image.get(at)]
    if differing:
        raise Fault(11, "differs", min(differing))
    if entry != file.header.entry:
        raise Fault(11, "differs", file.header.entry)
