"""The sections of a WebAssembly module, and edits of them."""

TABLE, MEMORY, GLOBALS, ELEMENTS = 4, 5, 6, 9


def number_at(data, place):
    """The LEB128 number at a place, and the place behind it."""
    value = shift = 0
    while True:
        byte = data[place]
        value, shift, place = value | (byte & 127) << shift, shift + 7, place + 1
        if byte < 128:
            return value, place


def number_bytes(value):
    """A number as LEB128."""
    out = bytearray()
    while value > 127:
        out.append(value & 127 | 128)
        value >>= 7
    return bytes([*out, value])


def sections(module):
    """Each section: its kind, and what it holds."""
    place = 8
    while place < len(module):
        kind = module[place]
        size, begin = number_at(module, place + 1)
        place = begin + size
        yield kind, module[begin:place]


def edited(module, kind, edit):
    """The module with a section of this kind edited."""
    out = bytearray(module[:8])
    for found, body in sections(module):
        body = edit(body) if found == kind else body
        out += bytes([found]) + number_bytes(len(body)) + body
    return bytes(out)


def with_narrow_table(module):
    """The module whose table of functions has 32-bit limits. It has to be empty."""
    if any(kind == ELEMENTS for kind, _ in sections(module)):
        raise SystemExit("the table of functions has elements")
    return edited(module, TABLE, lambda body: body[:2] + bytes([body[2] & ~4]) + body[3:])


def with_memory_of(module, pages):
    """The module whose memory has so many pages at most."""

    def limited(body):
        least, _ = number_at(body, 2)
        return bytes([1, 1]) + number_bytes(least) + number_bytes(pages)

    return edited(module, MEMORY, limited)
