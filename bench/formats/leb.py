"""Numbers, lengths, counts and limits of the binary formats (WebAssembly, Binary Format, Values and Limits)."""


def leb(number):
    """An unsigned number in LEB128, the shortest."""
    out = bytearray()
    while number >= 0x80:
        out.append(number & 0x7F | 0x80)
        number >>= 7
    return bytes(out) + bytes([number])


def signed_leb(number):
    """A signed number in LEB128, the shortest."""
    out = bytearray()
    while not -0x40 <= number < 0x40:
        out.append(number & 0x7F | 0x80)
        number >>= 7
    return bytes(out) + bytes([number & 0x7F])


def framed(part):
    """A length and the bytes."""
    return leb(len(part)) + part


def vector(parts):
    """A count and the items."""
    return leb(len(parts)) + b"".join(parts)


def limits_bytes(limits):
    """A least number, and a greatest where there is one."""
    least, most = limits
    return b"\0" + leb(least) if most is None else b"\1" + leb(least) + leb(most)
