"""Numbers, names and limits of WebAssembly's binary format, read and written."""
from typing import Optional, Tuple

# The types of values, as bytes of the format.
I32, I64, F32, F64, V128 = 0x7f, 0x7e, 0x7d, 0x7c, 0x7b
HAS_MOST, IS_64 = 1, 4  # flags of limits


class Unsupported(Exception):
    """A part of a module that this project's modules do not have."""


def leb(number: int) -> bytes:
    """Returns an unsigned number as LEB128."""
    made = bytearray()
    while True:
        byte, number = number & 127, number >> 7
        made.append(byte | 128 * (number != 0))
        if not number:
            return bytes(made)


def signed_leb(number: int) -> bytes:
    """Returns a number of at least 0 as signed LEB128: bit 6 of the last byte is the sign."""
    made = leb(number)
    return made if made[-1] < 64 else made[:-1] + bytes([made[-1] | 128, 0])


def vector(parts: 'list[bytes]') -> bytes:
    """Returns parts after their count."""
    return leb(len(parts)) + b''.join(parts)


class Reader:
    """Reads a module's bytes from a place on."""

    def __init__(self, data: bytes, at: int = 0) -> None:
        self.data, self.at = data, at

    def more(self) -> bool:
        """Returns whether bytes are left."""
        return self.at < len(self.data)

    def take(self, count: int) -> bytes:
        """Returns the next bytes."""
        self.at += count
        if self.at > len(self.data):
            raise Unsupported('the module ends early')
        return self.data[self.at - count:self.at]

    def byte(self) -> int:
        """Returns the next byte."""
        return self.take(1)[0]

    def number(self) -> int:
        """Returns an unsigned number."""
        value = shift = 0
        while True:
            byte = self.byte()
            value |= (byte & 127) << shift
            shift += 7
            if byte < 128:
                return value

    def signed(self) -> int:
        """Returns a signed number."""
        value = shift = 0
        while True:
            byte = self.byte()
            value |= (byte & 127) << shift
            shift += 7
            if byte < 128:
                return value - (1 << shift) if byte & 64 else value

    def part(self) -> bytes:
        """Returns bytes that stand after their count: a name, a section, a function's body."""
        return self.take(self.number())

    def limits(self) -> Tuple[int, Optional[int], bool]:
        """Returns the least and the most of a memory or a table, and whether its addresses have 64 bits."""
        flags, least = self.byte(), self.number()
        return least, self.number() if flags & HAS_MOST else None, bool(flags & IS_64)
