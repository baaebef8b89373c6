#!/usr/bin/env python3
"""Makes a WebAssembly module with addresses of 64 bits one with addresses of 32 bits.

    python3 -m systems.lower64 IN.wasm OUT.wasm

An address stays a number of 64 bits in locals, globals, arguments, results and in memory. Only where an instruction
takes it, for memory or a table, it is cut to 32 bits. So every engine with SIMD runs OUT, not only those that know
addresses of 64 bits.

Why OUT does the same: an address of IN that is in memory is below 2^32, because memory has at most 65,536 pages, and an
engine adds the offset of an instruction without a wrap. They differ only where IN reaches past its memory with an
address of 2^32 or more: IN stops there, and OUT may reach another place. Proved code never does.
"""
import sys
from typing import Callable, Dict, List

from systems.lower64_code import Code
from systems.wasm_binary import Reader, Unsupported, leb, signed_leb, vector

HEAD_BYTES, MOST_PAGES = 8, 65536
CUSTOM, TYPES, IMPORTS, FUNCTIONS, TABLES, MEMORIES, ELEMENTS, CODE, DATA = 0, 1, 2, 3, 4, 5, 9, 10, 11
FUNCTION_TYPE, I32_CONST, I64_CONST, END = 0x60, 0x41, 0x42, 0x0b


class Module:
    """A module whose sections are lowered one after another."""

    def __init__(self) -> None:
        self.params: List[int] = []     # of each type
        self.functions: List[int] = []  # the type of each
        self.wide_memory = self.wide_table = False

    def section(self, kind: int, body: bytes) -> bytes:
        """Returns a section's new body."""
        changes: Dict[int, Callable[[Reader], bytes]] = {
            TABLES: self.tables, MEMORIES: self.memories, ELEMENTS: self.elements, CODE: self.code, DATA: self.segments}
        looks: Dict[int, Callable[[Reader], None]] = {
            TYPES: self.look_at_types, IMPORTS: self.look_at_imports, FUNCTIONS: self.look_at_functions}
        if kind in looks:
            looks[kind](Reader(body))
        return changes[kind](Reader(body)) if kind in changes else body

    def look_at_types(self, read: Reader) -> None:
        """Keeps how many parameters each type of a function has."""
        for _ in range(read.number()):
            if read.byte() != FUNCTION_TYPE:
                raise Unsupported('a type that is no function')
            self.params.append(len(read.part()))
            read.part()

    def look_at_imports(self, read: Reader) -> None:
        """Refuses imports other than functions."""
        for _ in range(read.number()):
            read.part(), read.part()
            if read.byte() != 0:
                raise Unsupported('an import that is no function')
            read.number()

    def look_at_functions(self, read: Reader) -> None:
        """Keeps the type of each function."""
        self.functions = [read.number() for _ in range(read.number())]

    def limits(self, read: Reader) -> 'tuple[bytes, bool]':
        """Returns limits without the flag of 64 bits, and whether they had it."""
        least, most, wide = read.limits()
        if most is None:
            return b'\0' + leb(least), wide
        return b'\1' + leb(least) + leb(min(most, MOST_PAGES) if wide else most), wide

    def tables(self, read: Reader) -> bytes:
        """Returns the tables: there is one at most."""
        made = []
        for _ in range(read.number()):
            kind = read.take(1)
            limits, self.wide_table = self.limits(read)
            made.append(kind + limits)
        return vector(made)

    def memories(self, read: Reader) -> bytes:
        """Returns the memories: there is one at most."""
        made = []
        for _ in range(read.number()):
            limits, self.wide_memory = self.limits(read)
            made.append(limits)
        return vector(made)

    def place(self, read: Reader, wide: bool) -> bytes:
        """Returns the constant at which elements or bytes are put."""
        opcode, value, end = read.byte(), read.signed(), read.byte()
        if opcode != (I64_CONST if wide else I32_CONST) or end != END or not 0 <= value < 1 << 31:
            raise Unsupported('a segment that does not begin at a constant below 2^31')
        return bytes([I32_CONST]) + signed_leb(value) + bytes([END])

    def elements(self, read: Reader) -> bytes:
        """Returns what is put into the table."""
        made = []
        for _ in range(read.number()):
            if read.number() != 0:
                raise Unsupported('elements that are not functions in the first table')
            place = self.place(read, self.wide_table)
            made.append(b'\0' + place + vector([leb(read.number()) for _ in range(read.number())]))
        return vector(made)

    def code(self, read: Reader) -> bytes:
        """Returns the bodies of all functions."""
        made = []
        for kind in self.functions[:read.number()]:
            made.append(Code(read.part(), self.params[kind], self.wide_memory, self.wide_table).lowered())
        return vector(made)

    def segments(self, read: Reader) -> bytes:
        """Returns the bytes that are put into memory."""
        made = []
        for _ in range(read.number()):
            flag = read.number()
            if flag > 1:
                raise Unsupported('bytes for a second memory')
            place = self.place(read, self.wide_memory) if flag == 0 else b''
            data = read.part()
            made.append(leb(flag) + place + leb(len(data)) + data)
        return vector(made)


def lowered(data: bytes) -> bytes:
    """Returns the module with addresses of 32 bits. Raises Unsupported."""
    read, module, parts = Reader(data, HEAD_BYTES), Module(), [data[:HEAD_BYTES]]
    while read.more():
        kind, body = read.byte(), read.part()
        if kind == CUSTOM and Reader(body).part() == b'target_features':
            continue
        body = module.section(kind, body)
        parts.append(bytes([kind]) + leb(len(body)) + body)
    return b''.join(parts)


def lower(given: str, made: str) -> None:
    """Reads a module from one file and writes it to another. Ends this program if it has what is not supported."""
    with open(given, 'rb') as file:
        data = file.read()
    try:
        data = lowered(data)
    except Unsupported as bad:
        sys.exit('lower64.py: %s: not supported: %s' % (given, bad))
    with open(made, 'wb') as file:
        file.write(data)


if __name__ == '__main__':
    if len(sys.argv) != 3:
        sys.exit(__doc__)
    lower(*sys.argv[1:])
