"""The bodies of functions for lower64.py: each address is cut to 32 bits where an instruction takes it."""
from typing import Dict, List, Tuple

from systems.wasm_binary import I32, I64, F32, F64, V128, Reader, Unsupported, leb

WRAP, EXTEND_SIGNED, EXTEND = b'\xa7', b'\xac', b'\xad'  # i64 to i32, i32 to i64
GET, SET = b'\x20', b'\x21'  # of a local
MEMORY_SIZE, MEMORY_GROW, CALL_INDIRECT, BULK, SIMD = 0x3f, 0x40, 0x11, 0xfc, 0xfd
LOADS = range(0x28, 0x36)
# By the opcode of a store the type of the value on top of the address.
STORES = {0x36: I32, 0x37: I64, 0x38: F32, 0x39: F64, 0x3a: I32, 0x3b: I32, 0x3c: I64, 0x3d: I64, 0x3e: I64}
# What stands after the opcode of an instruction without an address: n a number, s a signed one, b a byte, 4 and 8 so
# many bytes, t numbers after their count and one more (the branches of a table), v types after their count.
PLAIN = {0x02: 's', 0x03: 's', 0x04: 's', 0x0c: 'n', 0x0d: 'n', 0x0e: 't', 0x10: 'n', 0x1c: 'v', 0x20: 'n', 0x21: 'n',
         0x22: 'n', 0x23: 'n', 0x24: 'n', 0x41: 's', 0x42: 's', 0x43: '4', 0x44: '8', 0xd0: 'b', 0xd2: 'n'}
PLAIN.update({opcode: '' for opcode in (0x00, 0x01, 0x05, 0x0b, 0x0f, 0x1a, 0x1b, 0xd1, *range(0x45, 0xc5))})
MEMORY_INIT, DATA_DROP, MEMORY_COPY, MEMORY_FILL = 8, 9, 10, 11
# SIMD: loads, the store, loads and stores of a lane, the constant and the shuffle, lanes taken and put.
SIMD_LOADS, SIMD_STORE, SIMD_LANES = (*range(11), 92, 93), 11, range(84, 92)
SIMD_BYTES, SIMD_LANE = (12, 13), range(21, 35)


class Code:
    """One function's body. `params`: how many parameters the function has."""

    def __init__(self, body: bytes, params: int, wide_memory: bool, wide_table: bool) -> None:
        self.read, self.out = Reader(body), bytearray()
        self.wide_memory, self.wide_table = wide_memory, wide_table
        self.locals = [(self.read.number(), self.read.byte()) for _ in range(self.read.number())]
        self.next = params + sum(count for count, _ in self.locals)
        # Locals that are added, by their type and a number: their indices.
        self.added: Dict[Tuple[int, int], int] = {}

    def local(self, kind: int, which: int = 0) -> bytes:
        """Returns the index of an added local."""
        if (kind, which) not in self.added:
            self.added[kind, which] = self.next
            self.next += 1
        return leb(self.added[kind, which])

    def lowered(self) -> bytes:
        """Returns the new body, with its size before it."""
        while self.read.more():
            self.instruction()
        groups = self.locals + [(1, kind) for kind, _ in self.added]
        body = leb(len(groups)) + b''.join(leb(count) + bytes([kind]) for count, kind in groups) + bytes(self.out)
        return leb(len(body)) + body

    def instruction(self) -> None:
        """Reads one instruction and writes it."""
        start = self.read.at
        opcode = self.read.byte()
        if opcode in LOADS:
            self.load(bytes([opcode]))
        elif opcode in STORES:
            self.store(bytes([opcode]), STORES[opcode])
        elif opcode in (MEMORY_SIZE, MEMORY_GROW):
            self.pages(opcode)
        elif opcode == CALL_INDIRECT:
            self.immediates('nn')
            self.put(WRAP if self.wide_table else b'', start)
        elif opcode == BULK:
            self.put(self.bulk(), start)
        elif opcode == SIMD:
            self.simd(start)
        elif opcode in PLAIN:
            self.immediates(PLAIN[opcode])
            self.put(b'', start)
        else:
            raise Unsupported('the instruction %02x' % opcode)

    def put(self, before: bytes, start: int) -> None:
        """Writes what comes before an instruction, and the instruction's bytes as they were read from `start` on."""
        self.out += before + self.read.data[start:self.read.at]

    def immediates(self, kinds: str) -> None:
        """Reads what stands after an opcode."""
        read = self.read
        for kind in kinds:
            if kind == 'n':
                read.number()
            elif kind == 's':
                read.signed()
            elif kind == 't':
                self.immediates('n' * (read.number() + 1))
            else:
                read.take(read.number() if kind == 'v' else 1 if kind == 'b' else int(kind))

    def place(self) -> bytes:
        """Returns alignment and offset. They are written anew: a linker leaves room for an offset of 64 bits."""
        flags, offset = self.read.number(), self.read.number()
        if flags & 64 or offset >> 32:
            raise Unsupported('a second memory, or an offset of 2^32 or more')
        return leb(flags) + leb(offset)

    def load(self, head: bytes) -> None:
        """Writes a load: the address is on top."""
        self.out += (WRAP if self.wide_memory else b'') + head + self.place()

    def store(self, head: bytes, kind: int) -> None:
        """Writes a store, or a load of a lane: the address is below a value of this type."""
        if self.wide_memory:
            self.out += SET + self.local(kind) + WRAP + GET + self.local(kind)
        self.out += head + self.place()

    def pages(self, opcode: int) -> None:
        """Writes memory.size, or memory.grow, whose answer may be -1."""
        self.read.byte()
        before, after = (WRAP, EXTEND_SIGNED) if opcode == MEMORY_GROW else (b'', EXTEND)
        plain = bytes([opcode, 0])
        self.out += before + plain + after if self.wide_memory else plain

    def bulk(self) -> bytes:
        """Reads an instruction for many bytes. Returns what cuts its operands."""
        which = self.read.number()
        self.immediates({MEMORY_INIT: 'nb', DATA_DROP: 'n', MEMORY_COPY: 'bb', MEMORY_FILL: 'b'}.get(which, ''))
        if which > MEMORY_FILL:
            raise Unsupported('the instruction fc %d' % which)
        if not self.wide_memory or which < MEMORY_INIT or which == DATA_DROP:  # the first eight convert floats
            return b''
        return self.cut({MEMORY_INIT: [(I32, False), (I32, False)], MEMORY_COPY: [(I64, True), (I64, True)],
                         MEMORY_FILL: [(I64, True), (I32, False)]}[which])

    def cut(self, above: List[Tuple[int, bool]]) -> bytes:
        """Returns what cuts the address under two operands. `above`: the type of each of these from the top, and whether
        it is cut too."""
        (top, cut_top), (second, cut_second) = above
        first, other = self.local(top, 0), self.local(second, 1)
        return (SET + first + SET + other + WRAP + GET + other + (WRAP if cut_second else b'') + GET + first
                + (WRAP if cut_top else b''))

    def simd(self, start: int) -> None:
        """Reads and writes an instruction for 16 bytes."""
        which = self.read.number()
        head = self.read.data[start:self.read.at]
        if which in SIMD_LOADS:
            self.load(head)
        elif which == SIMD_STORE:
            self.store(head, V128)
        elif which in SIMD_LANES:
            self.store(head, V128)
            self.out.append(self.read.byte())
        else:
            self.read.take(16 if which in SIMD_BYTES else 1 if which in SIMD_LANE else 0)
            self.put(b'', start)
