"""An assembler for the MIPS I processor of the PlayStation, as much of one as the console's player needs.

    assemble(text, 0x80010000, {'name': 5}) gives the bytes, and the addresses of the labels

A line is a label, an instruction or a directive: `.word`, `.half`, `.byte`, `.ascii "text"`, `.align 2`, `.space n`.
`#` begins a comment. Nothing is reordered and no instruction becomes two: delay slots stand in the text as they are.
Operands are registers ($t0), numbers, names, `%hi(name)`, `%lo(name)`, and sums with + or -. GNU as makes the same
bytes of the same text with `.set noreorder`.
"""
import re
import struct
from typing import Dict, Mapping, Tuple

from psxgpu.console.instructions import encode

SIZES = {'.word': '<I', '.half': '<H', '.byte': '<B'}


class Assembler:
    """One pass over a text. The first pass finds the labels, the second one (`final`) has to know every name."""

    def __init__(self, address: int, names: Mapping[str, int], final: bool) -> None:
        self.address, self.names, self.final = address, dict(names), final
        self.out = bytearray()

    @property
    def here(self) -> int:
        """The address of the next byte."""
        return self.address + len(self.out)

    def value(self, text: str) -> int:
        """Returns the value of an operand. In the first pass an unknown name is 0."""
        part = re.fullmatch(r'\s*%(hi|lo)\((.+)\)\s*', text)
        if part:
            whole = self.value(part[2])
            return (whole + 0x8000 >> 16 if part[1] == 'hi' else whole) & 0xFFFF
        total = 0
        for sign, term in re.findall(r'([+-]?)\s*([\w.]+)', text):
            number = int(term, 0) if term[0].isdigit() else self.names.get(term)
            if number is None and self.final:
                raise ValueError('no name %s' % term)
            total += (-1 if sign == '-' else 1) * (number or 0)
        return total

    def distance(self, text: str) -> int:
        """Returns how many instructions a branch goes from its delay slot, as 16 bits."""
        far = (self.value(text) - self.here - 4) // 4
        if self.final and not -0x8000 <= far < 0x8000:
            raise ValueError('too far: %s' % text)
        return far & 0xFFFF

    def directive(self, name: str, rest: str) -> None:
        """Appends what a directive asks for."""
        if name in SIZES:
            size = struct.calcsize(SIZES[name])
            for text in rest.split(','):
                self.out += struct.pack(SIZES[name], self.value(text) & (1 << 8 * size) - 1)
        elif name == '.ascii':
            self.out += rest.strip('"').encode('ascii').replace(b'\\0', b'\0')
        elif name == '.align':
            self.out += bytes(-len(self.out) % (1 << int(rest)))
        elif name == '.space':
            self.out += bytes(self.value(rest))
        else:
            raise ValueError('no directive %s' % name)

    def line(self, line: str) -> None:
        """Appends what a line is, and keeps its label."""
        line = re.sub(r'#[^"]*$', '', line).strip()
        label = re.match(r'(\w+):\s*', line)
        if label:
            self.names[label[1]] = self.here
            line = line[label.end():]
        name, _, rest = line.partition(' ')
        if name.startswith('.'):
            self.directive(name, rest.strip())
        elif name:
            self.out += struct.pack('<I', encode(name, rest.split(','), self))

    def whole(self, text: str) -> None:
        """Appends a text. ValueError, with the number of the line, if one of its lines is wrong."""
        for number, line in enumerate(text.splitlines(), 1):
            try:
                self.line(line)
            except (ValueError, KeyError, IndexError) as bad:
                raise ValueError('line %d: %s: %s' % (number, line.strip(), bad)) from bad


def assemble(text: str, address: int, names: Mapping[str, int]) -> Tuple[bytes, Dict[str, int]]:
    """Returns the bytes of a text that lies at `address`, and the values of all names."""
    first = Assembler(address, names, False)
    first.whole(text)
    second = Assembler(address, first.names, True)
    second.whole(text)
    return bytes(second.out), second.names
