"""The instructions of the MIPS I processor that the console's player uses, as words.

The forms and codes are those of the psx-spx chapter "CPU Specifications".
"""
import re
from typing import Callable, Dict, List, Protocol, Tuple


class Operands(Protocol):
    """Reads operands that are numbers or names."""

    def value(self, text: str) -> int:
        """Returns the value of a sum of numbers and names."""

    def distance(self, text: str) -> int:
        """Returns how many instructions a target is from the delay slot of the instruction, as 16 bits."""


Encoder = Callable[[int, List[str], Operands], int]
NAMES = 'zero at v0 v1 a0 a1 a2 a3 t0 t1 t2 t3 t4 t5 t6 t7 s0 s1 s2 s3 s4 s5 s6 s7 t8 t9 k0 k1 gp sp fp ra'
REGISTERS = {name: number for number, name in enumerate(NAMES.split())}
REGISTERS.update({str(number): number for number in range(32)})


def register(text: str) -> int:
    """Returns the number of a register: $t0, $12."""
    return REGISTERS[text.strip()[1:]]


def nothing(code: int, _words: List[str], _: Operands) -> int:
    """nop"""
    return code


def three(code: int, words: List[str], _: Operands) -> int:
    """addu d, s, t"""
    d, s, t = map(register, words)
    return s << 21 | t << 16 | d << 11 | code


def move(code: int, words: List[str], _: Operands) -> int:
    """move d, s: `or` with $zero, as GNU as writes it"""
    d, s = map(register, words)
    return s << 21 | d << 11 | code


def shift(code: int, words: List[str], operands: Operands) -> int:
    """sll d, t, number"""
    d, t = map(register, words[:2])
    return t << 16 | d << 11 | (operands.value(words[2]) & 31) << 6 | code


def shift_by(code: int, words: List[str], _: Operands) -> int:
    """sllv d, t, s"""
    d, t, s = map(register, words)
    return s << 21 | t << 16 | d << 11 | code


def constant(code: int, words: List[str], operands: Operands) -> int:
    """addiu t, s, number"""
    t, s = map(register, words[:2])
    return code << 26 | s << 21 | t << 16 | operands.value(words[2]) & 0xFFFF


def upper(code: int, words: List[str], operands: Operands) -> int:
    """lui t, number"""
    return code << 26 | register(words[0]) << 16 | operands.value(words[1]) & 0xFFFF


def memory(code: int, words: List[str], operands: Operands) -> int:
    """lw t, offset(s)"""
    part = re.fullmatch(r'(.*)\((\$\w+)\)', words[1].strip())
    if part is None:
        raise ValueError('no address %s' % words[1])
    return code << 26 | register(part[2]) << 21 | register(words[0]) << 16 | operands.value(part[1] or '0') & 0xFFFF


def branch(code: int, words: List[str], operands: Operands) -> int:
    """beq s, t, target; beqz s, target; b target"""
    s, t = map(register, (words[:-1] + ['$zero', '$zero'])[:2])
    return code << 26 | s << 21 | t << 16 | operands.distance(words[-1])


def jump(code: int, words: List[str], operands: Operands) -> int:
    """j target"""
    return code << 26 | operands.value(words[0]) >> 2 & 0x3FFFFFF


def jump_register(code: int, words: List[str], _: Operands) -> int:
    """jr s"""
    return register(words[0]) << 21 | code


def to_coprocessor(code: int, words: List[str], _: Operands) -> int:
    """mtc0 t, d"""
    t, d = map(register, words)
    return 0x10 << 26 | code << 21 | t << 16 | d << 11


def divide(code: int, words: List[str], _operands: Operands) -> int:
    """divu $zero, s, t"""
    _, s, t = map(register, words)
    return s << 21 | t << 16 | code


def from_divider(code: int, words: List[str], _: Operands) -> int:
    """mflo d"""
    return register(words[0]) << 11 | code


FORMS: Dict[str, Tuple[Encoder, int]] = {
    'nop': (nothing, 0), 'addu': (three, 0x21), 'subu': (three, 0x23), 'and': (three, 0x24), 'or': (three, 0x25),
    'xor': (three, 0x26), 'slt': (three, 0x2A), 'sltu': (three, 0x2B), 'move': (move, 0x25), 'sll': (shift, 0),
    'srl': (shift, 2), 'sra': (shift, 3), 'sllv': (shift_by, 4), 'srlv': (shift_by, 6), 'addiu': (constant, 0x09),
    'slti': (constant, 0x0A), 'sltiu': (constant, 0x0B), 'andi': (constant, 0x0C), 'ori': (constant, 0x0D),
    'xori': (constant, 0x0E), 'lui': (upper, 0x0F), 'lb': (memory, 0x20), 'lh': (memory, 0x21), 'lw': (memory, 0x23),
    'lbu': (memory, 0x24), 'lhu': (memory, 0x25), 'sb': (memory, 0x28), 'sh': (memory, 0x29), 'sw': (memory, 0x2B),
    'beq': (branch, 4), 'bne': (branch, 5), 'beqz': (branch, 4), 'bnez': (branch, 5), 'b': (branch, 4), 'j': (jump, 2),
    'jal': (jump, 3), 'jr': (jump_register, 8), 'mtc0': (to_coprocessor, 4), 'divu': (divide, 0x1B),
    'mfhi': (from_divider, 0x10), 'mflo': (from_divider, 0x12)}


def encode(name: str, words: List[str], operands: Operands) -> int:
    """Returns the word of an instruction. ValueError, KeyError or IndexError if it is none."""
    if name not in FORMS:
        raise ValueError('no instruction %s' % name)
    form, code = FORMS[name]
    return form(code, words, operands)
