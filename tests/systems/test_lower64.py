"""systems/lower64.py on modules made by hand

Each row has the instructions of a function with two parameters of 64 bits, as hexadecimal bytes of the binary format
(WebAssembly specification, chapter 5), what they become, and the types of the locals that are added. node says of each
made module whether it is valid, where it is installed."""
import json
import shutil
import subprocess
import unittest

from systems.lower64 import lowered
from systems.wasm_binary import Unsupported, leb, signed_leb, vector

HEAD = bytes.fromhex('0061736d01000000')
I32, I64, V128 = '7f', '7e', '7b'
ROWS = [
    ('i32.load', '2000 280208 1a', '2000 a7 280208 1a', ''),
    ('an offset in ten bytes', '2000 2802 88808080808080808000 1a', '2000 a7 2802 08 1a', ''),
    ('i64.load32_u', '2000 350200 1a', '2000 a7 350200 1a', ''),
    ('i64.store', '2000 2001 370300', '2000 2001 2102 a7 2002 370300', I64),
    ('i32.store8', '2000 4107 3a0000', '2000 4107 2102 a7 2002 3a0000', I32),
    ('two stores of a type', '2000 2001 370300 2000 2001 370308',
     '2000 2001 2102 a7 2002 370300 2000 2001 2102 a7 2002 370308', I64),
    ('memory.size', '3f00 1a', '3f00 ad 1a', ''),
    ('memory.grow', '4201 4000 1a', '4201 a7 4000 ac 1a', ''),
    ('memory.copy', '2000 2001 4205 fc0a0000', '2000 2001 4205 2102 2103 a7 2003 a7 2002 a7 fc0a0000', I64 + I64),
    ('memory.fill', '2000 4107 4205 fc0b00', '2000 4107 4205 2102 2103 a7 2003 2002 a7 fc0b00', I64 + I32),
    ('v128.load', '2000 fd000400 1a', '2000 a7 fd000400 1a', ''),
    ('v128.load64_zero', '2000 fd5d0300 1a', '2000 a7 fd5d0300 1a', ''),
    ('v128.store', '2000 4103 fd0f fd0b0400', '2000 4103 fd0f 2102 a7 2002 fd0b0400', V128),
    ('v128.load8_lane', '2000 4103 fd0f fd5400000f 1a', '2000 4103 fd0f 2102 a7 2002 fd5400000f 1a', V128),
    ('call_indirect', '4200 110100', '4200 a7 110100', ''),
    # What has no address stays.
    ('blocks, branches', '0240 0340 2000 50 0e020001 00 0b 0b', '0240 0340 2000 50 0e020001 00 0b 0b', ''),
    ('constants', '412a 1a 42 ffffffffffffffffff00 1a 43 0000803f 1a 44 000000000000f03f 1a',
     '412a 1a 42 ffffffffffffffffff00 1a 43 0000803f 1a 44 000000000000f03f 1a', ''),
    ('select of a type', '2000 2001 4101 1c017e 1a', '2000 2001 4101 1c017e 1a', ''),
    ('v128.const, lanes', 'fd0c' + 16 * '28' + 'fd1603 1a', 'fd0c' + 16 * '28' + 'fd1603 1a', ''),
    ('i32.trunc_sat_f64_u', '44 000000000000f03f fc03 1a', '44 000000000000f03f fc03 1a', ''),
]
REFUSED = [('an atomic', '2000 fe100200 1a'), ('a second memory', '2000 28420108 1a'), ('table.get', '4200 2500 1a'),
           ('an offset of 2^32', '2000 2802 8080808010 1a'), ('an end within', '2000 28')]


def section(kind, body):
    """Returns a section."""
    return bytes([kind]) + leb(len(body)) + body


def module(code, flag, address, added=''):
    """Returns a module with a function, a table of two and a memory of one page to two, each with this flag of limits, an
    element and three bytes, at the constant 16 written as `address` has it."""
    groups = vector([b'\1' + bytes([kind]) for kind in bytes.fromhex(added)])
    body = groups + bytes.fromhex(code) + b'\x0b'
    place = address(16) + b'\x0b'
    return (HEAD + section(1, vector([b'\x60\2\x7e\x7e\0', b'\x60\0\0'])) + section(3, vector([b'\0', b'\1']))
            + section(4, vector([b'\x70' + bytes([flag]) + b'\x20']))
            + section(5, vector([bytes([1 | flag]) + b'\1\2'])) + section(9, vector([b'\0' + place + vector([b'\0'])]))
            + section(10, vector([leb(len(it)) + it for it in (body, b'\0\x0b')]))
            + section(11, vector([b'\0' + place + b'\3abc'])))


def wide(code):
    """Returns a module with addresses of 64 bits."""
    return module(code, 4, lambda value: b'\x42' + signed_leb(value))


def narrow(code, added):
    """Returns the same with addresses of 32 bits."""
    return module(code, 0, lambda value: b'\x41' + signed_leb(value), added)


class Lower64(unittest.TestCase):
    def test_rows(self):
        for name, given, made, added in ROWS:
            with self.subTest(name=name):
                self.assertEqual(lowered(wide(given)).hex(), narrow(made, added).hex())

    def test_narrow_stays(self):
        """A module whose addresses have 32 bits stays as it is."""
        given = narrow('2000 a7 280208 1a', '')
        self.assertEqual(lowered(given), given)

    def test_features(self):
        """The list of what a linker was told of goes, other sections without meaning stay."""
        plain = wide('')
        name, features = section(0, b'\4name'), section(0, b'\x0ftarget_features\0')
        self.assertEqual(lowered(plain + name + features), narrow('', '') + name)

    def test_refused(self):
        for name, given in REFUSED:
            with self.subTest(name=name), self.assertRaises(Unsupported):
                lowered(wide(given))

    @unittest.skipUnless(shutil.which('node'), 'no node')
    def test_valid(self):
        modules = [lowered(wide(given)).hex() for _, given, _, _ in ROWS]
        script = "console.log(JSON.stringify(%s.map(it => WebAssembly.validate(Buffer.from(it, 'hex')))))"
        done = subprocess.run(['node', '-e', script % json.dumps(modules)], stdout=subprocess.PIPE, check=True)
        self.assertEqual(dict(zip([row[0] for row in ROWS], json.loads(done.stdout))), {row[0]: True for row in ROWS})
