"""The crate's declarations are those of c/psxgpu.h: each function with its types, each field of the structures in
order, each number."""
import os
import re
import unittest

from tests.support import TOP

TYPES = {'uint8_t': 'u8', 'uint16_t': 'u16', 'uint32_t': 'u32', 'uint64_t': 'u64', 'int32_t': 'i32', 'size_t': 'usize',
         'char': 'c_char', 'void': 'c_void', 'psxgpu': 'Handle', 'psxgpu_output': 'OutputHandle', 'psxgpu_ended': 'Ended',
         'psxgpu_note': 'RawNote'}
LEFT_OUT = 'psxgpu_play_to'     # it calls back, and a panic cannot pass through C
NUMBERS = ('LINE_ROOM', 'VRAM_ROOM', 'SAVE_ROOM', 'REGISTER_WORDS')


def text_of(*path):
    with open(os.path.join(TOP, *path)) as file:
        return file.read()


def in_rust(declared):
    """A type of C, with a name or without, as Rust has it."""
    constant, name, pointer = re.fullmatch(r'(const )?(\w+) ?(\*?)\w*', declared.strip()).groups()
    return ('*const ' if constant else '*mut ') + TYPES[name] if pointer else TYPES[name]


def functions_of_c(text):
    """The types of each function: its parameters, then what it returns."""
    found = re.findall(r'^((?!typedef)(?:const )?\w+ \*?)(psxgpu_\w+)\(([^)]*)\);', text.replace('psxgpu_sink *', 'void *'), re.M)
    return {name: [*(in_rust(it) for it in given.split(',') if it != 'void'),
                   *([] if returned == 'void ' else [in_rust(returned)])] for returned, name, given in found}


def functions_of_rust(text):
    found = re.findall(r'pub fn (psxgpu_\w+)\(([^)]*)\)(?: -> ([^;]+))?;', text)
    return {name: [*(it.split(':')[1].strip() for it in given.split(',') if it.strip()), *filter(None, [returned])]
            for name, given, returned in found}


def fields_of_c(text):
    """The fields of each structure, a name and a type."""
    out = {}
    for body, name in re.findall(r'typedef struct \w+ \{(.*?)\} (\w+);', text, re.S):
        fields = []
        for kind, pointer, names in re.findall(r'(\w+) (\*?)([\w, ]+);', body):
            fields += [(one.strip(), ('*mut ' if pointer else '') + TYPES[kind]) for one in names.split(',')]
        out[TYPES[name]] = fields
    return out


def fields_of_rust(text):
    return {name: re.findall(r'pub (\w+): ([^,]+),', body)
            for name, body in re.findall(r'#\[repr\(C\)\][^{]*pub struct (\w+) \{(.*?)\n\}', text, re.S)}


class Declarations(unittest.TestCase):
    def setUp(self):
        self.header = re.sub(r'/\*.*?\*/', '', text_of('c', 'psxgpu.h'), flags=re.S)
        self.crate = text_of('rust', 'psxgpu', 'src', 'machine', 'ffi.rs')

    def test_functions(self):
        found, wanted = functions_of_rust(self.crate), functions_of_c(self.header)
        self.assertEqual(len(wanted), len(re.findall(r'(?m)^(?!typedef).*\bpsxgpu_\w+\(', self.header)))
        del wanted[LEFT_OUT]
        self.assertEqual(found, wanted)

    def test_structures(self):
        found = fields_of_rust(self.crate)
        self.assertEqual(found, fields_of_c(self.header))
        self.assertEqual(list(found), ['Handle', 'OutputHandle', 'Ended', 'RawNote'])

    def test_numbers(self):
        for name in NUMBERS:
            in_c = re.search(r'#define PSXGPU_%s (\d+)' % name, self.header)[1]
            crate = re.search(r'pub const %s: usize = ([\d_]+);' % name, self.crate)[1]
            self.assertEqual(crate.replace('_', ''), in_c)


if __name__ == '__main__':
    unittest.main()
