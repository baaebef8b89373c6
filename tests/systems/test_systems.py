"""Tests of what builds and packs for other systems. They need no kit."""
import os
import re
import struct
from unittest import mock

from packages import common, wheels, zips
from systems import retarget, targets, toolchain
from tests import support

# A module as the kit makes one, in the parts that are changed.
MODULE = '''source_filename = "psxgpu_tool"
target datalayout = "%s"
target triple = "x86_64-unknown-linux-gnu"

define i32 @main() #0 {
  %%s = call ptr @__sysv_signal(i32 13, ptr inttoptr (i64 1 to ptr))
  %%r = call i32 @"psxgpu_tool::main+start"()
  ret i32 %%r
}
define internal i32 @"psxgpu_tool::main+start"() #0 {
  %%w = call i64 @write(i32 1, ptr null, i64 0)
  %%a = call { i64, i64 } @rattle_alloc(i64 8, i64 8)
  %%c = call <16 x i8> @llvm.x86.ssse3.pshuf.b.128(<16 x i8> zeroinitializer, <16 x i8> zeroinitializer)
  ret i32 0
}
declare ptr @__sysv_signal(i32, ptr) #1
declare i64 @write(i32, ptr, i64) #1
declare { i64, i64 } @rattle_alloc(i64, i64) #1
declare <16 x i8> @llvm.x86.ssse3.pshuf.b.128(<16 x i8>, <16 x i8>)
attributes #0 = { nounwind "frame-pointer"="non-leaf" "target-cpu"="x86-64-v2" "probe-stack"="inline-asm" }
''' % targets.KITS_LAYOUTS['x86_64']


class Retarget(support.InFolder):
    def test_macos(self):
        text = retarget.translate(MODULE, 'macos-x86_64')
        target = targets.TARGETS['macos-x86_64']
        main = '@rattle_main() nounwind {\n  %r = call i32 @"psxgpu_tool::main+start"()\n  ret i32 %r\n}\n'
        for part in ('target datalayout = "%s"' % target.layout, 'target triple = "%s"' % target.triple, main,
                     'call i64 @os_write(', 'declare i64 @os_write(', 'define internal { i64, i64 } @rattle_alloc(',
                     'declare ptr @malloc(i64)', 'call <16 x i8> @llvm.x86.ssse3.pshuf.b.128(',
                     'attributes #0 = { nounwind "frame-pointer"="non-leaf" }'):
            self.assertEqual(text.count(part), 1, part)
        for gone in ('__sysv_signal', '@write(', 'declare { i64, i64 } @rattle_alloc', 'PAIR', 'target-cpu',
                     'probe-stack'):
            self.assertNotIn(gone, text)

    def test_wasm(self):
        """The one instruction of x86-64 becomes WebAssembly's; another one is refused."""
        text = retarget.translate(MODULE, 'wasm64')
        self.assertEqual(text.count('@chosen_bytes('), 2)
        self.assertNotIn('llvm.x86', text)
        self.assertNotIn('frame-pointer', text)
        other = MODULE.replace('llvm.x86.ssse3.pshuf.b.128', 'llvm.x86.sse42.crc32.32.8')
        self.assertRaisesRegex(SystemExit, 'llvm.x86.sse42.crc32.32.8', retarget.translate, other, 'wasm64')

    def test_refusals(self):
        for text, system, why in ((MODULE, 'macos-arm64', 'layout of aarch64'),
                                  (MODULE.replace('main+start', 'begin'), 'macos-x86_64', 'another way than main')):
            self.assertRaisesRegex(SystemExit, why, retarget.translate, text, system)

    def test_library(self):
        """A module without a main keeps all its functions."""
        library = re.sub(r'(?ms)^define i32 @main.*?^}\n', '', MODULE)
        self.assertIn('main+start', retarget.translate(library, 'macos-x86_64'))

    def test_calls(self):
        """Calls return a code or nothing; those in C may return more."""
        header = ('typedef uint32_t psxgpu_kind(void);\nuint32_t psxgpu_new(psxgpu *gpu);\n'
                  'void psxgpu_free(psxgpu *gpu);\nconst char *psxgpu_text(uint32_t code);\n'
                  'size_t psxgpu_line(char *out);\nsize_t psxgpu_output_copy(void);\n * psxgpu_in_a_comment()\n')
        os.mkdir(self.path('c'))
        with mock.patch.object(toolchain, 'ROOT', self.folder):
            self.write(os.path.join('c', 'psxgpu.h'), header)
            self.assertEqual(toolchain.calls(), ['psxgpu_free', 'psxgpu_new', 'psxgpu_output_copy'])
            self.assertEqual(toolchain.exports(), ['psxgpu_free', 'psxgpu_line', 'psxgpu_new', 'psxgpu_output_copy',
                                                   'psxgpu_text'])
            self.assertEqual(toolchain.library_parts(), [])
            path = self.write(os.path.join('c', 'text.c'), '')
            self.assertEqual(toolchain.library_parts(), [path])


def elf(machine):
    """The first bytes of a program."""
    return b'\x7fELF\2\1\1' + bytes(9) + struct.pack('<HH', 3, machine)


class Packages(support.InFolder):
    def test_processor(self):
        """The architecture of the packages is that of the program (the numbers are those of the ELF specification)."""
        for data, machine, debian in ((elf(62), 'x86_64', 'amd64'), (elf(183), 'aarch64', 'arm64'),
                                      (elf(243), None, None), (b'MZ' + bytes(30), None, None), (b'', None, None)):
            with self.subTest(data=data), mock.patch.object(common, 'PROGRAM', self.write('program', data)):
                if machine:
                    self.assertEqual(common.processor()[:2], (machine, debian))
                else:
                    self.assertRaisesRegex(common.ToolError, 'not a program for Linux', common.processor)

    def test_wheel_names(self):
        """The platform is that of the library. An older glibc counts as 2.17, the first of manylinux on arm64."""
        for system, version, name in (('', b'GLIBC_2.2.5', 'manylinux_2_17_x86_64'),
                                      ('', b'GLIBC_2.34', 'manylinux_2_34_x86_64'),
                                      ('aarch64', b'GLIBC_2.17', 'manylinux_2_17_aarch64'),
                                      ('macos', b'', 'macosx_11_0_universal2'), ('windows', b'', 'win_amd64')):
            library = self.write('library', b'\0' + version + b'\0')
            self.assertEqual(wheels.platform_of(system, library), name)

    def test_missing_builds(self):
        with mock.patch.object(zips, 'ROOT', self.folder):
            self.assertRaisesRegex(common.ToolError, 'out/macos/psxgpu_tool: .* build it first', zips.content, 'macos')
