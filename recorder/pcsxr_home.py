"""A home folder for pcsxr, so that a recording neither reads nor changes the user's own settings."""
import argparse
import os
from typing import Dict

PLUGINS = ('libDFInput.so', 'libDFCdrom.so', 'libBladeSio1.so')
SETTINGS = '''Bios = %(bios)s
Gpu = libpsxgpu_record.so
Spu = libnullspu.so
Cdr = libDFCdrom.so
Net = Disabled
Pad1 = libDFInput.so
Pad2 = libDFInput.so
Mcd1 = %(home)s/.pcsxr/memcards/card1.mcd
Mcd2 = %(home)s/.pcsxr/memcards/card2.mcd
BiosDir = %(bios_folder)s/
PluginsDir = %(home)s/.pcsxr/plugins/
IsoImgDir =
Xa = 0
Sio1 = libBladeSio1.so
SioIrq = 0
Mdec = 0
PsxAuto = 1
Cdda = 1
SlowBoot = 0
Dbg = 0
PsxOut = %(tty)d
SpuIrq = 0
RCntFix = 0
VSyncWA = 0
Widescreen = 0
Cpu = %(cpu)d
PsxType = 0
'''
DRAWING = '''ResX = 640
ResY = 480
NoStretch = 0
Dithering = 1
FullScreen = 0
ShowFPS = 0
Maintain43 = 0
UseFrameLimit = %(limit)d
UseFrameSkip = 0
FPSDetection = 2
FrameRate = 200
CfgFixes = 0
UseFixes = 0
'''


def prepare(home: str, found: Dict[str, str], arguments: argparse.Namespace) -> None:
    """Lays out a home folder: settings, plugins and memory cards. `found` has the paths of the plugins."""
    base = os.path.join(home, '.pcsxr')
    for name in ('plugins', 'bios', 'memcards', 'patches', 'sstates', 'cheats'):
        os.makedirs(os.path.join(base, name))
    plugins = [os.path.join(found['plugins'], name) for name in PLUGINS]
    for path in plugins + [found['libpsxgpu_record.so'], found['libnullspu.so']]:
        os.symlink(os.path.abspath(path), os.path.join(base, 'plugins', os.path.basename(path)))
    bios = os.path.abspath(arguments.bios) if arguments.bios else os.path.join(base, 'bios', 'HLE')
    values = {'home': home, 'bios': os.path.basename(bios), 'bios_folder': os.path.dirname(bios),
              'cpu': arguments.interpreter, 'limit': arguments.screen, 'tty': arguments.tty}
    with open(os.path.join(base, 'pcsxr.cfg'), 'w') as file:
        file.write(SETTINGS % values)
    with open(os.path.join(base, 'plugins', 'dfxvideo.cfg'), 'w') as file:
        file.write(DRAWING % values)
