"""What a recording needs on the machine: pcsxr, Xvfb, plugins, and the environment of the emulator."""
import argparse
import glob
import os
import shutil
from typing import Dict

from failure import Bad
from pcsxr_home import PLUGINS

OURS = 'libpsxgpu_record.so', 'libnullspu.so', 'noxv.so'


def package(name: str, packages: str) -> Bad:
    """What to do if the machine lacks `name`."""
    return Bad('no %s: apt-get update && apt-get install --no-install-recommends %s' % (name, packages), 77)


def program(name: str, packages: str) -> str:
    """Returns the path of a program."""
    found = shutil.which(name, path=os.environ.get('PATH', '') + ':/usr/games:/usr/bin')
    if not found:
        raise package('%s on this machine' % name, packages)
    return found


def tools(arguments: argparse.Namespace) -> Dict[str, str]:
    """Returns the paths of programs and libraries by name. Bad, with status 77, if one is missing."""
    found = {'pcsxr': arguments.pcsxr or program('pcsxr', 'pcsxr')}
    if not arguments.screen:
        found['Xvfb'] = program('Xvfb', 'xvfb')
    for name in OURS:
        found[name] = os.path.join(arguments.built, name)
        if not os.path.exists(found[name]):
            raise Bad('no %s: run recorder/build' % found[name], 77)
    folders = glob.glob('/usr/lib/*/psemu') + glob.glob('/usr/lib/games/psemu')
    found['plugins'] = folders[0] if folders else ''
    found['drawing'] = arguments.plugin or os.path.join(found['plugins'], 'libDFXVideo.so')
    if arguments.plugin and not os.path.exists(arguments.plugin):
        raise Bad('no plugin %s' % arguments.plugin)
    for path in [found['drawing']] + [os.path.join(found['plugins'], name) for name in PLUGINS]:
        if not os.path.exists(path):
            raise package('plugin %s' % path, 'pcsxr')
    return found


def environment(home: str, found: Dict[str, str], arguments: argparse.Namespace) -> Dict[str, str]:
    """Returns the environment of the emulator, with the settings of our plugin."""
    out = dict(os.environ, HOME=home, PSXGPU_PLUGIN=os.path.abspath(found['drawing']),
               PSXGPU_CAPTURE=os.path.abspath(arguments.capture),
               PSXGPU_FRAMES=str(arguments.frames), PSXGPU_FROM=arguments.start, PSXGPU_SPLIT=str(arguments.split),
               PSXGPU_DMA='ram' if arguments.ram else 'flat', PSXGPU_CHECK=str(int(arguments.check)))
    out['PSXGPU_WINDOW'] = str(int(arguments.screen))
    out.pop('PSXGPU_POLLS', None)
    if arguments.polls is not None:
        out['PSXGPU_POLLS'] = str(arguments.polls)
    if not arguments.screen:
        out['LD_PRELOAD'] = found['noxv.so']
    return out
