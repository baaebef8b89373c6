"""The drawing processor of a PlayStation, as a proved machine: libpsxgpu for Python, by ctypes alone.

    import psxgpu

    machine = psxgpu.Machine()
    machine.gp0([0x020000FF, 0x00000000, 0x00100010])    # a red fill of 16 by 16
    machine.cell(3, 4)                                   # 31
    before = machine.save()
    machine.gp0(0xE1000000)
    machine.load(before)                                 # a step back
    psxgpu.play('frame.capture', 'shot')                 # the bytes that `psxgpu_tool shot` writes
    for frame in psxgpu.Recording('film.capture.gz').frames():
        frame.event, frame.width, frame.height, frame.rgba

docs/LIBRARY.md has a page on this module. Its names are also those of the package `psxgpu`.
"""
from psxgpu.machine.gpu import Machine
from psxgpu.machine.library import Error, Missing, OutOfMemory, Refused, library
from psxgpu.machine.playing import MODES, play, play_size, play_to
from psxgpu.machine.recording import Frame, Packet, Record, Recording
from psxgpu.machine.values import Note, Registers, Snapshot

__all__ = ['Error', 'Frame', 'MODES', 'Machine', 'Missing', 'Note', 'OutOfMemory', 'Packet', 'Record', 'Recording',
           'Refused', 'Registers', 'Snapshot', 'library', 'play', 'play_size', 'play_to']
