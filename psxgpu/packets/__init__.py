"""Packets: words of port GP0 split into packets, and the fields of each."""
from psxgpu.packets.control import class_name, control
from psxgpu.packets.fields import fields
from psxgpu.packets.grammar import name_and_length
from psxgpu.packets.split import Splitter

__all__ = ['Splitter', 'class_name', 'control', 'fields', 'name_and_length']
