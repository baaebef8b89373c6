"""The one place that writes files. No other module of this package opens a file to write: a test checks it.

- `files`: a file, or several. Each is written beside its name and renamed when it is whole.
- `folders`: a folder that is new, empty, or was written by the same tool before.
- `roles`: what an argument names, a file that is read or one that is written.
- `checking`: no input is an output, and two outputs are never one. `command` checks the roles of all arguments before a
  tool starts.
"""
from psxgpu.output.checking import check
from psxgpu.output.files import (Content, appending, refuse_inputs, remove, silence, stream_of, write_several,
                                 write_whole, writing, written_by_name)
from psxgpu.output.folders import Folder, folder
from psxgpu.output.roles import (Command, Grown, Packed, Picture, Role, Source, Stem, Target, Text, Tree, once,
                                 roles_in, stem, takes_standard_output, tree)

__all__ = ['Command', 'Content', 'Folder', 'Grown', 'Packed', 'Picture', 'Role', 'Source', 'Stem', 'Target', 'Text',
           'Tree', 'appending', 'check', 'folder', 'once', 'refuse_inputs', 'remove', 'roles_in', 'silence', 'stem',
           'stream_of', 'takes_standard_output', 'tree', 'write_several', 'write_whole', 'writing', 'written_by_name']
