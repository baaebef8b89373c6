"""GPU dumps of DuckStation and PCSX-Redux (.psxgpu), read as captures and written from them. docs/DUMPS.md has the
format and what of it is known."""
