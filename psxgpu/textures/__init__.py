"""The textures that a capture draws with."""
