"""The conformance suite: tests of single rules of the graphics processor, and how a player is asked them."""
