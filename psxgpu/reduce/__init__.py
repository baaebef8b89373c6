"""The smallest capture on which two players differ."""
