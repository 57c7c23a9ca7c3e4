"""The modules of tools/wrong-bodies (README.md)."""
