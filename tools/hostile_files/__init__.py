"""The modules of tools/hostile-files."""
