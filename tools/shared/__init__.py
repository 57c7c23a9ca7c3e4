"""The modules that several tools use."""
