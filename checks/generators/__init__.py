"""Blocks, programs, executables and units that are made up, always in the same way, and rows worked by hand."""
