"""Comparisons of the program with second readings, other tools and worked rows, which the gate runs."""
