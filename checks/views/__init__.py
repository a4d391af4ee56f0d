"""Comparisons of what views/ shows with the program and its files, which the gate runs."""
