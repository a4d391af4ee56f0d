"""Calls of the program to which memory or a system call is refused. They are no part of the gate."""
