"""Calls of other tools: GCC, QEMU, strace, and those that read Verilog."""
