"""Two programs, each with the files that `find` has to write of it, for the checks."""
from checks.oracles.books import packed_text
from readers.templates import unit_text

A, B, C = (("input", number) for number in range(3))
# Two sums around a load from an address where no memory is, and an exit.
SUMS = 0x00B502B3, 0x00002303, 0x00C28533, 0x05D00893, 0x00000073
FOLDED = 0x60B5050B, 0x00000013, 0x00002303, 0x05D00893, 0x00000073
UNIT = unit_text(0, ([("add", A, B), ("add", ("earlier", 0), C)], [1], 1))
LOGS = """ci-log 1
block 00010074 best 0 2
BBOBOFBBFFG
take 00010074 unit 0
block 00010074 none
G
end none
"""
PACKED_LOGS = packed_text(LOGS)
# Calls through a jump table in data, returns, a write and an exit; constants, values, and what `find` has to write.
CALLS = """start: lui x8, 0x20
       addi x9, x0, 4
       addi x18, x0, 0
loop:  lw x5, 0(x8)
       addi x10, x18, 0
       jalr x1, 0(x5)
       addi x18, x10, 0
       addi x8, x8, 4
       addi x9, x9, -1
       bne x9, x0, loop
       lui x11, 0x20
       sw x18, 16(x11)
       addi x11, x11, 16
       addi x10, x0, 1
       addi x12, x0, 4
       addi x17, x0, 64
       ecall
       addi x10, x0, 0
       addi x17, x0, 93
       ecall
f0:    slli x6, x10, 3
       xor x6, x6, x10
       addi x10, x6, 5
       jalr x0, 0(x1)
f1:    lui x7, 0x10
       lw x7, 236(x7)
       add x10, x10, x7
       srli x6, x10, 1
       xor x10, x10, x6
       jalr x0, 0(x1)
"""
CONSTANTS, VALUES = (1000,), (0x100C4, 0x100D4, 0x100C4, 0x100D4, 0)
PATCHES = {20: 0x0005050B, 21: 0x13, 22: 0x13, 26: 0x0075150B, 27: 0x13, 28: 0x13}
CALLS_UNITS = (unit_text(0, ([("sll", A, ("constant", 3)), ("xor", ("earlier", 0), A),
                              ("add", ("earlier", 1), ("constant", 5))], [2], 1))
               + unit_text(1, ([("add", A, B), ("srl", ("earlier", 0), ("constant", 1)),
                                ("xor", ("earlier", 0), ("earlier", 1))], [2], 1)))
CALLS_LOGS = """ci-log 1
block 00010074 none
block 00010080 none
block 0001008c none
block 0001009c none
block 000100b8 none
block 000100c4 best 0 1 2
block 000100d4 best 2 3 4
take 000100c4 unit 0
block 000100c4 none
take 000100d4 unit 1
block 000100d4 none
end none
"""
CALLS_REPORT = """ci-report 1
ports 3 2 count 32 budget 65536 pad 0 read 1
profile exit 00000000 steps 61 cost 75
block 00010074 length 3 entries 1
block 00010080 length 3 entries 4
block 0001008c length 4 entries 4
block 0001009c length 7 entries 1
block 000100b8 length 3 entries 1
block 000100c4 length 4 entries 2
block 000100d4 length 6 entries 2
cut 0 block 000100c4 unit 0 gain 2 entries 2 nodes 0 1 2 word 0005050b
cut 1 block 000100d4 unit 1 gain 2 entries 2 nodes 2 3 4 word 0075150b
unit 0 cycles 1 operations 3 uses 1
unit 1 cycles 1 operations 3 uses 1
total 8
"""
WRITTEN = b"\xe8\x1d\x00\x00"
# What `blocks` prints of it.
CALLS_BLOCKS = """block 00010074 length 3 live 11 12
block 00010080 length 3 live 8 9 11 12 18
block 0001008c length 4 live 1 8 9 10 11 12
block 0001009c length 7 live 1 8 9 18
block 000100b8 length 3 live 1 8 9 11 12 18
block 000100c4 length 4 live 1 8 9 10 11 12 18
block 000100d4 length 6 live 1 8 9 10 11 12 18
"""
