"""Compares the fault lines of some calls, and what the script `rumtsafi` says of them in words, with what is due.
"""
import os
import struct

from checks.common import SAMPLES, explained, main
from checks.generators.netlists import netlists, products


def header(*fields):
    """The header of an executable without anything else, and with other fields, each by offset, size and value."""
    found = bytearray(b"\x7fELF\1\1\1".ljust(52, b"\0"))
    for offset, size, value in ((16, "H", 2), (18, "H", 243), (20, "I", 1), *fields):
        struct.pack_into(f"<{size}", found, offset, value)
    return bytes(found)


def unit(body, head="module ci_0"):
    """A module's text with these lines behind its head."""
    ports = "(input [31:0] a, input [31:0] b, input [31:0] c, output [31:0] y, output [31:0] z);\n"
    return f"// cycles 1\n{head}{ports}{body}".encode()


FILES = {
    "empty": b"", "long": bytes(1028), "odd": b"\x13\0\0\0\x13", "custom": struct.pack("<2I", 0x13, 0x50B),
    "jump": bytes(8),
    "text": b"no executable\n" * 4, "wide": header((4, "B", 2)), "object": header((16, "H", 1)),
    "shared": header((16, "H", 3)), "host": header((18, "H", 62)), "compressed": header((36, "I", 5)),
    "bare": header(), "cut": header((28, "I", 52), (42, "H", 32), (44, "H", 1)), "short": b"\x7fELF",
    "no.toml": b"=", "key.toml": b"colour = 1", "read.toml": b"read = 0", "add.toml": b"software = { add = 0 }",
    "pad.toml": b"pad = 2", "good.s": b"ecall\n", "latin.s": b"\xe4", "1.s": b"ecall\n ?", "2.s": b"x5",
    "3.s": b"add x5 x6", "4.s": b"addi x5, x5, 2048", "5.s": b"jal x0, a", "6.s": b"a:\na:", "7.s": b"ecall x5",
    "units": unit("assign y = a;\nassign z = b;\nendmodule\n"), "big": bytes(4194305), "1.v": b"@", "2.v": b"x",
    "none.v": b"\n", "1r.v": unit("\r"),
    "3.v": unit("assign y = d;"), "2w.v": unit("wire [31:0] a;"),
    "4.v": unit("wire [0:0] w; assign w = 1'h1; wire [0:0] w;"),
    "5.v": unit("assign y = 65'h0;"), "6.v": unit("wire [64:0] w;"), "7.v": unit("wire [0:0] w; assign v = 1'h0;"),
    "8.v": unit("".join(f"wire [0:0] w{n}; assign w{n} = 1'h0;\n" for n in range(2048)) + "wire [0:0] w;"),
    "9.v": unit("", "module ci_1"), "packed": b"ci-log 2\nb\0", "cut.logs": b"ci-log 2",
    "ends": b"ci-log 2\nend none\n", "ended": b"ci-log 2\nend none\n\n",
    "many.v": b"".join(products(number, 200).encode() for number in range(2)), "few": netlists(0, 2).encode(),
    "cut.nets": b"netlist 0 gates 7\n", "late.nets": b"netlist 1",
}
# Calls, the fault lines that they end with, and these in words.
ENDS = (
    ("dis missing", "2 read missing", "missing isn't there, or can't be read"),
    ("asm good.s no/folder", "3 write no/folder", "no/folder can't be written"),
    ("best long", "4 too large long", "long has over 1,024 bytes (a table 65,536): give --at if it is an executable"),
    ("run short", "5 elf 1 0 0",
     "no ELF file, or a cut one: shorter than an ELF header, or than the part at offset 0"),
    ("run cut", "5 elf 1 52 0", "the file is cut off before the end of the part that begins at offset 52"),
    ("run text", "5 elf 2 0 0", "no ELF file: it doesn't begin with 7F 45 4C 46"),
    ("blocks wide", "5 elf 3 4 2", "a 64-bit file: field at offset 4 is 2; use -march=rv32im -mabi=ilp32"),
    ("blocks object", "5 elf 3 16 1", "an object that isn't linked: field at offset 16 is 1, not 2"),
    ("best shared --at 0x0", "5 elf 3 16 3",
     "position-independent or shared: field at offset 16 is 3; use -static -no-pie"),
    ("run host", "5 elf 3 18 62", "for another processor than RISC-V: field at offset 18 is 62, not 243"),
    ("run compressed", "5 elf 3 36 5", "compressed code: field at offset 36 is 5, which is odd; use -march=rv32im"),
    ("run crc32.elf --units missing --table no.toml", "2 read missing", "missing isn't there, or can't be read"),
    ("run crc32.elf --units big --table no.toml", "4 too large big",
     "big has more than 16,777,216 bytes (units 4,194,304, a table 65,536)"),
    ("run crc32.elf --table no.toml --units 3.v", "9 units 3 118",
     "byte 118: no input and no assigned wire has this name"),
    ("run crc32.elf --table no.toml --units none.v", "6 table 1", "the table is no TOML text"),
    ("run bare", "5 elf 8 0 0", "the entry is no word of the text: no _start, or no section header that shows where text is"),
    ("best jump --table no.toml", "6 table 1", "the table is no TOML text"),
    ("best jump --table key.toml", "6 table 2", "the table has a key that is unknown"),
    ("best jump --table read.toml", "6 table 3 read", "the table's read isn't a whole number from 1 to 1000"),
    ("best jump --table add.toml", "6 table 3 software.add",
     "software.add is no whole number in its range: software 1 to 1000, hardware 0 to 100000"),
    ("best jump --table pad.toml", "6 table 4 software.add", "the table's pad is greater than its software.add"),
    ("best odd", "7 unsupported 00000005 00000000",
     "00000005 (hex) bytes are no whole words, or a block ends there"),
    ("best custom", "7 unsupported 00000004 0000050b",
     "0000050b, at offset 00000004, has a custom opcode or ends a block"),
    ("best bare", "7 unsupported 00000000 464c457f",
     "an ELF file, and no bare words: give --at if it is an executable"),
    ("best crc32.elf --at=0x4", "7 unsupported 00000004 00000000",
     "no block begins at 00000004: blocks lists where they do"),
    ("pair long", "4 too large long", "long has over 1,024 bytes (a table 65,536): give --at if it is an executable"),
    ("pair shared --at 0x0", "5 elf 3 16 3",
     "position-independent or shared: field at offset 16 is 3; use -static -no-pie"),
    ("pair jump --table pad.toml", "6 table 4 software.add", "the table's pad is greater than its software.add"),
    ("pair odd", "7 unsupported 00000005 00000000",
     "00000005 (hex) bytes are no whole words, or a block ends there"),
    ("pair custom", "7 unsupported 00000004 0000050b",
     "0000050b, at offset 00000004, has a custom opcode or ends a block"),
    ("pair bare", "7 unsupported 00000000 464c457f",
     "an ELF file, and no bare words: give --at if it is an executable"),
    ("pair crc32.elf --at=0x4", "7 unsupported 00000004 00000000",
     "no block begins at 00000004: blocks lists where they do"),
    ("rename missing out", "2 read missing", "missing isn't there, or can't be read"),
    ("rename crc32.elf out --input missing", "2 read missing", "missing isn't there, or can't be read"),
    ("rename huge out", "4 too large huge", "huge has more than 16,777,216 bytes"),
    ("rename shared out", "5 elf 3 16 3",
     "position-independent or shared: field at offset 16 is 3; use -static -no-pie"),
    ("rename crc32.elf no/folder", "3 write no/folder", "no/folder can't be written"),
    ("relog huge out", "4 too large huge", "huge has more than 268,435,456 bytes"),
    ("relog most out", "10 log 1 0", "LOGS is no log book: due is the line ci-log 1 or ci-log 2"),
    ("check crc32.elf empty empty huge", "4 too large huge",
     "huge: over 16,777,216 bytes (LOGS 268,435,456, UNITS 4,194,304, table 65,536)"),
    ("check crc32.elf empty empty most", "10 log 1 0", "LOGS is no log book: due is the line ci-log 1 or ci-log 2"),
    ("relog text out", "10 log 1 0", "LOGS is no log book: due is the line ci-log 1 or ci-log 2"),
    ("relog packed out", "10 log 2 10", "byte 10 of LOGS: no log book goes on so"),
    ("relog cut.logs out", "10 log 3 0", "LOGS ends too early"),
    ("relog ended out", "10 log 4 18", "byte 18 of LOGS: something stands behind a whole log, or behind the end"),
    ("relog ends no/folder", "3 write no/folder", "no/folder can't be written"),
    ("eval big 0 0x0 0x0 0x0", "4 too large big", "big has more than 4,194,304 bytes"),
    ("eval units 1 0x0 0x0 0x0", "7 unsupported 00000001 00000000",
     "the file has no module 00000001 (hex): modules count from 0"),
    ("eval none.v 0 0x0 0x0 0x0", "7 unsupported 00000000 00000000", "the file has no modules"),
    ("eval 1.v 0 0x0 0x0 0x0", "9 units 1 0",
     "byte 0: no token begins here: due is the line // cycles N, which ends with a bare newline"),
    ("eval 1r.v 0 0x0 0x0 0x0", "9 units 1 107",
     "byte 107: no token begins here; a carriage return or another comment is none"),
    ("eval 2.v 0 0x0 0x0 0x0", "9 units 2 0", "byte 0: due is the line // cycles N, with which each module begins"),
    ("eval 3.v 0 0x0 0x0 0x0", "9 units 3 118", "byte 118: no input and no assigned wire has this name"),
    ("eval 2w.v 0 0x0 0x0 0x0", "9 units 2 119", "byte 119: another token is due here, or the text ends too early"),
    ("eval 4.v 0 0x0 0x0 0x0", "9 units 4 149", "byte 149: the module has this name already"),
    ("eval 5.v 0 0x0 0x0 0x0", "9 units 5 118",
     "byte 118: a part that ends here has the wrong width, or a constant doesn't fit its own"),
    ("eval 6.v 0 0x0 0x0 0x0", "9 units 6 113",
     "byte 113: a width, index, count or range out of bounds, or over 64 bits joined"),
    ("eval 7.v 0 0x0 0x0 0x0", "9 units 7 128", "byte 128: the wire just declared has another name"),
    ("eval 8.v 0 0x0 0x0 0x0", "9 units 8 77770", "byte 77770: a wire past the 2,048th of the module"),
    ("eval 9.v 0 0x0 0x0 0x0", "9 units 9 19",
     "byte 19: another module name is due (ci_0, ci_1 and so on), or a 33rd module"),
    ("gates big out", "4 too large big", "big has more than 4,194,304 bytes"),
    ("gates 6.v out", "9 units 6 113",
     "byte 113: a width, index, count or range out of bounds, or over 64 bits joined"),
    ("gates units no/folder", "3 write no/folder", "no/folder can't be written"),
    ("gates many.v out", "14 many 1 4992000",
     "the modules up to number 1 have 4992000 gates, and 4,194,304 are the most"),
    ("geval huge 0 0x0 0x0 0x0", "4 too large huge", "huge has more than 268,435,456 bytes"),
    ("geval most 0 0x0 0x0 0x0", "15 nets 0",
     "byte 0 of NETS: no netlist goes on so, or the text ends there too early"),
    ("geval few 2 0x0 0x0 0x0", "7 unsupported 00000002 00000000",
     "the file has no netlist 00000002 (hex): netlists count from 0"),
    ("geval empty 0 0x0 0x0 0x0", "7 unsupported 00000000 00000000", "the file has no netlists"),
    ("geval cut.nets 0 0x0 0x0 0x0", "15 nets 18",
     "byte 18 of NETS: no netlist goes on so, or the text ends there too early"),
    ("geval late.nets 31 0x0 0x0 0x0", "15 nets 8",
     "byte 8 of NETS: no netlist goes on so, or the text ends there too early"),
    ("asm 1.s out", "13 asm 1 2 2", "line 2, column 2: a byte that begins no token"),
    ("asm latin.s out", "13 asm 1 1 1", "line 1, column 1: a byte that begins no token, or the text isn't UTF-8"),
    ("asm 2.s out", "13 asm 2 1 1", "line 1, column 1: a mnemonic is due here"),
    ("asm 3.s out", "13 asm 3 1 8", "line 1, column 8: an operand, a comma or a bracket is due here"),
    ("asm 4.s out", "13 asm 4 1 14", "line 1, column 14: a number or offset out of its field, or an odd offset"),
    ("asm 5.s out", "13 asm 5 1 9", "line 1, column 9: a label that isn't defined"),
    ("asm 6.s out", "13 asm 6 2 1", "line 2, column 1: this label is defined already"),
    ("asm 7.s out", "13 asm 7 1 7", "line 1, column 7: behind a whole statement, or past 262,144 of them"),
)


def look(check):
    os.symlink(os.path.join(SAMPLES, "crc32.elf"), check.path("crc32.elf"))
    for name, content in FILES.items():
        check.write(name, content)
    # Of zeros that take no room: the longest log book, or text of netlists, that is read, and one of a byte more.
    os.truncate(check.write("most", b""), 268435456)
    os.truncate(check.write("huge", b""), 268435457)
    for call, line, due in ENDS:
        words = call.split()
        done = check.call(*words, text=True)
        said = explained("fault", str(done.returncode), *words, printed=done.stdout)
        check.same(call, (done.stdout, said), (f"fault {line}\n", f"rumtsafi: {due}\n"))
    return f"{len(ENDS)} calls compared"


main(__doc__, look)
