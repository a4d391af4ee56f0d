#!/usr/bin/env bash
# Makes the samples anew from their C sources.
#
# `sha256_round.bin` holds the words of the one basic block of its source, without the return at its end. `sha256.elf`
# and `crc32.elf` are executables, with their section headers and symbols.
# It needs Debian's package gcc-riscv64-unknown-elf. The files beside it were made by its version 12.2.0; another may
# emit other words.
set -eu
cd "$(dirname "$0")"
compile=(riscv64-unknown-elf-gcc -march=rv32im -mabi=ilp32 -O2)
object=$(mktemp)
trap 'rm -f "$object" "$object.bin"' EXIT
"${compile[@]}" -c sha256_round.c -o "$object"
riscv64-unknown-elf-objcopy -O binary --only-section=.text "$object" "$object.bin"
if [ "$(tail -c 4 "$object.bin" | od -An -tx1)" != " 67 80 00 00" ]; then
    echo "make.sh: the function does not end by a return" >&2
    exit 1
fi
head -c -4 "$object.bin" > sha256_round.bin

for name in sha256 crc32; do
    "${compile[@]}" -ffreestanding -nostdlib -nostartfiles -static "$name.c" -lgcc -o "$name.elf"
done
