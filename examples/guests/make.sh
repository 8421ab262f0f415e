#!/bin/sh
# Makes the program files of the guests in this folder, with gcc 12.2 and GNU ld 2.40 (Debian gcc-riscv64-unknown-elf) and
# with clang 14 and lld 14. They lie where crates/machine_rows runs them.
set -e
cd "$(dirname "$0")"
data=../../crates/machine_rows/data
flags="-march=rv32im -mabi=ilp32 -O2 -static -nostdlib -ffreestanding -fno-builtin -s"
gcc="riscv64-unknown-elf-gcc $flags -nostartfiles -Wl,--no-relax"
clang="clang --target=riscv32-unknown-elf $flags -fuse-ld=lld"
$gcc pin.c -lgcc -o $data/pin-gcc.elf
$clang pin.c -o $data/pin-clang.elf
$gcc sum.c -o $data/gcc-default.elf
$gcc -T separate.ld sum.c -o $data/gcc-separate.elf
$clang sum.c -o $data/clang-default.elf
$clang -Wl,-z,separate-code sum.c -o $data/clang-separate.elf
chmod -x $data/*.elf
