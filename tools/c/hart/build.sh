#!/bin/sh
# build.sh FILE.elf [FLAG..]: builds hart, an executable for 0x80000000; -DBRIEF is a flag.
set -eu
here=$(cd "$(dirname "$0")" && pwd)
executable=$1
shift
riscv64-unknown-elf-gcc -march=rv32ima_zicsr -mabi=ilp32 -mcmodel=medany -mstrict-align -O2 -Wall -Wextra -ffreestanding -nostdlib \
    -Wl,--no-warn-rwx-segments -Wl,--build-id=none -Wl,-T,"$here/../vmm/guest.ld" "$@" -o "$executable" "$here/start.S" "$here/hart.c"
