#!/bin/sh
# Makes data/programs and data/registers: random programs, and the registers that QEMU ends them with.
#
#   code       0x00010000, the program's first word
#   data page  0x00012000 to 0x00012fff, all zeros at the start
#
# A program starts at its first word with x1 to x31 zero and ends at its last word, an ebreak. It reads and
# writes the data page alone. QEMU runs these very words: what sets the registers to zero and writes them
# out (harness.s) lies from 0x00020000 on, after the 64 KiB that begin with the code.
#
# The unprivileged extensions that QEMU's rv32 processor has by default are switched off.
set -eu
export LC_ALL=C PYTHONDONTWRITEBYTECODE=1
here=$(cd "$(dirname "$0")" && pwd)
tool=riscv64-unknown-elf
processor=rv32,g=false,m=false,a=false,f=false,d=false,c=false
processor=$processor,Zifencei=false,Zicsr=false,Zihintpause=false,zba=false,zbb=false,zbc=false,zbs=false
scratch=$(mktemp -d)
trap 'rm -rf "$scratch"' EXIT

assemble() {
    $tool-as -march=rv32i -mabi=ilp32 -mno-relax -o "$2" "$1"
}

python3 "$here/programs.py" "$scratch"
assemble "$here/harness.s" "$scratch/harness.o"
for source in "$scratch"/*.s; do
    name=${source%.s}
    assemble "$source" "$name.o"
    $tool-objcopy -O binary -j .program "$name.o" "$name.words"
    $tool-ld -m elf32lriscv -z max-page-size=4096 \
        --section-start=.program=0x00010000 --section-start=.data_page=0x00012000 \
        --section-start=.harness=0x00020000 --section-start=.stack=0x00021000 \
        -o "$name" "$scratch/harness.o" "$name.o"
    qemu-riscv32 -cpu "$processor" "$name" > "$name.registers"
done

mkdir -p "$here/data"
python3 "$here/collect.py" "$scratch" "$here/data/programs" "$here/data/registers"
wc -lc "$here/data/programs" "$here/data/registers"
