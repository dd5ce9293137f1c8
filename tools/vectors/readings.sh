#!/bin/sh
# Makes data/words and data/readings: words, and how GNU objdump reads each of them.
#
# The object file says in its attributes that it holds rv32i2p1 and nothing else, and objdump then
# refuses the instructions of other extensions (M, A, F, C, Zicsr, Zifencei, ...) by itself.
# Each word stands in 32 bytes of its own, after it zeros: a word that objdump takes for a shorter
# or a longer instruction leaves the next word's start where it is.
set -eu
export LC_ALL=C PYTHONDONTWRITEBYTECODE=1
here=$(cd "$(dirname "$0")" && pwd)
tool=riscv64-unknown-elf
scratch=$(mktemp -d)
trap 'rm -rf "$scratch"' EXIT

python3 "$here/words.py" > "$scratch/words"
sed 's/.*/.4byte 0x&, 0, 0, 0, 0, 0, 0, 0/' "$scratch/words" > "$scratch/words.s"
$tool-as -march=rv32i2p1 -mabi=ilp32 -march-attr -o "$scratch/words.o" "$scratch/words.s"
$tool-readelf -A "$scratch/words.o" | grep -q 'Tag_RISCV_arch: "rv32i2p1"$'

# The origin leaves room for the target of every jump below the first word.
$tool-objdump -D -z -j .text -M no-aliases,numeric --adjust-vma=0x00400000 "$scratch/words.o" > "$scratch/listing"
python3 "$here/readings.py" "$scratch/words" "$scratch/listing" > "$scratch/readings"

mkdir -p "$here/data"
cp "$scratch/words" "$scratch/readings" "$here/data/"
wc -lc "$here/data/words" "$here/data/readings"
