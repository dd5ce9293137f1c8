#!/bin/sh
# bzip2.sh [FOLDER]: the library of bzip2 as Debian has it compresses the first lines of bzip2's licence. Its console is compared with
# what the host's bzip2 writes.
. "$(dirname "$0")/others.sh"

command -v bzip2 >/dev/null || skip "bzip2 isn't installed"
fetch bzip2

head -n 12 "$source/LICENSE" >"$work/text"
xxd -i <"$work/text" >"$work/text.inc"
bzip2 -1 <"$work/text" >"$work/wanted"
sources="blocksort.c huffman.c crctable.c randtable.c compress.c decompress.c bzlib.c"
try bzip2 "$work/wanted" "$here/bzip2.c" $sources -I"$work" -I. 9
try bzip2_guest "$work/wanted" --consoles 2 --monitor "$here/pager.c" "$here/bzip2.c" $sources -I"$work" -I. 9
