#!/bin/sh
# Makes data/texts and data/assembled: assembler texts, and the words that GNU's assembler makes of each.
#
# It is told that there is nothing but RV32I, and not to leave branches to the linker.
set -eu
export LC_ALL=C PYTHONDONTWRITEBYTECODE=1
here=$(cd "$(dirname "$0")" && pwd)
scratch=$(mktemp -d)
trap 'rm -rf "$scratch"' EXIT

python3 "$here/texts.py" > "$scratch/texts"
python3 "$here/assembled.py" "$scratch/texts" > "$scratch/assembled"

mkdir -p "$here/data"
cp "$scratch/texts" "$scratch/assembled" "$here/data/"
wc -lc "$here/data/texts" "$here/data/assembled"
