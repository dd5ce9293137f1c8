#!/bin/sh
# keep.sh [SCENARIO.nova]: writes the brief hart as a guest under vmm: examples/hart.nova, where no other name is given.
set -eu
here=$(cd "$(dirname "$0")" && pwd)
scratch=$(mktemp -d)
trap 'rm -rf "$scratch"' EXIT
"$here/build.sh" "$scratch/hart.elf" -DBRIEF
"$here/../vmm/guest.sh" "$scratch/hart.elf" "${1:-$here/../../../examples/hart.nova}" 6
