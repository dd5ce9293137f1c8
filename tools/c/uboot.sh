#!/bin/sh
# uboot.sh [--cache FOLDER] [--input FILE] [SCENARIO.nova]
#
# Fetches U-Boot as Debian 12 packages its source, builds it for QEMU's `virt` without compressed instructions, and writes a scenario that
# runs it under the monitor of vmm, without patches, since it runs a copy of itself.
set -eu
name=uboot.sh
. "$(dirname "$0")/linux/fetch.sh"

list() { # which words there are
    cat <<'END'
usage: uboot.sh [--cache FOLDER] [--input FILE] [SCENARIO.nova]
  --cache FOLDER   where its source and what is built of it are kept: NOVA_LINUX_CACHE, or ~/.cache/nova-linux, where it isn't given
  --input FILE     what is typed: uboot/input.txt where it isn't given
  SCENARIO.nova    what is written: uboot.nova where it isn't given
JOBS=N uboot.sh .. builds with N processes; with one for each processor where JOBS isn't set.
END
}

scenario=uboot.nova input=$c/uboot/input.txt cache=${NOVA_LINUX_CACHE:-${XDG_CACHE_HOME:-${HOME:-/tmp}/.cache}/nova-linux}
while [ $# -gt 0 ]; do
    case $1 in
    --help | -h) list && exit 0 ;;
    --cache)
        folder "$@"
        cache=$2
        shift
        ;;
    --input)
        [ $# -ge 2 ] || wrong "$1: a file has to follow it"
        input=$2
        shift
        ;;
    *.nova) scenario=$1 ;;
    *) wrong "$1: there is no such option, and a scenario's name ends in .nova" ;;
    esac
    shift
done
[ -r "$input" ] && [ ! -d "$input" ] || fail "$input: can't be read; name a file of what is typed"
[ -d "$(dirname "$scenario")" ] || fail "$scenario: there is no such folder; make it, or name another scenario"

tool=riscv64-unknown-elf
cache=$cache/uboot
source_of() { # the folder that the package was unpacked in, if it was
    ls -d "$cache"/u-boot-*/ 2>/dev/null | head -n 1
}

# Everything that is needed is asked for before anything is fetched.
wanted="$tool-gcc:gcc-$tool $tool-objcopy:binutils-$tool dtc:device-tree-compiler python3:python3"
[ -e "$cache/u-boot.bin" ] ||
    wanted="$wanted riscv64-linux-gnu-gcc:gcc-riscv64-linux-gnu riscv64-linux-gnu-ld:binutils-riscv64-linux-gnu make:make gcc:gcc flex:flex bison:bison bc:bc"
[ -e "$cache/u-boot.bin" ] || [ -n "$(source_of)" ] || wanted="$wanted apt-get:apt dpkg-source:dpkg-dev"
needs $wanted
make_cache "$cache"
binary=$cache/u-boot.bin

fetch() {
    room 400
    say "fetches the source of u-boot of Debian 12, 20 MB, which become 250 MB in $cache; half a minute"
    lists deb-src debian bookworm
    (cd "$cache" && archive source u-boot)
}

# Debian's compiler for Linux has no libgcc for RV32: that of riscv64-unknown-elf is linked.
uboot() { # the source, and words of make
    source=$1
    shift
    make -s -C "$source" O="$cache/built" CROSS_COMPILE=riscv64-linux-gnu- SOURCE_DATE_EPOCH=1767225600 \
        PLATFORM_LIBGCC="$($tool-gcc -march=rv32imfd -mabi=ilp32d -print-libgcc-file-name)" "$@" >"$cache/make.log" 2>&1 ||
        fail "isn't built; $cache/make.log says: $(tail -n 1 "$cache/make.log")"
}

build() { # its source
    say "builds it in $cache; two minutes or so of a processor, longer where it is busy (JOBS=N has N processes)"
    sed 's/MALLOC_LEN=0x800000/MALLOC_LEN=0x100000/' "$1/configs/qemu-riscv32_defconfig" >"$1/configs/nova_defconfig"
    printf '# CONFIG_%s is not set\n' RISCV_ISA_C EFI_LOADER >>"$1/configs/nova_defconfig"
    uboot "$1" nova_defconfig
    uboot "$1" -j"${JOBS:-$(nproc)}" u-boot.bin
    cp "$cache/built/u-boot.bin" "$binary"
}

if [ ! -e "$binary" ]; then
    [ -n "$(source_of)" ] || fetch
    build "$(source_of)"
fi
tree "$c/uboot/uboot.dts" "$cache/uboot.dtb"
"$c/vmm/guest.sh" --tree "$cache/uboot.dtb" --input "$input" --no-patches "$binary" "$scenario" 11
say "wrote $scenario: now  ./nova solo $scenario --limit 10000000 >${scenario%.nova}.report; tools/c/console <${scenario%.nova}.report"
