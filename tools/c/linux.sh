#!/bin/sh
# linux.sh [--two] [--no-patches] [--cache FOLDER] [SCENARIO.nova]
#
# Fetches Linux as Debian 12 packages its source, builds it with linux/linux.config and a first program of ours, linux/init.c, and writes a
# scenario that boots it under the monitor of vmm. docs/LINUX.md says what one sees then.
set -eu
name=linux.sh
. "$(dirname "$0")/linux/fetch.sh"

list() { # which words there are
    cat <<'END'
usage: linux.sh [--two] [--no-patches] [--cache FOLDER] [SCENARIO.nova]
  --two            two Linuxes of 4 MiB on two processors, each with a monitor and a console
  --no-patches     no instruction of Linux is overwritten while it runs
  --cache FOLDER   where its source and what is built of it are kept: NOVA_LINUX_CACHE, or ~/.cache/nova-linux, where it isn't given
  SCENARIO.nova    what is written: linux.nova, or linux_two.nova with --two, where it isn't given
JOBS=N linux.sh .. builds with N processes; with one for each processor where JOBS isn't set.
END
}

two=no patches='' scenario='' cache=${NOVA_LINUX_CACHE:-${XDG_CACHE_HOME:-${HOME:-/tmp}/.cache}/nova-linux}
while [ $# -gt 0 ]; do
    case $1 in
    --two) two=yes ;;
    --no-patches) patches=--no-patches ;;
    --help | -h) list && exit 0 ;;
    --cache)
        folder "$@"
        cache=$2
        shift
        ;;
    *.nova) scenario=$1 ;;
    *) wrong "$1: there is no such option, and a scenario's name ends in .nova" ;;
    esac
    shift
done
if [ $two = yes ]; then scenario=${scenario:-linux_two.nova}; else scenario=${scenario:-linux.nova}; fi
[ -d "$(dirname "$scenario")" ] || fail "$scenario: there is no such folder; make it, or name another scenario"

package=linux-source-6.12
tool=riscv64-unknown-elf
source=$cache/$package image=$cache/Image

# What was built of files that are the same now isn't built again.
ours() {
    (cd "$c/linux" && cat linux.config init.c init.ld flat.py | cksum)
}

# Everything that is needed is asked for before anything is fetched.
wanted="$tool-gcc:gcc-$tool $tool-objcopy:binutils-$tool dtc:device-tree-compiler python3:python3"
built=no fetched=no
[ "$(ours)" != "$(cat "$image.sum" 2>/dev/null)" ] || built=yes
[ ! -d "$source" ] || fetched=yes
[ $built = yes ] || wanted="$wanted riscv64-linux-gnu-gcc:gcc-riscv64-linux-gnu riscv64-linux-gnu-ld:binutils-riscv64-linux-gnu make:make gcc:gcc \
    flex:flex bison:bison bc:bc"
[ $built$fetched != nono ] || wanted="$wanted apt-get:apt dpkg-deb:dpkg xz:xz-utils tar:tar"
needs $wanted
make_cache "$cache"
source=$cache/$package image=$cache/Image

fetch() {
    room 2000
    say "fetches $package of Debian 12, 153 MB, which become 1.7 GB in $cache; a minute or two"
    lists deb debian-security bookworm-security
    (cd "$cache" && rm -f ${package}_*.deb && archive download $package)
    rm -rf "$cache/unpacked"
    mkdir "$cache/unpacked"
    dpkg-deb --fsys-tarfile "$cache"/${package}_*.deb | tar -xO ./usr/src/$package.tar.xz | xz -dc | tar -x -C "$cache/unpacked"
    mv "$cache/unpacked/$package" "$source"
    rm -rf "$cache/unpacked" "$cache"/${package}_*.deb
}

# Our first program, as Linux takes it without an MMU, and the list of what its first file system has.
first_program() {
    $tool-gcc -march=rv32i -mabi=ilp32 -mcmodel=medany -msmall-data-limit=0 -mno-relax -Os -Wall -Wextra -ffreestanding -fno-jump-tables \
        -nostdlib -Wl,--no-warn-rwx-segments -Wl,-T,"$c/linux/init.ld" -o "$cache/init.elf" "$c/linux/init.c"
    $tool-objcopy -O binary --set-section-flags .all=alloc,load,contents "$cache/init.elf" "$cache/init.raw"
    python3 "$c/linux/flat.py" "$cache/init.raw" "$cache/init"
    printf '%s\n' 'dir /dev 755 0 0' 'nod /dev/console 600 0 0 c 5 1' "file /init $cache/init 755 0 0" >"$cache/initramfs"
}

kernel() { # words of make
    make -s -C "$source" O="$cache/linux" ARCH=riscv CROSS_COMPILE=riscv64-linux-gnu- KCONFIG_ALLCONFIG="$cache/linux.config" \
        KBUILD_BUILD_TIMESTAMP=2026-01-01 KBUILD_BUILD_USER=nova KBUILD_BUILD_HOST=nova "$@" >"$cache/make.log" 2>&1 ||
        fail "isn't built; $cache/make.log says: $(tail -n 1 "$cache/make.log")"
}

build() {
    say "builds it in $cache/linux; six minutes or so of a processor, longer where it is busy (JOBS=N has N processes)"
    first_program
    sed "s|@initramfs@|$cache/initramfs|" "$c/linux/linux.config" >"$cache/linux.config"
    kernel allnoconfig
    kernel -j"${JOBS:-$(nproc)}" Image
    cp "$cache/linux/arch/riscv/boot/Image" "$image"
    ours >"$image.sum"
}

if [ $built = no ]; then
    [ $fetched = yes ] || fetch
    build
fi
# All that Linux says, and 8 MiB; or a little, no threads, and 4 MiB, so that two come to their ends within 10,000,000 turns.
tree "$c/linux/virt.dts" "$cache/virt.dtb"
tree "$c/linux/virt.dts" "$cache/quiet.dtb" \
    's|bootargs = .*|bootargs = "quiet console=ttyS0 -- 0"; };|; s/0x80000000 0x800000>/0x80000000 0x400000>/'
zone=-DPATCH_ZONE=0x1f0000 # as virt.dts has it
if [ $two = yes ]; then
    "$c/vmm/guest.sh" --two --tree "$cache/quiet.dtb" $patches $zone "$image" "$scenario" 10
else
    "$c/vmm/guest.sh" --tree "$cache/virt.dtb" $patches $zone "$image" "$scenario" 11
fi
say "wrote $scenario: now  ./nova solo $scenario --limit 10000000 >${scenario%.nova}.report; tools/c/console <${scenario%.nova}.report"
