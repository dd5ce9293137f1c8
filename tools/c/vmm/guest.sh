#!/bin/sh
# guest.sh [OPTION..] KERNEL SCENARIO.nova [ORDER]
#
# Writes a scenario in which a kernel runs as a guest under the monitor of this folder. ../README.md explains it.
set -eu
export LC_ALL=C
list() { # which words there are
    cat <<'END'
usage: guest.sh [OPTION..] KERNEL SCENARIO.nova [ORDER]
  KERNEL           an executable that is linked for 0x80000000 and begins there, or the bytes that lie there
  ORDER            the guest has 2^ORDER pages of memory: 5 to 13, or 6 to 12 with --two; 11 where it isn't given, which are 8 MiB
  --tree FILE.dtb  its device tree, of at most a page, as dtc writes it; its memory has the size that ORDER says
  --input FILE     what it reads from its 16550
  --two            two processors, with a monitor, a guest and a console each
  --no-patches     each instruction of A, M and Zicsr is an exit
  --machine FILE.c in place of main.c: a file with main, which says which devices there are; given several times, these files
  -DPATCH_ZONE=N   32 KiB of the guest's memory, N bytes from its beginning, are for patches: what its tree reserves; 0x1f0000 in linux/virt.dts
  -I, -D, -U, -O, -W, -f, -g and -m go to the compiler of the monitor
END
}

refuse() { # what, and what to do
    echo "guest.sh: $*" >&2
    exit 1
}

wrong() { # the word at fault, and why
    echo "guest.sh: $*; guest.sh --help lists the words" >&2
    exit 2
}

here=$(cd "$(dirname "$0")" && pwd)
machine='' tree='' patches=yes two=no flags='' kernel='' scenario='' order='' input=''

quoted() { # a word, with apostrophes round it
    printf "'%s' " "$(printf %s "$1" | sed "s/'/'\\\\''/g")"
}

file() { # puts a word that is no option where it belongs
    case $1 in
    *.nova)
        [ -z "$scenario" ] || wrong "$1: $scenario is the scenario already"
        scenario=$1
        ;;
    *[!0-9]* | '')
        [ -z "$kernel" ] || wrong "$1: $kernel is the kernel already, and ORDER is a number"
        kernel=$1
        ;;
    *)
        [ -z "$order" ] || wrong "$1: $order is the order of the memory already"
        order=$1
        ;;
    esac
}

while [ $# -gt 0 ]; do
    case $1 in
    --help | -h) list && exit 0 ;;
    --tree | --input | --machine)
        [ $# -ge 2 ] || wrong "$1: a file has to follow it"
        case $1 in
        --tree) tree=$2 ;;
        --input) input=$2 ;;
        --machine) machine="$machine$(quoted "$2")" ;;
        esac
        shift
        ;;
    --two) two=yes ;;
    --no-patches) patches=no ;;
    -[IDUOWfgm]?*) flags="$flags$(quoted "$1")" ;;
    -*) wrong "$1: there is no such option" ;;
    *) file "$1" ;;
    esac
    shift
done
[ -n "$kernel" ] || wrong 'no kernel is named'
[ -n "$scenario" ] || wrong 'no scenario is named, whose name ends in .nova'
order=${order:-11}
least=5 most=13
[ $two = no ] || { least=6 most=12; }
case $order in [5-9] | 1[0-3]) ;; *) wrong "ORDER: $order is not from $least to $most" ;; esac
[ "$order" -ge $least ] && [ "$order" -le $most ] || wrong "ORDER: with --two, $order is not from $least to $most"

# Everything that can be refused is refused before anything is compiled or written.
readable() { # a file, and what it is
    [ -e "$1" ] || refuse "$1: there is no such file; name $2"
    [ ! -d "$1" ] || refuse "$1: is a directory; name $2"
    [ -r "$1" ] || refuse "$1: can't be read; give yourself the right to"
}

begins() { # a file, and its first four bytes as od has them
    [ "$(head -c 4 "$1" | od -A n -t x1)" = "$2" ]
}

size() { # of a file, in bytes
    wc -c <"$1"
}

pages=$((1 << order)) for_tree=''
if [ -n "$tree" ]; then
    readable "$tree" 'a device tree as dtc writes it'
    begins "$tree" ' d0 0d fe ed' || refuse "$tree: is no device tree as dtc writes it; dtc -q -O dtb -o FILE.dtb FILE.dts writes one"
    [ "$(size "$tree")" -le 4096 ] || refuse "$tree: has $(size "$tree") bytes, and a tree 4,096 at most; make it smaller"
    pages=$((pages - 1)) for_tree=', of which a page is for the tree'
fi
[ -z "$input" ] || readable "$input" 'what the guest is to read'
readable "$kernel" 'an executable for 0x80000000, or its bytes'
[ -s "$kernel" ] || refuse "$kernel: is empty; name an executable for 0x80000000, or its bytes"
bytes=$(size "$kernel")
if begins "$kernel" ' 7f 45 4c 46'; then
    bytes=$("$here/../elf" --at 0x80000000 "$kernel" 2>&1) || refuse "${bytes#elf: }"
fi
[ "$bytes" -le $((4096 * pages)) ] ||
    refuse "$kernel: takes $bytes bytes, and with ORDER $order there are $((4096 << order))$for_tree; give a greater ORDER"

scratch=$(mktemp -d)
trap 'rm -rf "$scratch"' EXIT
image=$scratch/kernel/${kernel##*/}
mkdir "$scratch/kernel"

# The words for build.sh. Bytes are whole words of memory, with zeros behind them.
padded() { # a file, and where it goes
    cp "$1" "$2"
    truncate -s %4 "$2"
}

if begins "$kernel" ' 7f 45 4c 46'; then
    cp "$kernel" "$image"
else
    padded "$kernel" "$image"
fi
eval "set -- ${machine:-$(quoted "$here/main.c")}"
for file in clint.c uart.c finisher.c exits.c traps.c clock.c zicsr.c atomic.c muldiv.c; do
    set -- "$@" "$here/$file"
done
[ $patches = no ] || set -- "$@" "$here/patches.c"
if [ -n "$input" ]; then
    {
        echo 'const unsigned char vmm_input[] = {'
        od -A n -v -t x1 "$input" | sed 's/ /, 0x/g; s/^, //; s/$/,/'
        echo '0};'
    } >"$scratch/input.c"
    set -- "$@" "$scratch/input.c"
fi
words=''
for file; do
    words="$words--monitor $(quoted "$file")"
done
eval "set -- $words $flags"
[ $two = no ] || set -- "$@" --monitors 2
[ -z "$tree" ] || { padded "$tree" "$scratch/tree" && set -- "$@" --image "$scratch/tree@$(((1 << order) - 1))"; }
"$here/../build.sh" --elf -flto --writable-code --monitor-order 5 "-I$here" "-I$here/../examples" --image "$image@0" "$@" "$scenario" "$order"
