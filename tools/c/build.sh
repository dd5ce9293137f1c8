#!/bin/sh
# build.sh [OPTION..] SOURCE.. [SCENARIO.nova] [RAM_ORDER]
#
# Compiles a program in C for RV32I, or assembles one, and writes a scenario that runs it. README.md beside this script explains it.
set -eu
export LC_ALL=C
usage() { # says what is wrong
    echo "build.sh: $fault; build.sh --help lists the words" >&2
    exit 2
}

list() { # which words there are
    cat <<'END'
usage: build.sh [OPTION..] SOURCE.. [SCENARIO.nova] [RAM_ORDER]
  SOURCE             a file .c, .s, .S, .o or .a
  SCENARIO.nova      what is written; beside the first source, with its name, where it isn't given
  RAM_ORDER          2^RAM_ORDER pages of memory are the program's; 4, or 6 with --libc, where it isn't given
  --libc             with picolibc
  --guest            as a guest, under the monitor of tools/c/monitor.c
  --monitor FILE.c   as a guest, under this monitor; given several times, the files are one monitor
  --image FILE@PAGE  the guest, or more of it: what is linked already, from this page of its memory on; SOURCE is left out
  --monitors N       a monitor, a guest and a console on each of N processors
  --monitor-order N  a monitor has 2^N pages, and the guest 2^RAM_ORDER
  --elf              as an executable, not as words with their meaning
  --debug            compiled for a debugger; the executable with its symbols is kept beside the scenario
  --cpus N           with N processors, 1 to 8
  --consoles N       with N consoles, 0 to 16
  --source LINE      with a source of interrupts: its processor, first moment, period and count, as one word
  --priority N       main has this priority, 0 to 254; 1 where it isn't given
  --stack BYTES      the stack of main has so many bytes, in whole pages
  --writable-code    code can be written, and data executed
  -I, -D, -U, -O, -W, -f, -g, -std and -m go to the compiler
END
}

refuse() { # what, and what to do
    echo "build.sh: $*" >&2
    exit 1
}

wrong() { # the word at fault, and why
    fault=$*
    usage
}

priority=1 stack='' rights='' fault='no source is named'
here=$(cd "$(dirname "$0")" && pwd)
tool=riscv64-unknown-elf
compiler=${COMPILER:-gcc}
libc=no guest=no elf=no debug=no cpus=1 consoles=1 sources='' scenario='' order='' interrupts='' monitor='' level=-O2 flags=''
images='' monitors=1 monitor_order=''

# A name of a file as the shell has it, with an apostrophe round it.
quoted() {
    printf "'%s' " "$(printf %s "$1" | sed "s/'/'\\\\''/g")"
}

number() { # a word that is to be one
    case $1 in '' | *[!0-9]* | ?????????*) wrong "'$1' is no number" ;; esac
    echo "$1"
}

between() { # what a number is for, the number, and the least and the greatest that it may be
    number "$2" >/dev/null
    [ "$2" -ge "$3" ] && [ "$2" -le "$4" ] || wrong "$1: '$2' is not from $3 to $4"
}

option() { # sets what an option says, and answers how many words it has
    words=1
    case $1 in
    --help | -h) list && exit 0 ;;
    --libc) libc=yes elf=yes ;;
    --guest) guest=yes ;;
    --elf) elf=yes ;;
    --debug) debug=yes level='-Og -g -DNOVA_DEBUG' ;;
    --monitor | --cpus | --consoles | --source | --image | --monitors | --monitor-order)
        [ $# -ge 2 ] || usage
        words=2
        case $1 in
        --monitor) guest=yes monitor="$monitor$(quoted "$2")" ;;
        --image) guest=yes images="$images$(quoted "$2")" ;;
        --monitors) monitors=$(number "$2") ;;
        --monitor-order) monitor_order=$(number "$2") ;;
        --cpus) cpus=$(number "$2") ;;
        --consoles) consoles=$(number "$2") ;;
        --source) interrupts="${interrupts}source $2
" ;;
        esac
        ;;
    --priority | --stack)
        [ $# -ge 2 ] || usage
        words=2
        [ "$1" = --stack ] || priority=$(number "$2")
        [ "$1" = --priority ] || stack=$(number "$2")
        ;;
    --writable-code) rights=-Wl,--defsym=all_rights=1 ;;
    -[IDUOWfgm]?* | -g | -O | -std=*) flags="$flags $(quoted "$1")" ;;
    *) wrong "$1: there is no such option" ;;
    esac
}

file() { # puts a word that is no option where it belongs
    case $1 in
    *.nova)
        [ -z "$scenario" ] || wrong "$1: $scenario is the scenario already"
        scenario=$1
        ;;
    *[!0-9]* | '')
        sources="$sources$(quoted "$1")"
        first=${first-$1}
        ;;
    *)
        [ -z "$order" ] || wrong "$1: $order is the order of the memory already"
        order=$1
        ;;
    esac
}

while [ $# -gt 0 ]; do
    fault="$1: a word has to follow it"
    case $1 in
    -*)
        option "$@"
        shift $words
        ;;
    *)
        file "$1"
        shift
        ;;
    esac
    fault='no source is named'
done
flags="$level $flags"
[ -n "$sources$images" ] || usage
[ -n "$sources" ] || { eval "set -- $images" && first=${1%@*}; }
[ -z "$images" ] || [ -n "$monitor" ] || refuse "$first: a guest that is linked already has a monitor of its own; name that by --monitor"
scenario=${scenario:-${first%.*}.nova}
monitor=${monitor:-$(quoted "$here/monitor.c")}

# Everything that can be refused is refused before anything is compiled or written.
check_source() {
    [ -e "$1" ] || refuse "$1: there is no such file; name a source in C (.c) or assembler (.s, .S), an object (.o) or a library (.a)"
    [ -d "$1" ] && refuse "$1: is a directory; name the files in it"
    [ -r "$1" ] || refuse "$1: can't be read; give yourself the right to"
    case $1 in
    *.c | *.s | *.S) ;;
    *.o | *.a) "$here/elf" --check "$1" ;;
    *) refuse "$1: is neither C (.c) nor assembler (.s, .S), an object (.o) or a library (.a); name such a file" ;;
    esac
}

check_interrupts() { # a line of the scenario for each source
    printf %s "$interrupts" | while read -r _ line; do
        set -f && set -- $line
        [ $# -eq 4 ] || wrong "--source '$line': four numbers are wanted: processor, first moment, period and count"
        between "--source '$line', its processor" "$1" 0 $((cpus - 1))
        between "--source '$line', its first moment" "$2" 0 10000000
        between "--source '$line', its period" "$3" 1 10000000
        between "--source '$line', its count" "$4" 1 10000000
    done
    [ "$(printf %s "$interrupts" | wc -l)" -le 32 ] || wrong "--source: there are 32 sources at most"
}

check() {
    between --cpus "$cpus" 1 8
    between --consoles "$consoles" 0 16
    between --priority "$priority" 0 254
    check_interrupts
    eval "set -- $sources"
    for source; do
        check_source "$source"
    done
    eval "set -- $monitor"
    for source; do
        [ $guest = no ] || check_source "$source"
    done
    check_images
    [ -d "$(dirname "$scenario")" ] || refuse "$scenario: there is no such folder; make it, or name another scenario"
    [ -d "$scenario" ] && refuse "$scenario: is a directory; name a file for the scenario"
    [ "${order:-2}" -le $((14 - $(yes_is_one $guest))) ] ||
        refuse "$order: memory has at most 2^14 pages, and a guest half of them; give a lesser order"
    command -v $tool-gcc >/dev/null || [ "$compiler" = clang ] ||
        refuse "$tool-gcc isn't installed; apt-get install gcc-riscv64-unknown-elf binutils-riscv64-unknown-elf"
    command -v $tool-objcopy >/dev/null || refuse "$tool-objcopy isn't installed; apt-get install binutils-riscv64-unknown-elf"
    command -v python3 >/dev/null || refuse "python3 isn't installed; apt-get install python3"
    [ $libc = no ] || [ -d $picolibc/include ] || refuse "picolibc isn't installed; apt-get install picolibc-riscv64-unknown-elf"
}

check_images() { # and what is for monitors alone
    [ -z "$images" ] || [ -z "$sources" ] || refuse "$first: the guest is linked already, by --image; leave out the one or the other"
    eval "set -- $images"
    for image; do
        case @${image##*@} in @ | *[!@0-9]* | "@$image")
            refuse "$image: is no FILE@PAGE; say from which page of the guest's memory on it lies" ;;
        esac
        [ -f "${image%@*}" ] || refuse "${image%@*}: there is no such file; name what the linker wrote"
        ! is_elf "${image%@*}" || "$here/elf" --lowest 0 "${image%@*}" >/dev/null
    done
    [ $guest = yes ] || [ "$monitors$monitor_order" = 1 ] || refuse "$first: only monitors are several, or smaller; give --monitor or --guest"
    [ "$monitors" = 1 ] || [ "$cpus$consoles$interrupts" = 11 ] ||
        refuse "$monitors: each monitor has a processor and a console, and no source; leave out --cpus, --consoles and --source"
}

is_elf() {
    [ "$(head -c 4 "$1" | od -A n -t x1)" = " 7f 45 4c 46" ]
}

yes_is_one() {
    [ "$1" = yes ] && echo 1 || echo 0
}

picolibc=/usr/lib/picolibc/$tool
check
scratch=$(mktemp -d)
trap 'rm -rf "$scratch"' EXIT

# Where the memory of each ends, of a guest at address 0 of its own, of its monitor half of RAM.
[ -n "$order" ] || { [ $libc = yes ] && order=6 || order=4; }
ram_order=$((order + $(yes_is_one $guest)))
program_bytes=$((4096 << order))
ram_bytes=$((4096 << ram_order))

# Monitors lie one after another, in the first 2^RAM_ORDER pages, and then the guests.
monitor_order=${monitor_order:-$order}
monitor_bytes=$((4096 << monitor_order))
[ "$monitors" -ge 1 ] && [ "$monitors" -le 8 ] || refuse "$monitors: there are at most 8 processors; give as many monitors"
[ $((monitors * monitor_bytes)) -le $program_bytes ] ||
    refuse "$monitors: the monitors have more pages than one guest; give a lesser --monitor-order or a greater RAM_ORDER"
while [ $((4096 << ram_order)) -lt $(((monitors + 1) * program_bytes)) ] && [ $guest = yes ]; do
    ram_order=$((ram_order + 1))
done
[ $ram_order -le 14 ] || refuse "$monitors: all memory has at most 2^14 pages; give fewer monitors or a lesser order"

# The compiler with its words, and the libraries. Debian has none of gcc's for clang, so that of gcc is taken, if it is there.
library=-lgcc
if [ "$compiler" = clang ]; then
    compile="clang --target=riscv32 -march=rv32i -mabi=ilp32 -mno-relax -fuse-ld=lld"
    library=$($tool-gcc -march=rv32i -mabi=ilp32 -print-libgcc-file-name 2>/dev/null) || library=
else
    compile="$tool-gcc -march=rv32i -mabi=ilp32 -mstrict-align -Wl,--no-warn-rwx-segments"
fi
if [ $libc = yes ]; then
    compile="$compile -isystem $picolibc/include -L$picolibc/lib/rv32i/ilp32 -ftls-model=local-exec -ffunction-sections -fdata-sections"
    compile="$compile -D_DEFAULT_SOURCE -Wl,--gc-sections"
    library="$(quoted "$here/libc.c")-Wl,--start-group -lm -lc $library -Wl,--end-group"
else
    compile="$compile -ffreestanding"
fi

# What stands in the words of a command that is read again.
boot=$(quoted "$here/boot.s")
[ "$monitors" = 1 ] || boot=$(quoted "$here/boot_each.s")
start=$(quoted "$here/start.s")
includes="-I$(quoted "$here")-I$(quoted "$here/include")"

# Says what the compiler said, and whether that was for want of the C library.
tell() {
    cat "$scratch/said" >&2
    [ $libc = no ] && [ -d $picolibc/include ] || return 0
    missing=$(sed -n 's/.*fatal error: [^a-z]*\([a-z/]*\.h\).*/\1/p
        s/.*undefined \(reference to\|symbol:\) [^a-z_]*\([a-z_0-9]*\).*/\2/p' "$scratch/said" | head -n 1)
    case $missing in
    '') ;;
    *.h) [ ! -e "$picolibc/include/$missing" ] || refuse "$missing is a header of the C library; build with --libc" ;;
    *)
        $tool-nm --defined-only $picolibc/lib/rv32i/ilp32/lib[cm].a 2>/dev/null | grep -q " [TW] $missing\$" || return 0
        refuse "$missing is a function of the C library; build with --libc"
        ;;
    esac
}

link() { # the output, the start, where the program's memory ends, its sources, and more words of the compiler
    output=$1 begin=$2 end=$3 files=$4
    stack_bytes=$(((${stack:-$((end / 8 > 16384 ? 16384 : end / 8))} + 4095) / 4096 * 4096))
    shift 4
    eval "$compile $flags -nostdlib -Wall -Wextra $includes -Wl,-z,max-page-size=16 \
        -Wl,--defsym=ram_bytes=$end -Wl,--defsym=stack_bytes=$stack_bytes -Wl,--defsym=main_priority=$priority $rights \
        \"\$@\" -Wl,-T,$(quoted "$here/program.ld")-o \"\$output\" $begin $files $library" 2>"$scratch/said" || { tell && exit 1; }
    cat "$scratch/said" >&2
    "$here/elf" --check "$output" 2>"$scratch/wrong" || refuse "$what, linked, $(sed 's/^elf: [^:]*: //' "$scratch/wrong")"
}

symbol() { # the value of a symbol in an executable
    $tool-nm "$1" | awk -v name="$2" '$3 == name { print "0x" $1 }'
}

# An assembler program that has its own _start is the root or the guest as it stands. Any other begins by start.s, and what is no guest by
# boot.s.
starts_itself() {
    [ -n "$sources" ] || return 1
    case $first in *.s | *.S) ;; *) return 1 ;; esac
    eval "$compile $flags $includes -c -o \"\$scratch/first.o\" \"\$first\""
    [ -n "$(symbol "$scratch/first.o" _start)" ]
}

# A message has 62 items, of which four are no memory of the program: the ranges of boot_memory.s, counted, and what else goes by the same bound.
check_ranges() { # an executable that begins by boot.s or boot_each.s
    $tool-objcopy -O binary -j .guards "$1" "$scratch/guards"
    ranges=$({
        for name in code_end stack_end console; do
            echo $(($(symbol "$1" $name)))
        done
        od -A n -v -t u4 -w12 "$scratch/guards"
    } | awk -v several=$((monitors > 1)) '
        function give(to) { # counts the ranges from `from` on
            while (from < to) {
                size = 4096
                while (from % (2 * size) == 0 && from + 2 * size <= to) size *= 2
                from += size
                ranges++
            }
        }
        NR <= 3 { ends[NR] = $1; next }
        { for (i = 0; i < $3; i++) guards[$1 + i * $2] }
        END {
            from = 4096
            give(ends[1])
            for (; from < ends[2]; from += 4096) {
                to = ends[2]
                for (page in guards) if (page + 0 >= from && page + 0 < to) to = page + 0
                give(to)
            }
            from = ends[2]
            if (!several) give(ends[3])
            print ranges + !several
        }')
    [ "$ranges" -le 58 ] ||
        refuse "$what: its memory, with its guard pages left out, falls into $ranges ranges, and a domain is given 58 at most; have fewer stacks, or of a page each"
}

monitor_name() { # that of its first file
    eval "set -- $monitor"
    echo "$1"
}

build() {
    program=$scratch/program own_start=$start
    starts_itself && own_start=''
    what=$first
    if [ $guest = yes ]; then
        if [ -n "$sources" ]; then
            link "$scratch/guest" "$own_start" $program_bytes "$sources" -DGUEST -Wl,-e,_start
            set -- -Wl,--defsym=guest_entry="$(symbol "$scratch/guest" _start)" \
                -Wl,--defsym=guest_code_end="$(symbol "$scratch/guest" code_end)" \
                -Wl,--defsym=guest_stack_guard="$(symbol "$scratch/guest" stack_guard)"
        else
            set --
        fi
        what=$(monitor_name)
        link "$program" "$boot$start" $monitor_bytes "$monitor" -Wl,-e,nova_boot \
            -Wl,--defsym=console=$ram_bytes -Wl,--defsym=guest_memory=$program_bytes -Wl,--defsym=guest_bytes=$program_bytes \
            -Wl,--defsym=consoles=$((4096 << ram_order)) -Wl,--defsym=monitors="$monitors" \
            -Wl,--defsym=monitor_order="$monitor_order" -Wl,--defsym=guest_order="$order" "$@"
        check_ranges "$program"
    elif [ -z "$own_start" ]; then
        link "$program" '' "$program_bytes" "$sources" -Wl,-e,_start
    else
        link "$program" "$boot$start" "$program_bytes" "$sources" -Wl,-e,nova_boot
        check_ranges "$program"
    fi
}

# The code of a section, a word a line with its address and its meaning.
code() { # executable, section
    $tool-objdump -d -z -M no-aliases,numeric -j "$2" "$1" | awk -F '\t' '
        /^[0-9a-f]+ <.*>:$/ { sub(/^.*</, "# "); sub(/>/, ""); print }
        /^ *[0-9a-f]+:\t/ { sub(/ #.*/, "", $4); printf "%.8s  # %s %s%s\n", $2, $1, $3, ($4 == "" ? "" : " " $4) }'
}

# The data of a section, four words a line with the characters that they are.
data() { # executable, section
    $tool-objcopy -O binary -j "$2" "$1" "$scratch/data"
    od -A n -v -t x4z -w16 --endian=little "$scratch/data" | sed 's/^ //; s/  >\(.*\)<$/  # \1/'
}

words() { # executable, where its address 0 lies
    $tool-objdump -h "$1" | awk '$2 ~ /^\.(boot|guards|text|tdata|rodata|data)$/ && $3 !~ /^0+$/ { print $2, $4 }' | while read -r section address; do
        printf '\nimage 0x%08x hex\n' $(($2 + 0x$address))
        case $section in
        .boot | .text) code "$1" "$section" ;;
        *) data "$1" "$section" ;;
        esac
        echo "end"
    done
}

executable() { # executable, where its address 0 lies
    echo
    $tool-objcopy --strip-all "$1" "$scratch/stripped"
    "$here/elf" "$scratch/stripped" "$2"
}

# A file as the memory of a guest: an executable, whose lowest segment goes there, or bytes.
image() { # the file, and where it lies
    if is_elf "$1"; then
        echo
        $tool-objcopy --strip-all "$1" "$scratch/image"
        "$here/elf" --lowest "$2" "$scratch/image"
        return
    fi
    printf '\nimage 0x%08x hex\n' "$2"
    od -A n -v -t x4 -w32 --endian=little "$1" | cut -c 2-
    echo end
}

guest_at() { # where its memory begins
    [ -z "$sources" ] || $form "$scratch/guest" "$1"
    eval "set -- $1 $images"
    memory=$1
    shift
    for image; do
        image "${image%@*}" $((memory + 4096 * ${image##*@}))
    done
}

write() {
    written="as words" form=words option=
    [ $elf = no ] || written="as an executable" form=executable option=" --elf"
    if [ $guest = yes ]; then
        monitor_file=$(monitor_name)
        echo "# ${first##*/} as a guest under ${monitor_file##*/}, compiled and written $written by tools/c/build.sh$option."
    else
        echo "# ${first##*/}, compiled and written $written by tools/c/build.sh$option."
    fi
    [ "$monitors" = 1 ] || cpus=$monitors consoles=$monitors
    printf 'cpus %s\nram %s\nconsoles %s\n' "$cpus" $ram_order "$consoles"
    begin=entry
    [ $elf = yes ] || begin=$($tool-readelf -h "$program" | awk '/Entry point/ { print $4 }')
    printf 'root %s 0x%x %s 10\n%s' "$begin" $monitor_bytes $((priority + 1)) "$interrupts"
    if [ $guest = no ]; then
        $form "$program" 0
        return
    fi
    k=0
    while [ $k -lt "$monitors" ]; do
        $form "$program" $((k * monitor_bytes))
        guest_at $(((1 + k) * program_bytes))
        k=$((k + 1))
    done
}

build
write >"$scratch/scenario"
cp "$scratch/scenario" "$scenario"
if [ $debug = yes ]; then
    cp "$program" "${scenario%.nova}.elf"
    [ $guest = no ] || [ -z "$sources" ] || cp "$scratch/guest" "${scenario%.nova}.guest.elf"
fi
