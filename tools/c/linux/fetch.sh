# What linux.sh and uboot.sh share: packages of Debian 12, which are fetched into a folder of its own. Whoever reads it has set `name`.
export LC_ALL=C
c=$(cd "$(dirname "$0")" && pwd)

say() {
    echo "$name: $*" >&2
}

fail() {
    say "$*"
    exit 1
}

wrong() { # the word at fault, and why
    say "$*; $name --help lists the words"
    exit 2
}

folder() { # --cache and the words behind it
    case ${2-} in '' | -*) wrong "$1: a folder has to follow it" ;; esac
}

needs() { # a command and its package, a pair a word
    missing=''
    for pair; do
        command -v "${pair%:*}" >/dev/null || missing="$missing ${pair#*:}"
    done
    [ -z "$missing" ] || fail "something isn't installed; apt-get install$missing"
}

# Makes the cache, where there is none, and has its whole name.
make_cache() { # its folder
    said=$(mkdir -p "$1" 2>&1) || fail "$1: can't be made, ${said##*: }; name another folder by --cache"
    cache=$(cd "$1" && pwd)
    [ -w "$cache" ] || fail "$cache: can't be written; name another folder by --cache"
}

room() { # how many megabytes are needed
    free=$(($(df -Pk "$cache" | awk 'NR == 2 { print $4 }') / 1000))
    [ "$free" -ge "$1" ] || fail "$cache: $1 MB are needed, and $free MB are free; make room, or name another folder by --cache"
}

tree() { # a device tree, what is written, and how it differs
    said=$(sed "${3-}" "$1" | dtc -q -O dtb -o "$2" 2>&1) || fail "$2: dtc can't write it of ${1##*/}: $(echo "$said" | tail -n 1)"
}

# apt-get with lists and files of its own, so that those of the system stay as they are.
archive() { # words of apt-get
    apt-get -qq -o Dir::Etc::SourceList="$cache/sources.list" -o Dir::Etc::SourceParts=/dev/null -o Dir::State::Lists="$cache/lists" \
        -o Dir::Cache="$cache/archive" -o APT::Update::Error-Mode=any -o APT::Sandbox::User=root -o Acquire::Retries=1 \
        -o Acquire::http::Timeout=30 "$@" >"$cache/apt.log" 2>&1 || no_answer
}

no_answer() {
    why=$(tail -n 1 "$cache/apt.log" 2>/dev/null)
    [ -n "$why" ] || fail "apt-get fails and says nothing in $cache/apt.log; is the disk full?"
    fail "Debian's archive doesn't answer: $why"
}

# Has the archive's lists at hand: those of a line of sources.list.
lists() { # deb or deb-src, an archive and a suite
    mkdir -p "$cache/lists/partial" "$cache/archive/archives/partial"
    echo "$1 [signed-by=/usr/share/keyrings/debian-archive-keyring.gpg] http://deb.debian.org/$2 $3 main" >"$cache/sources.list"
    archive update
}
