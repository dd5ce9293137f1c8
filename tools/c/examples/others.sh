# What lua.sh and bzip2.sh share: a source package of Debian is fetched, built by build.sh as the root and as a guest of pager.c, and run, and
# its console is compared. Where something isn't there that this needs, a line says what is missing, and nothing else happens.
set -eu
export LC_ALL=C
here=$(cd "$(dirname "$0")" && pwd)
top=$(cd "$here/../../.." && pwd)
name=$(basename "$0" .sh)
work=$(mktemp -d)
trap 'rm -rf "$work"' EXIT

usage() {
    echo "usage: $name.sh [FOLDER]
  FOLDER   where the sources are put, or are already, and then $name.nova, ${name}_guest.nova and their reports; a temporary one where it
           isn't given" >&2
    exit 2
}

skip() {
    echo "$name: skipped, since $*"
    exit 0
}

fail() {
    echo "$name: $*" >&2
    exit 1
}

case "$#${1-}" in 0 | 1[!-]*) ;; *) usage ;; esac
folder=${1:-$work/sources}

for command in apt-get dpkg-source xxd riscv64-unknown-elf-gcc; do
    command -v "$command" >/dev/null || skip "$command isn't installed"
done
[ -d /usr/lib/picolibc/riscv64-unknown-elf ] || skip "picolibc-riscv64-unknown-elf isn't installed"

# apt-get with lists and files of its own, so that those of the system stay as they are.
archive() {
    apt-get -qq -o Dir::Etc::SourceList="$folder/sources.list" -o Dir::Etc::SourceParts=/dev/null -o Dir::State::Lists="$folder/lists" \
        -o Dir::Cache="$folder/cache" -o APT::Update::Error-Mode=any -o APT::Sandbox::User=root -o Acquire::Retries=0 \
        -o Acquire::http::Timeout=20 "$@"
}

# Sets `source` to the folder of a source package, as Debian 12 has it.
fetch() { # the package
    mkdir -p "$folder/lists/partial" "$folder/cache/archives/partial"
    folder=$(cd "$folder" && pwd)
    echo "deb-src [signed-by=/usr/share/keyrings/debian-archive-keyring.gpg] http://deb.debian.org/debian bookworm main" >"$folder/sources.list"
    if ! ls -d "$folder/$1"-*/ >"$work/found" 2>/dev/null; then
        archive update >"$work/apt" 2>&1 || skip "Debian's archive can't be reached: $(tail -n 1 "$work/apt")"
        (cd "$folder" && archive source "$1") >"$work/apt" 2>&1 || skip "its source can't be had: $(tail -n 1 "$work/apt")"
        ls -d "$folder/$1"-*/ >"$work/found"
    fi
    source=$(sed -n '1s,/$,,p' "$work/found")
    echo "$name: ${source##*/}, $(sed -n "s/.*(\(.*\)).*/version \1/;1p" "$source/debian/changelog")"
}

# Builds a scenario, runs it, and compares its console with what is wanted.
try() { # the scenario's name, the file of what is wanted, and words for build.sh: options, sources and the memory's order
    scenario=$1 wanted=$2
    shift 2
    (cd "$source" && "$here/../build.sh" --libc "$@" "$folder/$scenario.nova") 2>"$work/said" || { cat "$work/said" >&2 && fail "isn't built"; }
    "${NOVA:-$top/nova}" solo --limit 10000000 "$folder/$scenario.nova" >"$folder/$scenario.report" || fail "$scenario.nova doesn't come to its end"
    sed -n 's/^console 0 //p' "$folder/$scenario.report" | xxd -r -p >"$work/console"
    cmp "$wanted" "$work/console" || fail "the console of $scenario.nova isn't that of the host"
    echo "$name: $scenario.nova, $(wc -c <"$folder/$scenario.nova") bytes: the host's console, $(wc -c <"$wanted") bytes, in" \
        "$(sed -n '1s/.* //p' "$folder/$scenario.report") turns"
}
