#!/bin/sh
# lua.sh [FOLDER]: Lua 5.4 as Debian has it, with the script lua.lua. Its console is compared with that of the host's Lua.
. "$(dirname "$0")/others.sh"

fetch lua5.4

# What Debian's own build writes, and the script. Left out are the programs, and the libraries of files and of the system.
echo '#define DEB_HOST_MULTIARCH "riscv32-unknown-elf"' >"$work/lua5.4-deb-multiarch.h"
xxd -i <"$here/lua.lua" >"$work/script.inc"
sources=$(cd "$source" && ls src/*.c | grep -v -E '/(lua|luac|linit|loadlib|liolib|loslib|ldblib).c$')

# The host's Lua, or one that the host's compiler makes of the same.
if command -v lua5.4 >/dev/null; then
    (cd "$here" && lua5.4 lua.lua) >"$work/wanted"
elif command -v cc >/dev/null; then
    (cd "$source" && cc -I"$work" -Isrc -o "$work/lua" "$here/lua.c" $sources -lm) || fail "isn't built for the host"
    "$work/lua" >"$work/wanted"
else
    skip "neither lua5.4 nor a compiler for the host is installed"
fi
try lua "$work/wanted" "$here/lua.c" $sources -I"$work" -Isrc 7
try lua_guest "$work/wanted" --consoles 2 --monitor "$here/pager.c" "$here/lua.c" $sources -I"$work" -Isrc 7
