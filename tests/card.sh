#!/usr/bin/env bash
# The C calls, tried from C: builds libcard.a, tests/card.c and examples/firmware.c with -Wall -Wextra -Werror, and runs both; under
# valgrind too where it can. libcard.a is for x86-64, and the Rattle kit runs there alone; the branches for another processor are from
# a kit that had an emulator, and are never taken now. Exit status 0: all passed.
set -euo pipefail
cd "$(dirname "$0")/.."
out=target/c
mkdir -p "$out"
library=$(tools/made card)
warnings=(-std=c11 -O2 -Wall -Wextra -Werror -I"$out")

# the tables of docs/SUPERVISOR.md for C: NUMBER(offset, bytes, least, greatest) for each number, ARRAY(offset, bytes) for each array
awk -F ' *[|] *' '
    $2 == "Offset" { arrays = $3 == "Array" }
    $2 !~ /^[0-9]/ { next }
    { n = split($2, at, / to |, /); last = at[n] + 0; apart = $2 ~ / to / ? $3 : 0 }
    arrays { for (i = 1; i <= n; i++) printf "ARRAY(%d, %d)\n", at[i], $4; next }
    apart { for (i = at[1] + 0; i <= last; i += apart) printf "NUMBER(%d, %d, %s, %s)\n", i, $3, $5, $6; next }
    { for (i = 1; i <= n; i++) printf "NUMBER(%d, %d, %s, %s)\n", at[i], $3, $5, $6 }' docs/SUPERVISOR.md >"$out/supervisor_bytes.h"

if [ "$(uname -m)" = x86_64 ]; then
    build() { "${CC:-cc}" "${warnings[@]}" -o "$out/$1" "$2" "$library"; }
    run() { "$out/$1"; }
else
    kit=$(dirname "$(dirname "$(readlink -f "$(command -v rt)")")")
    lib=$kit/toolchain/lib
    emulator=$kit/on/$(uname -m)/toolchain/bin/qemu-x86_64
    headers=/usr/include/$(cc -dumpmachine)
    build() {
        clang --target=x86_64-linux-gnu -fPIE -isystem "$headers" "${warnings[@]}" -c -o "$out/$1.o" "$2"
        ld.lld -pie -dynamic-linker /lib64/ld-linux-x86-64.so.2 -o "$out/$1" "$lib/Scrt1.o" "$lib/crti.o" "$lib/crtbeginS.o" \
            "$out/$1.o" "$library" "$lib/libc.so.6" "$lib/libc_nonshared.a" "$lib/libgcc.a" "$lib/crtendS.o" "$lib/crtn.o"
    }
    run() { "$emulator" "$lib/ld-linux-x86-64.so.2" --library-path "$lib" "$out/$1"; }
fi

# the header by itself, as C and as C++
"${CC:-cc}" "${warnings[@]}" -fsyntax-only -x c include/otn.h
"${CXX:-c++}" -std=c++11 -Wall -Wextra -Werror -fsyntax-only -x c++ include/otn.h

build card tests/card.c
run card
build firmware examples/firmware.c
run firmware >"$out/firmware.txt"
cmp "$out/firmware.txt" examples/firmware.txt
echo "firmware.c: its listing is examples/firmware.txt"

if [ "$(uname -m)" = x86_64 ] && command -v valgrind >/dev/null; then
    valgrind --quiet --error-exitcode=1 "$out/card" nostack >/dev/null
    valgrind --quiet --error-exitcode=1 "$out/firmware" >/dev/null
    echo "valgrind: no error"
else
    echo "valgrind: not run (it needs an x86-64 processor, and to be installed)"
fi
