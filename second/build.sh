# Sourced by compare, soak and mutants here and by speed/speed: builds what they run into second/target.
#
#   LEDGER        the program under test; without it only the plain C reader is run
#   QUARTERS      the program that prints quarter-hours and days; without it only the plain C one is run
#   EXPLAIN       the program that explains a trace; without it no explanation is compared
#   CARD_LIB      the static library libcard.a; without it only the stand-in over plain.c is run
#   CARD_INCLUDE  where its otn.h stands; by default include/ beside second/
#   CARD_LINK     what else the linker needs for it
#
# `rt` compiles for x86-64, and its kit runs there alone. What is here for another processor is from a kit that had an emulator, and
# is never taken now.
set -euo pipefail
second=$(cd "$(dirname "${BASH_SOURCE[0]}")" && pwd)
speed=$(cd "$second/../speed" && pwd) # the supervisor in plain C stands there
ledger=${LEDGER:+$(realpath "$LEDGER")}
quarters=${QUARTERS:+$(realpath "$QUARTERS")}
explain=${EXPLAIN:+$(realpath "$EXPLAIN")}
card_lib=${CARD_LIB:+$(realpath "$CARD_LIB")}
card_include=$(realpath -m "${CARD_INCLUDE:-$second/../include}")
out=$second/target/c
mkdir -p "$out"
warn="-Wall -Wextra -Werror"
card_warn="-Wall -Wextra" # the card's header may be stricter or laxer about const

kit=
if command -v rt >/dev/null; then
    kit=$(dirname "$(dirname "$(readlink -f "$(command -v rt)")")")/on/$(uname -m)/toolchain
fi

# foreign FILE: it is for x86-64 and this machine is not.
foreign() {
    [ "$(uname -m)" != x86_64 ] && LC_ALL=C readelf -h "$1" 2>/dev/null | grep -q 'Machine:.*X86-64'
}

# emulated FILE: a program that runs FILE under the kit's emulator; FILE itself where it is not foreign.
emulated() {
    if ! foreign "$1"; then
        echo "$1"
        return
    fi
    local wrapper=$out/$(basename "$1")_emulated
    printf '#!/bin/sh\nexec "%s/bin/qemu-x86_64" "%s/lib/ld-linux-x86-64.so.2" --library-path "%s/lib" "%s" "$@"\n' "$kit" "$kit" "$kit" "$1" >"$wrapper"
    chmod +x "$wrapper"
    echo "$wrapper"
}

# build NAME COMPILER-AND-FLAGS... : compiles, and only if a source is newer than what stands.
build() {
    local name=$1
    shift
    local file newest=
    if [ -e "$out/$name" ] && [ "$(cat "$out/$name.how" 2>/dev/null)" = "$*" ]; then
        newest=yes
        for file in "$second"/*.c "$speed"/*.c "$speed"/*.h "$speed"/standin/otn.h ${card_lib:+"$card_lib" "$card_include/otn.h"}; do
            [ "$file" -nt "$out/$name" ] && newest=
        done
    fi
    if [ -z "$newest" ]; then
        "$@" -o "$out/$name"
        printf '%s' "$*" >"$out/$name.how"
    fi
}

# build_foreign NAME FLAGS... SOURCES... [LIBRARY...]: the same for x86-64 with the kit's C library.
build_foreign() {
    local name=$1 flags=() objects=() libs=() word
    shift
    for word in "$@"; do
        case $word in
        *.c)
            # The C library's headers of this machine say the same of what is used here.
            build "$name.$(basename "$word").o" clang --target=x86_64-linux-gnu -fPIC -isystem "/usr/include/$(uname -m)-linux-gnu" \
                ${flags[@]+"${flags[@]}"} -c "$word"
            objects+=("$out/$name.$(basename "$word").o")
            ;;
        *.o) objects+=("$word") ;;
        *.a) libs+=("$word") ;;
        *) flags+=("$word") ;;
        esac
    done
    "$kit/bin/ld.lld" -pie -dynamic-linker /lib64/ld-linux-x86-64.so.2 -o "$out/$name" "$kit"/lib/{Scrt1.o,crti.o,crtbeginS.o} \
        "${objects[@]}" ${libs[@]+"${libs[@]}"} "$kit"/lib/{libc.so.6,libc_nonshared.a,libgcc.a,libgcc_s.so.1,crtendS.o,crtn.o} ${CARD_LINK:-}
}

# with_card NAME FLAGS... SOURCES: NAME_standin over plain.c, and NAME_card over the library if there is one.
with_card() {
    local name=$1
    shift
    build "${name}_standin" gcc $warn "$@" -I"$speed/standin" "$speed/plain_card.c" "$speed/plain.c"
    if [ -n "$card_lib" ]; then
        if foreign "$card_lib"; then
            build_foreign "${name}_card" $card_warn -I"$card_include" "$@" "$card_lib"
        else
            build "${name}_card" gcc $card_warn "$@" -I"$card_include" "$card_lib" ${CARD_LINK:-}
        fi
    fi
}

build_rust() {
    (cd "$second" && cargo build --release --quiet --offline)
}
