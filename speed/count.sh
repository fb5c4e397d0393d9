# Sourced by speed and flat after second/build.sh: how instructions are counted, by valgrind's callgrind, or by the kit's emulator where what
# runs is foreign to this machine.

# countable FILE: its instructions can be counted here.
countable() { foreign "$1" || valgrind --tool=none --log-file=/dev/null true 2>/dev/null; }
# instructions FILE ARGUMENT... : how many it executes, by the emulator or by valgrind
instructions() {
    if foreign "$1"; then
        local pipe=$out/executed
        rm -f "$pipe" && mkfifo "$pipe"
        "$kit/bin/qemu-x86_64" -one-insn-per-tb -d exec,nochain -D "$pipe" "$kit/lib/ld-linux-x86-64.so.2" --library-path "$kit/lib" \
            "$@" <"${input:-/dev/null}" >/dev/null &
        awk '/^Trace/ { c++ } END { print c + 0 }' "$pipe"
        wait $!
    else
        valgrind --tool=callgrind --callgrind-out-file=/dev/null "$@" <"${input:-/dev/null}" 2>&1 >/dev/null | sed -n 's/.*Collected : //p'
    fi
}
# between FEW MANY COMMAND... : instructions for each of the frames or calls in which MANY is more than FEW; @ in COMMAND is the number.
between() {
    local few=$1 many=$2 a b
    shift 2
    a=$(instructions "${@//@/$few}") && b=$(instructions "${@//@/$many}") || return
    echo "$(((b - a) / (many - few)))"
}
