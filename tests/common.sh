# Sourced by the tests of the programs: the place to work in, the writer of traces, and the count of what is as it should be.
set -uo pipefail
cd "$(dirname "$0")/.."
work=$(mktemp -d)
trap 'rm -rf "$work"' EXIT
cc -O2 -Wall -Wextra -o "$work/trace" tests/trace.c || exit 1
passed=0
failed=0

said() { # what is to be, what is
    if [ "$1" = "$2" ]; then
        passed=$((passed + 1))
    else
        failed=$((failed + 1))
        printf '%s: %s\n  expected: %s\n  found:    %s\n' "$0" "$name" "$1" "$2"
    fi
}

# printed WORDS..: what $program writes of the trace of these words
printed() {
    "$work/trace" "$@" > "$work/in" && timeout 120 "$program" < "$work/in"
}

# gives TEXT WORDS..: it writes this, whole
gives() {
    name="${*:2}"
    said "$1" "$(printed "${@:2}")"
}

line() { printf '%s\n' "$@"; }

# pieced TEXT: it writes this of $work/in from a pipe too, in pieces of 7 bytes and of 4,096
pieced() {
    local bytes
    for bytes in 7 4096; do
        name="pieces of $bytes bytes"
        said "$1" "$(dd bs=$bytes if="$work/in" 2> /dev/null | timeout 120 "$program")"
    done
}

# waits WORDS..: a reader at a pipe sees nothing yet of the trace of these words; more of it may be written to $to, which is then closed
waits() {
    name='a line before the end of the input'
    coproc timeout 60 "$program"
    exec {back}<&"${COPROC[0]}" {to}>&"${COPROC[1]}"
    eval "exec ${COPROC[1]}>&-"
    "$work/trace" "$@" >&"$to"
    found=
    read -r -t 2 -u "$back" found
    said '' "$found"
}

# sees TEXT: the reader's next line
sees() {
    found=
    read -r -t 30 -u "$back" found
    said "$1" "$found"
}

# stops WORDS..: it ends where a write fails, here of the trace of these words, and on an input without end
stops() {
    name='a full device'
    "$work/trace" "$@" > "$work/in"
    timeout 60 "$program" < "$work/in" > /dev/full 2> "$work/said"
    said 1 $?
    said "${program##*/}: the output is cut: its last line is not E" "$(cat "$work/said")"
    name='zeros without end'
    said "$(line 'R 15 0' 'E 0 0')" "$(timeout 60 "$program" < /dev/zero)"
}

# the last line of a test, and its status
counted() {
    echo "$0: $passed passed, $failed failed"
    [ "$failed" -eq 0 ]
}
