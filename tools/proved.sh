# Sourced by bin/ledger, bin/explain and bin/quarters, which set name and usage. Runs the program that `made` has proved and built. Its output goes out as it
# comes; the status is told by its last lines.
set -u
root=$(cd "$(dirname "${BASH_SOURCE[0]}")/.." && pwd -P)
refuse() {
    echo "$name: $*" >&2
    exit 2
}

case ${1-} in
-h | --help)
    printf '%s\n' "$usage"
    exit
    ;;
-*) refuse "there is no option $1; $name --help tells how it is used" ;;
esac
[ $# -le 1 ] || refuse "$# arguments are given; expected one file, or none for standard input"
if [ $# = 1 ]; then
    [ -e "$1" ] || refuse "there is no file $1"
    [ ! -d "$1" ] || refuse "$1 is a folder; expected a trace"
    [ -r "$1" ] || refuse "$1 may not be read"
    exec <"$1"
else
    { : 3<&0; } 2>/dev/null || refuse "standard input is closed; expected a trace"
    [ ! -d /dev/stdin ] || refuse "standard input is a folder; expected a trace"
fi
{ : 3>&1; } 2>/dev/null || refuse "standard output is closed"

command -v rt >/dev/null || refuse "rt, the command of the Rattle kit, is not on the path"
program=$("$root/tools/made" "$name") || exit 2
[ ! -t 0 ] || echo "$name: a trace is awaited on standard input; $name --help tells how it is used" >&2

# The last two lines are kept in a file that has no name any more. In the background, so that a signal to this script ends the program.
kept=$(mktemp) || exit 2
exec 3<&0 4>&1 5<>"$kept"
rm -f "$kept"
trap 'kill $(jobs -p) 2>/dev/null; exit 130' INT
trap 'kill $(jobs -p) 2>/dev/null; exit 143' HUP TERM
"$program" <&3 | { tee --output-error=exit /dev/fd/6 6>&1 >&4 2>/dev/null || printf '\nunwritten\n'; } | tail -n 2 >&5 &
wait
status=1 refused=0 last=
while read -r line; do
    last=$line
    case $line in
    'R '*) refused=3 ;;
    'E '*) status=$refused ;;
    *) status=1 ;;
    esac
done </dev/fd/5
# a reader that went away needs no word
[ "$status" != 1 ] || { [ "$last" = unwritten ] && [ -p /dev/fd/4 ]; } || echo "$name: the output is cut: its last line is not E" >&2
exit "$status"
