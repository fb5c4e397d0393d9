#!/usr/bin/env bash
# Runs the program quarters on traces and holds what it writes to document 02, K6 and K7. Status 0 where all is as it should be.
. "$(dirname "$0")/common.sh"
tools/made quarters > "$work/made" || exit 1
tools/made ledger > "$work/made" || exit 1
program=bin/quarters

# sums LETTER NUMBER NUMBERS..: a line of the first of its 23 numbers; the others are 0
sums() {
    local numbers=("${@:2}")
    while [ ${#numbers[@]} -lt 24 ]; do numbers+=(0); done
    line "$1 ${numbers[*]}"
}
# both NUMBERS..: what there is of quarter-hour 0, and the same of day 0
both() { sums Q 0 "$@" && sums D 0 "$@"; }
# empty FROM TO: the lines of quarter-hours without frames
empty() {
    local q
    for ((q = $1; q <= $2; q++)); do sums Q "$q" $((900 * q + 1)) 900; done
}

# the worked example: two frames under head 1, and a near DS of section and path; then nothing at all, no mark, and no frame
gives "$(both 1 1 2 0 2 0 0 0 0 0 0 0 0 0 0 1 0 0 0 0 1 && line 'E 1 2')" P 'Z:flags=1*2' M
gives 'E 0 0'
gives 'E 0 0' P
gives 'E 0 3' P 'Z*3'
gives "$(both 1 3 && line 'E 3 0')" P 'M*3'
# the open second is in no sum
gives "$(both 1 1 3 3 && line 'E 1 5')" P 'Z*3' M 'Z*2'

# where the trace ends: a second before the quarter-hour is whole, with it, a second after, and with the next one
gives "$(both 1 899 && line 'E 899 0')" P 'M*899'
gives "$(both 1 900 && line 'E 900 0')" P 'M*900'
gives "$(empty 0 0 && sums Q 1 901 1 && sums D 0 1 901 && line 'E 901 0')" P 'M*901'
gives "$(empty 0 1 && sums D 0 1 1800 && line 'E 1800 0')" P 'M*1800'
gives "$(empty 0 1 && sums Q 2 1801 1 && sums D 0 1 1801 && line 'E 1801 0')" P 'M*1801'
# with figures: the last second of quarter-hour 0 is in it, the first one of the next is not. Three near blocks of the section, two far ones and near
# ones of the path, BEI 1; then four frames under head 1
gives "$(sums Q 0 1 900 5 5 0 0 0 0 0 0 0 0 0 3 2 0 0 2 2 && sums Q 1 901 2 4 0 4 0 0 0 0 0 0 0 0 0 0 1 0 0 0 0 1 &&
    sums D 0 1 902 9 5 4 0 0 0 0 0 0 0 0 3 2 1 0 2 2 0 1 && line 'E 902 9')" P 'G:sm=1*3' M 'M*898' 'G:sst=0x10,pm=1*2' M 'G:flags=1*4' 'M*2'
# a quarter-hour that ends with the trace, whose last second is pending; the frames after it are in no second
gives "$(both 1 900 2 2 0 0 0 0 0 0 0 0 0 0 0 0 0 0 0 2 0 0 9 && line 'E 900 7')" P G:pst=0x80 'M*899' G:pst=0x10 M 'G*5'

# a day: its 96 quarter-hours and then itself, and nothing is left; a second more is of the next ones; two days
gives "$(empty 0 95 && sums D 0 1 86400 && line 'E 86400 0')" P 'M*86400'
gives "$(empty 0 94 && sums Q 95 85501 899 && sums D 0 1 86399 && line 'E 86399 0')" P 'M*86399'
gives "$(empty 0 95 && sums D 0 1 86400 && sums Q 96 86401 1 && sums D 1 86401 1 && line 'E 86401 0')" P 'M*86401'
gives "$(empty 0 95 && sums D 0 1 86400 && empty 96 191 && sums D 1 86401 86400 && line 'E 172800 0')" P 'M*172800'
# with a frame in the first second of each quarter-hour: a near block of the section and a far one of the path, with three violations
words=() text=
for q in {0..95}; do
    words+=(G:sm=1,pst=0x30 'M*900')
    text+=$(sums Q "$q" $((900 * q + 1)) 900 1 1 0 0 0 0 0 0 0 0 0 1 0 0 0 0 0 1 0 0 3)$'\n'
done
gives "$text$(sums D 0 1 86400 96 96 0 0 0 0 0 0 0 0 0 96 0 0 0 0 0 96 0 0 288 && line 'E 86400 96')" P "${words[@]}"

# each number by itself: blocks near and far of section and path, and the sums of the far ends' violations
gives "$(both 1 1 10 10 0 0 0 0 0 0 0 0 0 1 2 0 0 14 3 4 0 0 20 && line 'E 1 10')" P G:sm=1 'G:sst=0x70*2' 'G:pm=1*3' 'G:pst=0x50*4' M
gives "$(both 1 1 7 7 0 0 0 0 0 0 0 0 0 0 3 0 0 11 0 3 0 0 11 && line 'E 1 7')" \
    P G:sst=0x80,pst=0x81 G:sst=0x10,pst=0x11 G:sst=0x20,pst=0x21 G:sst=0x90,pst=0x91 G:sst=0xb0,pst=0xb1 G:pst=1 G:sst=0xf0,pst=0xf1 M
# a second that is full of the greatest ones, and one frame more
gives "$(both 1 2 400001 400001 0 0 0 0 0 0 0 0 0 0 400001 0 0 3200008 0 400001 0 0 3200008 && line 'E 2 400001')" \
    P 'G:sst=0x80,pst=0x81*400000' M G:sst=0x80,pst=0x81 M
# dBIAE voids the section's of its own second and of the one before, and none of the path's
gives "$(both 1 3 9 9 0 0 0 0 0 0 0 0 0 0 3 0 0 18 0 6 0 0 36 && line 'E 3 9')" P 'G:sst=0x60,pst=0x60*3' M 'G:sst=0x60,pst=0x60*3' M 'G:sst=0xb0,pst=0xb0*3' M
# DS is summed as seconds: three with near DS, an empty one among them, and two with far DS
gives "$(both 1 6 21 6 0 15 0 0 0 0 0 0 0 0 0 3 2 0 0 0 3 2 && line 'E 6 21')" \
    P 'G:flags=2*5' M 'G:flags=2*5' M M 'G:flags=2*5' M 'G:sst=8,pst=8*5' M G:sst=8,pst=8 M
# every head, in six seconds, as in tests/ledger.sh: S 1 has 3 and 4 under heads 1 and 2, S 2 254 and 5, 5, 5 under 0 and 6 to 8, S 3 235 and 4 under 0 and 9, S 4 3 and
# 252 under 5 and 9, S 5 5 and 65 under 4 and 5, S 6 5 and 65 under 3 and 4; near DS of the section in 1, 4, 5 and 6, of the path in all
heads=(P:smode=1,pmode=1,sname=0x53,pname=0x50 'G:flags=1*3' 'G:flags=2*4' M
    'G:stti=0x53,ptti=0x50,pst=1*249' 'G:stti=0x53,ptti=0x50,pst=7*5' 'G:stti=0x53,ptti=0x50,pst=6*5' 'G:stti=0x53,ptti=0x50,pst=5*5' 'G:stti=0x53,ptti=0x50,pst=1*5' M
    'G:stti=0x53,ptti=0x58,pst=1*239' M 'G:stti=0x58,ptti=0x50,pst=1*255' M 'G:mfas=200,stti=0x58,ptti=0x50,pst=1*70' M 'Z*70' M)
text=$(both 1 6 910 489 3 4 5 70 68 5 5 5 256 0 0 4 0 0 0 0 6 && line 'E 6 910')
gives "$text" "${heads[@]}"
# a full second
gives "$(both 1 2 400001 61 0 0 399940 0 0 0 0 0 0 0 0 2 0 0 0 0 2 && line 'E 2 400001')" P 'Z*400000' M Z M
# no tandem level's
gives "$(both 1 1 4 4 && line 'E 1 4')" P L:level=3 'G5:t3=1,st3=0x11*4' M
gives "$(both 1 1 5 5 0 0 0 0 0 0 0 0 0 5 0 0 0 0 5 && line 'E 1 5')" P L 'G5:sm=1,pm=1,t1=1*5' M

# sums are of reported seconds: an alignment error in second 901 voids second 900, which is of the quarter-hour before; second 1 stays
gives "$(sums Q 0 1 900 20 20 0 0 0 0 0 0 0 0 0 10 10 0 0 20 && sums Q 1 901 1 5 5 && sums D 0 1 901 25 25 0 0 0 0 0 0 0 0 0 10 10 0 0 20 && line 'E 901 25')" \
    P 'G:sm=1,sst=0x20*10' M 'M*898' 'G:sm=1,sst=0x20*10' M 'G:sm=1,sst=0x24*5' M
# the open second voids nothing
gives "$(both 1 900 10 10 0 0 0 0 0 0 0 0 0 10 10 0 0 20 && line 'E 900 15')" P 'M*899' 'G:sm=1,sst=0x20*10' M 'G:sm=1,sst=0x24*5'

# refusals: as the first record, before a mark, within a quarter-hour, at the end of one, and at the end of a day. What is not whole comes before R
gives "$(line 'R 16 0' 'E 0 0')" M
gives "$(line 'R 14 0' 'E 0 0')" B:02
gives "$(line 'R 5 0' 'E 0 0')" P:k=4 M
gives "$(line 'R 2 225' 'E 0 2')" P 'Z*2' Z:flags=4 M
gives "$(both 1 1 1 1 && line 'R 14 158' 'E 1 1')" P Z M B:020002
gives "$(both 1 1 1 1 && line 'R 3 229' 'E 1 2')" P Z M Z Z:sm=9 M
gives "$(sums Q 0 1 900 1 1 && sums Q 1 901 1 && sums D 0 1 901 1 1 && line 'R 15 3758' 'E 901 1')" P Z 'M*901' B:02000900 'M*2'
gives "$(both 1 900 && line 'R 16 3683' 'E 900 0')" P 'M*900' P M
gives "$(empty 0 95 && sums D 0 1 86400 && line 'R 14 345683' 'E 86400 0')" P 'M*86400' B:02
gives "$(both 1 1 3 3 && line 'R 19 300' 'E 1 3')" P 'Z*3' M Z5 M

# the same from a pipe, in pieces
"$work/trace" "${heads[@]}" > "$work/in"
pieced "$text"

# a reader at a pipe sees a quarter-hour's line at the mark after its last one, before the input ends, and what is left when it ends
waits P 'Z:flags=1*2' 'M*900'
"$work/trace" M >&"$to"
sees "$(sums Q 0 1 900 2 0 2 0 0 0 0 0 0 0 0 0 0 1 0 0 0 0 1)"
"$work/trace" 'Z*2' M >&"$to"
exec {to}>&-
sees "$(sums Q 1 901 2 2 2)"
sees "$(sums D 0 1 902 4 2 2 0 0 0 0 0 0 0 0 0 0 1 0 0 0 0 1)"
sees 'E 902 4'

# it ends where a write fails, and on an input without end
stops P 'M*86400'

# The examples, and a trace of half an hour, by the sums of the lines that ledger writes of them. Column 2 of an S line is the second, 3 to 23 are the figures that are
# summed; a DS is 0 or 1.
by_ledger() {
    timeout 120 bin/ledger | awk '
        function told(letter, number, s, i) { printf "%s %d", letter, number; for (i = 1; i <= 23; i++) printf " %d", s[i]; print ""; split("", s) }
        function add(s, i) { if (s[2] == 0) s[1] = $2; s[2]++; for (i = 3; i <= 23; i++) s[i] += $i }
        function rest() { if (quarter[2]) told("Q", int((quarter[1] - 1) / 900), quarter); if (day[2]) told("D", int((day[1] - 1) / 86400), day) }
        $1 != "S" { rest(); print; next }
        { add(quarter); add(day) }
        quarter[2] == 900 { told("Q", $2 / 900 - 1, quarter) }
        day[2] == 86400 { told("D", $2 / 86400 - 1, day) }'
}
words=(P L:level=4)
for n in {1..61}; do
    words+=("G:sm=$((n % 9)),pm=$((n % 4)),sst=$((n * 37 % 256)),pst=$((n * 23 % 256)),flags=$((n % 11 == 0)),st4=1*$((n % 7))" M "N*$((n == 45 ? 70 : 0))" 'M*30')
done
"$work/trace" "${words[@]}" > "$work/half.trace"
for trace in examples/*.trace "$work/half.trace"; do
    name="$trace by its listing"
    said "$(by_ledger < "$trace")" "$(timeout 60 "$program" < "$trace")"
done
# the scenario of a day
name=examples/quarters/day.txt
bin/scenario examples/quarters/day.txt > "$work/in" || exit 1
said "$(cat examples/quarters/day.quarters)" "$(timeout 120 "$program" < "$work/in")"

counted
