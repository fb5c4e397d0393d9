#!/usr/bin/env bash
# A user's first hour: the commands of bin/ as one meets them; docs/LISTING.md against the header, the programs and a trace's bytes; and each block of
# commands in the texts for users, run in order and as it stands in a fresh clone. Status 0 where all is as it should be.
. "$(dirname "$0")/common.sh"
for it in ledger explain quarters card; do tools/made "$it" > "$work/made" || exit 1; done
here=$PWD

# ran COMMAND..: leaves its status, what it wrote, and what it said on standard error
ran() {
    timeout 120 "$@" > "$work/out" 2> "$work/err"
    status=$?
}
# ends STATUS COMMAND..: it ends with this status
ends() {
    name="${*:2}"
    ran "${@:2}"
    said "$1" "$status"
}
# refuses PATTERN COMMAND..: status 2, one line on standard error, which has this, and nothing else
refuses() {
    ends 2 "${@:2}"
    said '' "$(cat "$work/out")"
    said 1 "$(wc -l < "$work/err")"
    said "a line with: $1" "$(grep -q -- "$1" "$work/err" && echo "a line with: $1" || cat "$work/err")"
}
lists() { # TEXT: what was written, and nothing said
    said "$1" "$(cat "$work/out")"
    said '' "$(cat "$work/err")"
}

### the commands

name='what stands in bin/'
said 'explain ledger quarters scenario timeline' "$(cd bin && echo *)"
for folder in second tools speed; do
    name="$folder/README.md"
    said yes "$([ -s "$folder/README.md" ] && echo yes)"
done

for command in ledger explain quarters; do
    only='^[SRE] ' worked=$(cat examples/worked.listing) damaged=$(cat examples/damaged.listing) first='S 1 0 0 0 0 0 0 0 0 0 0 0 0 0 0 0 0 0 0 0 0 0'
    if [ "$command" = quarters ]; then # both have one second: the sums are its figures
        only='^[QDRE] ' first='Q 0 1 900 0 0 0 0 0 0 0 0 0 0 0 0 0 0 0 0 0 0 0 0 0'
        worked=$(sed -E 's/^S 1 (.*)/Q 0 1 1 \1\nD 0 1 1 \1/' <<< "$worked")
        damaged=$(sed -E 's/^S 1 (.*)/Q 0 1 1 \1\nD 0 1 1 \1/' <<< "$damaged")
    fi
    ends 0 "bin/$command" examples/worked.trace
    said "$worked" "$(grep "$only" "$work/out")"
    said '' "$(cat "$work/err")"
    cp "$work/out" "$work/of_file"
    ends 0 "bin/$command" < examples/worked.trace
    lists "$(cat "$work/of_file")"
    ends 3 "bin/$command" examples/damaged.trace
    said "$damaged" "$(grep "$only" "$work/out")"
    for word in -h --help; do
        ends 0 "bin/$command" "$word"
        said "$command [FILE]" "$(head -n 1 "$work/out" | cut -d : -f 1)"
        said 'a few lines' "$([ "$(wc -l < "$work/out")" -le 6 ] && echo 'a few lines')"
        said '' "$(cat "$work/err")"
    done
    refuses 'there is no file nosuchfile' "bin/$command" nosuchfile
    refuses '2 arguments' "bin/$command" examples/worked.trace examples/damaged.trace
    refuses 'no option --list' "bin/$command" --list
    refuses 'is a folder' "bin/$command" examples
    refuses 'is a folder' "bin/$command" < examples
    refuses 'is closed' "bin/$command" <&-
    ends 0 "bin/$command" /dev/null
    lists 'E 0 0'

    # through a link of another name, from another folder
    ln -s "$here/bin/$command" "$work/link"
    cp examples/worked.trace "$work/w"
    name="a link to bin/$command"
    (cd "$work" && ./link w > out 2> err)
    said 0 $?
    lists "$(cat "$work/of_file")"
    rm "$work/link"

    # the reader goes away
    "$work/trace" P 'M*20000' > "$work/in"
    name="bin/$command and a reader that goes away"
    said "$first" "$(timeout 30 "bin/$command" "$work/in" 2> "$work/err" | head -n 1)"
    said '' "$(cat "$work/err")"

    # a signal to the command ends the program too: nobody is left to read
    name="bin/$command ended by a signal"
    mkfifo "$work/fifo"
    "bin/$command" < "$work/fifo" > "$work/out" &
    pid=$!
    exec {to}> "$work/fifo"
    { cat examples/worked.trace && "$work/trace" 'M*900'; } >&"$to" # the second mark has a second's line printed, the 901st a quarter-hour's
    for _ in {1..100}; do [ -s "$work/out" ] && break || sleep 0.1; done
    kill "$pid"
    wait "$pid"
    said 143 $?
    for _ in {1..100}; do (trap '' PIPE; echo >&"$to") 2> "$work/err" || break; sleep 0.1; done
    said yes "$(grep -q 'Broken pipe' "$work/err" && echo yes)"
    exec {to}>&-
    rm "$work/fifo"

    # at a terminal
    name="bin/$command at a terminal"
    if script -qec true /dev/null < /dev/null > /dev/null 2>&1; then
        typed=$(printf '\004' | timeout 60 script -qec "bin/$command" /dev/null | tr -d '\r')
        said "$(line "$command: a trace is awaited on standard input; $command --help tells how it is used" 'E 0 0')" "$typed"
    else
        echo "$0: $name: not tried, script opens no terminal here"
    fi
done

# without rt and cargo, nothing else being amiss: a path with the usual tools alone, and a tree in which nothing is built
mkdir "$work/path" "$work/tree"
for tool in bash cat chmod cp dirname find mkdir mktemp mv readlink rm tail tee timeout touch; do
    ln -s "$(command -v "$tool")" "$work/path/$tool"
done
refuses 'rt, .*not on the path' env PATH="$work/path" bin/ledger examples/worked.trace
refuses 'rt, .*not on the path' env PATH="$work/path" bin/explain examples/worked.trace
refuses 'rt, .*not on the path' env PATH="$work/path" bin/quarters examples/worked.trace
cp -R bin tools second "$work/tree"
mkdir -p "$work/tree/crates/ledger/src"
touch "$work/tree/crates.txt" "$work/tree/crates/ledger/src/main.rt"
rm -rf "$work/tree"/*/target
refuses 'cargo, .*not on the path' env PATH="$work/path" "$work/tree/bin/scenario"
refuses 'cargo, .*not on the path' env PATH="$work/path" "$work/tree/bin/timeline"

# with an rt that builds what it is told: what the status is by the last lines, and what is said while it is built
cat > "$work/path/rt" << 'RT'
#!/usr/bin/env bash
here=$(dirname "$0")
case $1 in
run) echo "rt: $*" && [ ! -e "$here/unproved" ] && mkdir -p out && cp "$here/program" out/ledger && touch out/ledger.stamp ;;
esac
RT
printf '#!/usr/bin/env bash\ncat "$work/text"\n' > "$work/path/program"
chmod +x "$work/path/rt" "$work/path/program"
built() { env PATH="$work/path" "$work/tree/bin/ledger" /dev/null; }
export -f built
export work
says() { # STATUS TEXT
    printf "$2" > "$work/text"
    name="a listing that is '$2'"
    ran bash -c built
    said "$1" "$status"
    said "$(printf "$2")" "$(cat "$work/out")"
}
touch "$work/path/unproved"
name='a program that is not proved'
ran bash -c built
said 2 "$status"
said '' "$(cat "$work/out")"
said yes "$(grep -q 'could not be built: rt: run' "$work/err" && echo yes)"
rm "$work/path/unproved"
says 0 'S 1 0\nE 1 0\n'
said 'ledger: building target/bin/ledger; this proves it, which takes some minutes' "$(cat "$work/err")"
says 0 'S 1 0\nE 1 0\n'
lists "$(line 'S 1 0' 'E 1 0')"
says 3 'S 1 0\nR 15 4\nE 1 0\n'
lists "$(line 'S 1 0' 'R 15 4' 'E 1 0')"
for cut in '' 'S 1 0\n' 'S 1 0\nR 15 4\n' 'S 1 0\nE 1' 'E 0 0\nS 1 0\n'; do
    says 1 "$cut"
    said 'ledger: the output is cut: its last line is not E' "$(cat "$work/err")"
done

### docs/LISTING.md

# row PATTERN: some row of a table begins with it
row() {
    name="docs/LISTING.md: a row | $1 |"
    said yes "$(grep -Eq "^\| $1 \|" docs/LISTING.md && echo yes)"
}
# enum NAME: its members in the header, with their numbers
enum() { sed -n "/^enum $1 {/,/^}/p" include/otn.h | sed -nE 's/^ *(OTN_[A-Z_]+) = ([0-9]+).*/\1 \2/p'; }
while read -r member at; do
    case $member in
    OTN_UNDER) row "$((at + 2)) to $((at + 11)) \| \`$member\`" ;;
    *) row "$((at + 2)) \| \`$member\`" ;;
    esac
done < <(enum otn_figure)
while read -r member at; do row "$((at + 24)) \| \`$member\`"; done < <(enum otn_level_figure)
while read -r member at; do
    case $member in
    OTN_SUMMARY_UNDER) row "$((at + 3)) to $((at + 12)) \| \`$member\`" ;;
    *) row "$((at + 3)) \| \`$member\`" ;;
    esac
done < <(enum otn_summary_figure)
while read -r member head; do row "$head \| $((head + 4)) \| \`$member\`"; done < <(enum otn_head)
while read -r member number; do
    [ "$number" = 0 ] || row "$number \| \`$member\` \| .* \| (yes|no)"
done < <(enum otn_refusal)
for number in {1..19}; do row "$number \| (\`OTN_[A-Z_]+\`)? ?\| .* \| (yes|no)"; done
# a trace for each number that is said to be met in a listing, and no other
met=
for words in 'P Z:flags=4' 'P Z:sm=9' 'P Z*400001' P:k=4 P:sthr=0 P:pdegm=1 P:smode=4 P:pdis=3 B:02 B:02000400 Z 'P L:level=7' 'P Z Z5'; do
    "$work/trace" $words > "$work/in"
    met+=$(bin/ledger "$work/in" | sed -n 's/^R \([0-9]*\) .*/ \1/p')
done
name='docs/LISTING.md: the refusals met in a listing'
said "$met" "$(sed -nE 's/^\| ([0-9]+) \|.*\| yes \|$/ \1/p' docs/LISTING.md | tr -d '\n')"

# the bytes of records: where a field's value shows
at() { # WORD FIELD OFFSET
    "$work/trace" "$1" > "$work/a"
    "$work/trace" "$1:$2=3" > "$work/b"
    name="docs/LISTING.md: $2 in a record"
    said "$(($3 + 1))" "$(cmp "$work/a" "$work/b" | sed -E 's/.*byte ([0-9]+),.*/\1/')"
}
# there a row of the record's table begins, and its length is the record's
shows() { # RECORD WORD FIELD=OFFSET..
    local table=$(sed -nE "/^A \*\*$1\*\*/,/^(A \*\*|##)/p" docs/LISTING.md) word=$2 pair
    name="docs/LISTING.md: the length of a $1"
    said "$(($("$work/trace" "$word" | wc -c) - 2))" "$(head -n 1 <<< "$table" | sed -E 's/.*length ([0-9]+)\).*/\1/')"
    for pair in "${@:3}"; do
        at "$word" "${pair%=*}" "${pair#*=}"
        said yes "$(grep -Eq "^\| ([0-9]+, )?${pair#*=}( to [0-9]+|, [0-9]+)? \|" <<< "$table" && echo yes)"
    done
}
shows frame Z flags=68 sm=69 pm=70 stti=11 sst=13 ptti=45 pst=47
shows frame N mfas=10
shows provisioning P k=4 sthr=5 sdegm=9 pthr=10 pdegm=14 smode=15 pmode=16 sdis=17 pdis=18 sname=19 pname=51
shows "level's provisioning" L level=4 thr=5 degm=9 mode=10 dis=11 name=12
shows "frame with the levels' counts" Z5 t1=71
levels=(- 42 39 36 30 27 24) # the trace byte of each
for n in {1..6}; do
    first=${levels[n]}
    at Z "tti$n" "$first"
    at Z "st$n" "$((first + 2))"
    at Z5 "t$n" "$((70 + n))"
    row "$first to $((first + 2)) \| $(((first - 4) / 16 + 1)), $(((first - 4) % 16 + 1)) to $(((first - 4) % 16 + 3)) \| level $n: .*"
done
# the worked example, byte by byte and column by column
name="docs/LISTING.md: the worked example's bytes"
section=$(sed -n '/^## The worked example/,$p' docs/LISTING.md)
said "$(od -A n -t x1 -v examples/worked.trace | tr -d ' \n')" "$(awk -F ' *[|] *' '
    $2 !~ /^[0-9]+$/ || $3 !~ /^[0-9a-f][0-9a-f]( |,|$)/ { next }
    $2 != at { print "offset " $2 " should be " at + 0 }
    { bytes = $3; times = 1 }
    split($3, part, ", ") == 2 { bytes = part[1]; times = part[2] + 0 }
    { gsub(/ /, "", bytes); while (times--) { printf "%s", bytes; at += length(bytes) / 2 } }' <<< "$section")"
name="docs/LISTING.md: the worked example's columns"
said "$(head -n 1 examples/worked.listing)" "$(awk -F ' *[|] *' '
    $2 == "column" { columns = 1; next }
    !columns || $3 !~ /^([0-9]+|S)$/ { next }
    { n = split($2, at, / to |, /); for (i = at[1]; i <= at[n]; i++) printf "%s%s", i == 1 ? "" : " ", $3 }' <<< "$section")"

### the texts for users

# each path that they name is there; what is built is not looked for
for text in README.md docs/BENCH.md docs/LISTING.md docs/CRATES.md docs/SPEED.md docs/GATE.md {examples,second,tools,speed}/README.md; do
    name="a path in $text"
    for path in $(grep -oE '(^|[^A-Za-z0-9_/.-])(bin|docs|examples|include|second|speed|tests|tools)/[A-Za-z0-9_/.-]*[A-Za-z0-9]' "$text" |
        sed -E 's/^[^a-z]//'); do
        case $path in */target/*) ;; *) said "$path" "$(ls -d "$path" 2> /dev/null || echo none)" ;; esac
    done
done
name='README.md is a screen or two'
said yes "$([ "$(wc -l < README.md)" -le 60 ] && echo yes)"

# A fresh clone: the files that git has, as they stand here, and none that was made. It has the programs and the archive that
# were built but `ledger`, whose first use has to build it: rt takes what it rests on from this checkout.
clone=$work/clone
mkdir -p "$clone" "$work/blocks"
{ git -c safe.directory='*' ls-files -z || find . -name target -prune -o -type f -print0; } 2> /dev/null | tar --null -T - -cf - | tar -xf - -C "$clone" || exit 1
git init -q "$clone" && git -C "$clone" add -A || exit 1
for it in explain quarters card_c; do
    mkdir "$clone/crates/$it/out"
    cp -p "crates/$it/out"/{explain,quarters,libcard_c.a} "$clone/crates/$it/out" 2> /dev/null
    [ -n "$(ls "$clone/crates/$it/out")" ] || exit 1
done

# A block is the lines that begin with four blanks. It is commands where its first word is one; it is output where it begins as a line of a listing, and
# then the commands before it in the same text have to have printed it; it is a scenario where it begins with a comment. Other blocks are forms and
# messages.
awk -v to="$work/blocks" '
    FNR == 1 { close(file); open = 0; text++ }
    !/^    / { open = 0; next }
    !open { open = 1; close(file); file = sprintf("%s/%d-%03d", to, text, ++n); print FILENAME ":" FNR > (file ".at") }
    { print substr($0, 5) > file }' README.md docs/BENCH.md docs/LISTING.md examples/README.md
commands='(bin|second|speed|tests|tools)/|(bash|cargo|cc|printf|rt) |\(cd |[a-z]+=\$\('
known=0
before=
for block in "$work"/blocks/*[0-9]; do
    name=$(cat "$block.at")
    [ "$before" = "${name%:*}" ] || : > "$work/printed"
    before=${name%:*}
    if head -n 1 "$block" | grep -Eq "^($commands)"; then
        # Left out: the gate, which runs this test; the archive, which takes a minute and which tests/card.sh has made. Where the processor is x86-64 there
        # is no emulator to run what is linked for it, and where it is another, cc does not link the archive.
        sed -i -E 's,^bash \.ci/run.*,test -f .ci/run,; s,^tools/made card.*,tools/made card >/dev/null,' "$block"
        case $(uname -m) in
        x86_64) sed -i 's,^$kit/on/$(uname -m)/toolchain/bin/qemu-x86_64 ,,' "$block" ;;
        *) sed -i '/^cc .*libcard\.a/d' "$block" ;;
        esac
        if grep -q '^clang ' "$block" && ! { command -v clang && command -v ld.lld; } > /dev/null; then
            echo "$0: $name: not tried, there is no clang or no ld.lld"
            known=$((known + 1))
            continue
        fi
        (cd "$clone" && timeout 300 bash -euo pipefail "$block") > "$work/out" 2> "$work/err"
        said 0 $?
        said '' "$(grep -vE '^(ledger|scenario|timeline): building ' "$work/err")"
        cat "$work/out" >> "$work/printed"
        known=$((known + 1))
        case $(cat "$block") in
        *'bin/explain my.trace'*) said "$(cat examples/scenarios/one-cut-once.explained)" "$(cat "$work/out")" ;;
        *'second --explain'*) said "$(cat examples/scenarios/one-cut-once.explained)" "$(cat "$work/out")" ;;
        *scenarios/tandem.txt*) said "$(cat examples/scenarios/tandem.explained)" "$(cat "$work/out")" ;;
        *quarters/day.txt*my.quarters*) said "$(cat examples/quarters/day.quarters)" "$(cat "$clone/my.quarters")" ;;
        *firmware*) said "$(cat examples/firmware.txt)" "$(cat "$work/out")" ;;
        esac
    elif grep -Eq '^[SREFQD] [0-9]' "$block"; then
        said yes "$([[ $(cat "$work/printed") == *"$(cat "$block")"* ]] && echo yes || cat "$block")"
    elif head -n 1 "$block" | grep -q '^# '; then
        said "$(cksum < "$clone/my.trace")" "$("$clone/bin/scenario" "$block" | cksum)"
    else
        said '' "$(grep -E "^($commands)" "$block")"
    fi
done
name='blocks of commands'
said yes "$([ "$known" -ge 9 ] && echo yes || echo "$known")"
name='the listing, the picture'
said "$(cat examples/scenarios/one-cut-once.listing)" "$(cat "$clone/my.listing")"
said '<svg ' "$(head -c 5 "$clone/my.svg")"
name='what the examples leave behind'
said '' "$(git -C "$clone" status --porcelain | sed '/^A  /d')"

counted
