#!/usr/bin/env bash
# Holds docs/ and the header to the crates: the table of CRATES.md names each crate; each definition that CLAUSES.md names stands where it says; the
# header's bits and words are those of the tables in specs/; PROMISES.md names each must-fail edit and each refutation under its crate, and none that
# is not there. Status 0 where all is so.
set -euo pipefail
cd "$(dirname "$0")/.."
wrong=0
says() { echo "docs: $*"; wrong=1; }
# tokens TEXT: what stands between backticks, a line each
tokens() { grep -o '`[^`]*`' <<<"$1" | tr -d '`' || true; }

while IFS=": " read -r crate _; do
    grep -q "^| .*\`$crate\`.* |" docs/CRATES.md || says "CRATES.md does not name the crate $crate"
done <crates.txt

while IFS= read -r place; do
    file=${place%% *}
    path=crates/${file%/*}/specs/${file#*/}.antt
    [ -f "$path" ] || { says "CLAUSES.md: there is no $path"; continue; }
    for name in $(tokens "$place"); do
        grep -Eq "(pub $name :|pub record $name\b|pub data $name\b|  pub $name :)" "$path" || says "CLAUSES.md: $path does not have $name"
    done
done < <(grep '^|' docs/CLAUSES.md | grep -oE '[a-z]+/[A-Z][A-Za-z0-9]+( `[A-Za-z0-9_]+`(, `[A-Za-z0-9_]+`)*)?')

# the header's numbers, against the tables of the statements: the bits of a report and of a level's, a record's words and a level's in it
while read -r name from width; do
    case $width in
    1) grep -Eq "^#define $name\(r\) otn_report_bit\(r, $from\)$" include/otn.h || says "include/otn.h: $name is not bit $from" ;;
    *)
        mask=$(((1 << width) - 1))
        shift=" >> $from & $mask"
        [ "$from" = 0 ] && shift=" & $(printf '0x%x' "$mask")"
        grep -Eq "^static inline unsigned $name\(uint64_t [a-z]+\) \{ return \(unsigned\)\([a-z]+$shift\); \}$" include/otn.h ||
            says "include/otn.h: $name is not $width bits from $from"
        ;;
    esac
done < <(sed -nE 's/^ *(∷ )?bits "([A-Za-z_]+)" ([0-9]+) ([0-9]+) .*/\2 \3 \4/p' crates/word/specs/Table.antt)
while read -r name at; do
    grep -Eq "^    $name = $at\b" include/otn.h || says "include/otn.h: $name is not word $at"
done < <(sed -nE 's/^ *(∷ )?(word|level_word) "([A-Za-z_]+)" ([0-9]+) .*/\3 \4/p' crates/calls/specs/Words.antt)
for name in $(grep -oE '^#define [A-Z_]+\(r\) otn_report_bit' include/otn.h | sed -E 's/#define ([A-Z_]+).*/\1/'); do
    grep -q "bits \"$name\" " crates/word/specs/Table.antt || says "include/otn.h: no table has $name"
done
# tabled ENUM ROW: each member of the enum has such a row
tabled() {
    for name in $(sed -n "/^enum $1 /,/^}/p" include/otn.h | grep -oE 'OTN_[A-Z_]+'); do
        grep -Eq "(^| )$2 \"$name\" " crates/calls/specs/Words.antt || says "include/otn.h: no table has $name"
    done
}
tabled otn_figure word
tabled otn_level_figure level_word

# the rows of functions: | `crate::name` .. | what | edits | refutations |; those of theorems end in edits as crate/label
named=$(mktemp)
trap 'rm -f "$named"' EXIT
while IFS='|' read -r _ function _ edits refuted _; do
    crate=$(tokens "$function" | head -n 1)
    crate=${crate%%::*}
    for label in $(tokens "$edits"); do echo "$crate/$label"; done >>"$named"
    for law in $(tokens "$refuted"); do
        grep -q "pub $law :" "crates/$crate/proofs/Refuted.antt" || says "PROMISES.md: crates/$crate/proofs/Refuted.antt does not have $law"
        echo "$crate/proofs/$law" >>"$named"
    done
done < <(grep -E '^\| `[a-z]+::' docs/PROMISES.md)
grep -oE '`[a-z_]+/[a-z0-9_]+`' docs/PROMISES.md | tr -d '`' >>"$named" || true
while IFS= read -r edit; do
    case $edit in
    */proofs/*) ;;
    *) [ -f "crates/${edit%/*}/must-fail/${edit#*/}.edit" ] || says "PROMISES.md: there is no edit $edit" ;;
    esac
done <"$named"
for edit in crates/*/must-fail/*.edit; do
    crate=$(basename "$(dirname "$(dirname "$edit")")")
    grep -qx "$crate/$(basename "$edit" .edit)" "$named" || says "PROMISES.md does not name the edit $crate/$(basename "$edit" .edit)"
done
for laws in crates/*/proofs/Refuted.antt; do
    crate=$(basename "$(dirname "$(dirname "$laws")")")
    while read -r law; do
        grep -qx "$crate/proofs/$law" "$named" || says "PROMISES.md does not name the refutation $law of $crate"
    done < <(sed -nE 's/^ *pub ([^ ]+) :.*/\1/p' "$laws")
done
[ "$wrong" = 0 ] && echo "docs: every crate, definition, number, edit and refutation is named where it stands"
exit "$wrong"
