#!/usr/bin/env bash
# The table of docs/GATE.md from what the gate printed with the older kit, whose `rt ci` told seconds (today's tells none): bash tests/times.sh LOG. For each crate the seconds that its proof took, its must-fail edits and
# the seconds that they took together, as `rt ci` tells them: wall seconds, with as many crates at a time as there are processors.
set -euo pipefail
awk '
    /^rt: [a-z]+ proved \([0-9]+ s\)/ { name[++n] = $2; proof[$2] = substr($4, 2) }
    /^rt: must-fail .*refused, as it must be/ {
        split($3, at, "/")
        edits[at[1]]++
        match($0, /; [0-9]+ s\)/)
        tried[at[1]] += substr($0, RSTART + 2)
    }
    END {
        print "| crate | proof | edits | together |"
        print "|---|---|---|---|"
        for (i = 1; i <= n; i++) {
            c = name[i]
            printf "| `%s` | %d | %d | %d |\n", c, proof[c], edits[c], tried[c]
            p += proof[c]; e += edits[c]; t += tried[c]
        }
        printf "| all | %d | %d | %d |\n", p, e, t
    }' "$1"
