# Looks for the lookup in a function's x86-64 code as objdump writes it, and prints what is wrong with it; nothing where all is well.
#
# The lookup is the stretch from where the table's address is taken, or from the first of sixteen 16-byte stores that lay the table on the stack, to the load of a byte by a
# number. No jump may lead out of this stretch or into it; and what its block takes for that number comes as bytes, yes or no, each given its weight in the block: a wide register that comes in from before
# could hold a part of the sum that was chosen by a jump.

# the 64-bit register that a name is a part of
function whole(r) {
    sub(/^%/, "", r)
    if (r ~ /^r[0-9]+[dwb]?$/) { sub(/[dwb]$/, "", r); return r }
    sub(/^[er]/, "", r)
    if (r ~ /^[abcd][lh]$/) r = substr(r, 1, 1) "x"
    sub(/l$/, "", r)
    return "r" r
}

/^ +[0-9a-f]+:/ {
    n++
    line[n] = $0
    at = $1; sub(/:$/, "", at); here[n] = at
    text = $0; sub(/^[^\t]*\t/, "", text); sub(/ *#.*/, "", text)
    op[n] = text; sub(/[ \t].*/, "", op[n])
    arg[n] = text; sub(/^[^ \t]+[ \t]*/, "", arg[n])
    if (op[n] ~ /^j/) { jumps[n] = 1; to = arg[n]; sub(/^0x/, "", to); sub(/ .*/, "", to); entered[to] = 1 }
    if (op[n] ~ /^(mov[au]ps|movdq[au])$/ && arg[n] ~ /^%xmm[0-9]+, [0-9]*\(%rsp\)$/) { slot = arg[n]; sub(/.*, /, "", slot); laid[n] = slot + 0; lays[n] = 1 }
}

END {
    for (i = 1; i <= n && !first; i++) if (i in lays) {
        split("", seen); rows = 0
        for (j = i; j <= n && j < i + 64 && !(j in jumps); j++)
            if ((j in lays) && laid[j] >= laid[i] && laid[j] < laid[i] + 256 && (laid[j] - laid[i]) % 16 == 0 && !(laid[j] in seen)) { seen[laid[j]]; rows++; last = j }
        if (rows == 16) first = i
    }
    if (first) for (load = last; load <= n; load++) if (op[load] == "movzbl" && arg[load] ~ /^[0-9]*\(%r/ && arg[load] !~ /^[0-9]*\(%rsp\)/) break
    for (i = 1; i <= n && !first; i++) if (op[i] == "leaq" && arg[i] ~ /^\(%rip\), %r/) {
        split("", holds) # the registers that hold the table's address and a number
        holds[substr(arg[i], index(arg[i], ", ") + 2)]
        for (j = i + 1; j <= n && op[j] != "callq" && !first; j++) {
            from = arg[j]; sub(/, *%[a-z0-9]+$/, "", from)
            to = arg[j]; sub(/.*, */, "", to)
            of = 0
            while (match(from, /%r[a-z0-9]+/)) { if (substr(from, RSTART, RLENGTH) in holds) of = 1; from = substr(from, RSTART + RLENGTH) }
            if (op[j] == "movzbl" && of && arg[j] ~ /^\(/) { first = i; load = j }
            else if ((op[j] == "leaq" || op[j] == "addq" || op[j] == "movq") && of) holds[to]
            else if (op[j] != "addq" && arg[j] ~ /, *%r[a-z0-9]+$/) delete holds[to]
        }
    }
    if (!first) { print "no table is found"; exit }
    for (i = first; i < load; i++) if ((i in jumps) || (here[i + 1] in entered)) print "a jump between the table and its entry: " line[i]
    for (start = first; start > 1 && !((start - 1) in jumps) && !(here[start] in entered); start--);
    for (i = start; i <= load && i <= n; i++) {
        if (op[i] ~ /^(addq|orq|leaq)$/ || i == load) {
            from = arg[i]
            if (op[i] == "leaq" || i == load) sub(/, *%[a-z0-9]+$/, "", from)
            while (match(from, /%r[a-z0-9]+/)) {
                r = substr(from, RSTART, RLENGTH); from = substr(from, RSTART + RLENGTH)
                if (r != "%rsp" && r != "%rip" && !(whole(r) in made)) print "a part of the entry's number comes from before: " line[i]
            }
        }
        if (match(arg[i], /%[a-z0-9]+$/)) made[whole(substr(arg[i], RSTART))]
    }
}
