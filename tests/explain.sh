#!/usr/bin/env bash
# Runs the program explain on traces and holds what it writes to documents 01 and 02 and docs/BENCH.md. Status 0 where all is as it should be.
. "$(dirname "$0")/common.sh"
tools/made ledger > "$work/made" || exit 1
tools/made explain > "$work/made" || exit 1
program=bin/explain

all() { printf "$1%.0s" {1..64}; } # a trace of 64 times this character
aligned=$(line 'F 1 2 2 +IF' 'F 1 3 3 +IM') # good frames from the first one on

# nothing, and frames at which nothing changes
gives 'E 0 0'
gives 'E 0 0' P
gives 'E 0 3' P 'Z*3'
# the worked example
failing='+SM.SSF +PM.SSF +SM.aTSF +SM.aBDI +PM.aTSF +PM.aBDI'
gives "$(line "F 1 1 1 +TSF-P $failing +SM.cSSF +PM.cSSF head=1" 'S 1 2 0 2 0 0 0 0 0 0 0 0 0 0 1 0 0 0 0 1 0 0' 'E 1 2')" P 'Z:flags=1*2' M
# both flags, and one of them less
gives "$(line "F 1 1 1 +TSF-P +OTUk-AIS $failing +SM.cSSF +PM.cSSF head=1" 'F 1 2 2 -TSF-P head=2' 'E 0 2')" P Z:flags=3 Z:flags=2
# the number of the second, of the frame in it, and of the frame in the trace
empty='0 0 0 0 0 0 0 0 0 0 0 0 0 0 0 0 0 0 0 0 0'
gives "$(line "S 1 $empty" 'F 3 2 2 +IF' "S 2 $empty" 'F 4 1 3 +IM' 'S 3 2 2 0 0 0 0 0 0 0 0 0 0 0 0 0 0 0 0 0 0 0' 'E 3 3')" P M M 'G*2' M G

# a refusal: the frame refused has no line
gives "$(line 'R 16 0' 'E 0 0')" Z:flags=1
gives "$(line 'F 1 2 2 +IF' 'R 2 225' 'E 0 2')" P 'G*2' G:flags=4 'G*9'
gives "$(line 'F 1 2 2 +IF' 'R 14 225' 'E 0 2')" P 'G*2' G:flags=1 -1
# the pending second comes after the lines of the open one, and before the refusal
two='S 1 2 2 0 0 0 0 0 0 0 0 0 0 0 0 0 0 0 0 0 0 0'
gives "$(line 'F 1 2 2 +IF' "$two" 'R 2 229' 'E 1 2')" P 'G*2' M G:flags=4
gives "$(line 'F 1 2 2 +IF' 'F 2 1 3 +IM' "$two" 'R 14 300' 'E 1 3')" P 'G*2' M G G -1
gives "$(line "F 1 62 62 +dLOF +dLOM $failing +cLOF +SM.cSSF +PM.cSSF head=3" 'R 4 28400083' 'E 0 400000')" P 'Z*400000' Z:flags=1

# the printed bytes of a trace: cycles begin at frame 65, and three of them end at 256
cycle=()
for byte in 31 32 34 126 127 0 255 92; do cycle+=("G:stti=$byte,ptti=$((byte ^ 1))"); done
cycle+=('G:stti=33,ptti=48*56')
section='. "~...\'$(printf '!%.0s' {1..56})
path='.!#.~..]'$(printf '0%.0s' {1..56})
gives "$(line "$aligned" "F 1 256 256 SM.trace=\"$section\" PM.trace=\"$path\"" 'E 0 256')" P 'G*64' "${cycle[@]}" "${cycle[@]}" "${cycle[@]}"

# a trace replaced by another, in each layer; the same again is not told
accepted="F 1 256 256 SM.trace=\"$(all A)\" PM.trace=\"$(all P)\""
gives "$(line "$aligned" "$accepted" "F 1 448 448 SM.trace=\"$(all B)\"" "F 1 640 640 PM.trace=\"$(all Q)\"" 'E 0 832')" \
    P 'G:stti=65,ptti=80*256' 'G:stti=66,ptti=80*192' 'G:stti=66,ptti=81*384'
# one that is not expected: of the section, where the path's is forgotten, and of the path
raised='+PM.SSF +SM.aTSF +SM.aBDI +PM.aTSF +PM.aBDI'
gives "$(line "$aligned" "$accepted" "F 1 448 448 +SM.dTIM $raised +SM.cTIM +PM.cSSF head=5 SM.trace=\"$(all B)\" -PM.trace" 'E 0 448')" \
    P:smode=1,sname=65 'G:stti=65,ptti=80*256' 'G:stti=66,ptti=80*192'
gives "$(line "$aligned" "$accepted" "F 1 448 448 +PM.dTIM +PM.aTSF +PM.aBDI +PM.cTIM head=9 PM.trace=\"$(all Q)\"" 'E 0 448')" \
    P:pmode=2,pname=80 'G:stti=65,ptti=80*256' 'G:stti=65,ptti=81*192'
# forgotten under SSF in both layers, and accepted again: the next cycle begins at 321
clearing=${failing//+/-}
gives "$(line "$aligned" "$accepted" "F 1 257 257 +OTUk-AIS $failing +SM.cSSF +PM.cSSF head=2 -SM.trace -PM.trace" \
    "F 1 258 258 -OTUk-AIS $clearing -SM.cSSF -PM.cSSF head=0" "F 1 512 512 SM.trace=\"$(all A)\" PM.trace=\"$(all P)\"" 'E 0 512')" \
    P 'G:stti=65,ptti=80*256' G:flags=2,stti=65,ptti=80 'G:stti=65,ptti=80*255'
# forgotten under dAIS, in the path alone; dOCI and dLCK follow at once
gives "$(line "$aligned" "$accepted" 'F 1 259 259 +PM.dAIS +PM.aTSF +PM.aBDI +PM.cSSF head=6 -PM.trace' \
    'F 1 262 262 -PM.dAIS +PM.dOCI +PM.cOCI -PM.cSSF head=7' 'F 1 265 265 -PM.dOCI +PM.dLCK -PM.cOCI +PM.cLCK head=8' \
    'F 1 268 268 -PM.dLCK -PM.aTSF -PM.aBDI -PM.cLCK head=0' 'E 0 268')" P 'G:stti=65,ptti=80*256' 'G:pst=7*3' 'G:pst=6*3' 'G:pst=5*3' 'G:pst=1*3'

# dDEG is told with the frame after the mark, here in each layer after seconds of its own
bad='3 3 0 0 0 0 0 0 0 0 0 3 0 0 0 0 3 0 0 0 0'
clear='1 1 0 0 0 0 0 0 0 0 0 0 0 0 0 0 0 0 0 0 0'
gives "$(line "$aligned" "S 1 $bad" 'F 3 1 7 +PM.dDEG +PM.aTSD +PM.cDEG' "S 2 $bad" 'F 4 1 10 +SM.dDEG +SM.aTSD +SM.cDEG' "S 3 $bad" "S 4 $clear" \
    'F 6 1 11 -PM.dDEG -PM.aTSD -PM.cDEG' "S 5 $empty" 'F 7 1 12 -SM.dDEG -SM.aTSD -SM.cDEG' "S 6 $clear" 'E 6 12')" \
    P:sdegm=3 'G:sm=1,pm=8*3' M 'G:sm=8,pm=1*3' M 'G:sm=1,pm=1*3' M G M M G M G
# in both at once, with what that frame brings
gives "$(line "$aligned" "S 1 $bad" \
    "F 3 1 7 +TSF-P +SM.SSF +SM.dDEG +PM.SSF +PM.dDEG +SM.aTSF +SM.aTSD +SM.aBDI +PM.aTSF +PM.aTSD +PM.aBDI +SM.cSSF +PM.cSSF head=1" \
    "F 3 2 8 -TSF-P $clearing +SM.cDEG -SM.cSSF +PM.cDEG -PM.cSSF head=0" "S 2 $bad" 'E 2 8')" P 'G:sm=1,pm=1*3' M 'G:sm=1,pm=1*3' M G:flags=1 G
# raised and cleared again with no frame between: nothing changed
gives "$(line "$aligned" "S 1 $bad" "S 2 $bad" "S 3 $empty" "S 4 $empty" 'E 4 7')" P 'G:sm=1,pm=1*3' M 'G:sm=1,pm=1*3' M M M G

# an alignment error voids the second before, whose line stands behind it; dDEG, raised by that second, stays
near() { line "S $1 10 10 0 0 0 0 0 0 0 0 0 $2 0 0 0 0 0 0 0 0 0"; }
gives "$(line "$aligned" 'F 2 5 15 +SM.dIAE +SM.aBIAE' 'F 2 10 20 -SM.dIAE -SM.aBIAE' && near 1 0 && near 2 0 && near 3 10 && line 'E 3 30')" \
    P 'G:sm=1*10' M 'G:sm=1,sst=4*5' 'G:sm=1*5' M 'G:sm=1*10' M
gives "$(line "$aligned" && near 1 10 && line 'F 3 1 21 +SM.dDEG +SM.aTSD +SM.cDEG' 'F 3 5 25 +SM.dIAE +SM.aBIAE' && near 2 0 &&
    line 'F 4 5 35 -SM.dIAE -SM.aBIAE' && near 3 0 && line 'E 3 35')" P 'G:sm=1*10' M 'G:sm=1*10' M 'G:sm=1,sst=4*10' M 'G*5'

# the sum of the far end's violations is in S, and BEI changes nothing that F tells but by dBIAE
gives "$(line "$aligned" 'S 1 6 6 0 0 0 0 0 0 0 0 0 0 3 0 0 11 0 3 0 0 11' 'E 1 6')" \
    P G:sst=0x80,pst=0x81 G:sst=0x10,pst=0x11 G:sst=0x20,pst=0x21 G:sst=0x90,pst=0x91 G:sst=0xb0,pst=0xb1 G:sst=0xf0,pst=0xf1 M
gives "$(line "$aligned" 'F 1 4 4 +SM.dBIAE +TCM2.dBIAE' 'S 1 4 4 0 0 0 0 0 0 0 0 0 0 0 0 0 0 0 1 0 0 5 0 0 0 0 0' 'E 1 4')" \
    P L:level=2 G:sst=0x50,pst=0x51,st2=0x51 'G:sst=0xb0,pst=0xb1,st2=0xb1*3' M

# BDI in both layers; IAE and BIAE
gives "$(line "$aligned" 'F 1 5 5 +SM.dBDI +PM.dBDI +SM.cBDI +PM.cBDI' 'F 1 10 10 -SM.dBDI -PM.dBDI -SM.cBDI -PM.cBDI' 'E 0 10')" \
    P 'G:sst=8,pst=8*5' 'G*5'
gives "$(line 'F 1 2 2 +IF' 'F 1 3 3 +IM +SM.dBIAE' 'F 1 5 5 +SM.dIAE +SM.aBIAE' 'F 1 8 8 -SM.dBIAE' 'F 1 10 10 -SM.dIAE -SM.aBIAE' 'E 0 10')" \
    P 'G:sst=0xb4*5' 'G*5'
# MFAS sticks: out of multiframe at the fifth other one, dLOM 61 frames later, and over at the second right one
gives "$(line "$aligned" 'F 1 8 8 -IM' "F 1 69 69 +dLOM $failing +cLOM +SM.cSSF +PM.cSSF head=4" \
    "F 1 75 75 +IM -dLOM $clearing -cLOM -SM.cSSF -PM.cSSF head=0" 'E 0 75')" P 'G*3' 'G:mfas=200*70' 'G*2'

# tandem levels: none is told that is not provisioned, whatever its bytes; a refusal has no line
gives "$(line "$aligned" 'E 0 5')" P 'G5:st1=7,tti1=9,t1=8*5'
gives "$(line "$aligned" 'R 19 384' 'E 0 3')" P L:level=2 L:level=3 'G:st2=1,st3=1*3' 'G5*2'
# dLTC at the third STAT 000; SSF forgets the STAT, and aTSF stands on
told="F 1 3 3 +IM +TCM1.dLTC +TCM1.aTSF +TCM1.cLTC"
gives "$(line 'F 1 2 2 +IF' "$told" "F 1 6 6 +TSF-P $failing +SM.cSSF +PM.cSSF +TCM1.SSF -TCM1.dLTC +TCM1.cSSF -TCM1.cLTC head=1" \
    "F 1 8 8 -TSF-P $clearing -SM.cSSF -PM.cSSF -TCM1.SSF -TCM1.aTSF -TCM1.cSSF head=0" \
    'F 1 10 10 +TCM1.dLTC +TCM1.aTSF +TCM1.cLTC' 'S 1 12 10 2 0 0 0 0 0 0 0 0 0 0 1 0 0 0 0 1 0 0 4 0 1 0 0' 'E 1 12')" \
    P L 'G5:t1=1*5' 'G5:flags=1,t1=1*2' 'G5:t1=1*5' M
# levels after the path, the lowest first, each in the order of otn_level_report's bits
gives "$(line 'F 1 2 2 +IF' 'F 1 3 3 +IM +PM.dLCK +PM.aTSF +PM.aBDI +PM.cLCK +TCM2.dAIS +TCM2.aTSF +TCM2.cSSF +TCM5.dOCI +TCM5.aTSF +TCM5.cOCI head=8' \
    'F 1 5 5 +TCM5.dBDI' 'F 1 8 8 -PM.dLCK -PM.aTSF -PM.aBDI -PM.cLCK -TCM2.dAIS -TCM2.aTSF -TCM2.cSSF -TCM5.dOCI -TCM5.aTSF -TCM5.cOCI +TCM5.cBDI head=0' 'E 0 8')" \
    P L:level=5 L:level=2 'G:pst=5,st2=0x0f,st5=0x0e*5' 'G:pst=1,st2=1,st5=9*3'
# BIAE in BEI, and IAE by STAT
gives "$(line 'F 1 2 2 +IF' 'F 1 3 3 +IM +TCM4.dIAE +TCM4.dBIAE' 'F 1 6 6 -TCM4.dBIAE' 'F 1 9 9 -TCM4.dIAE' 'E 0 9')" \
    P L:level=4 'G5:st4=0xb2*3' 'G5:st4=2*3' 'G5:st4=1*3'
# a level's trace after the path's: dTIM masks dIAE, acting or not, and dAIS forgets the trace; the accepted STAT stays
for dis in 0 1; do
    acts=([0]='+TCM3.aTSF ' [1]='') then=([0]='' [1]='+TCM3.aTSF ')
    gives "$(line 'F 1 2 2 +IF' 'F 1 3 3 +IM +TCM3.dIAE' \
        "F 1 256 256 +TCM3.dTIM -TCM3.dIAE ${acts[dis]}+TCM3.cTIM ${accepted#F 1 256 256 } TCM3.trace=\"$(all X)\"" \
        "F 1 259 259 +TCM3.dAIS -TCM3.dTIM ${then[dis]}+TCM3.cSSF -TCM3.cTIM -TCM3.trace" 'E 0 259')" \
        P L:level=3,mode=1,name=1,dis=$dis 'G:stti=65,ptti=80,tti3=88,st3=2*256' 'G:stti=65,ptti=80,tti3=88,st3=7*3'
done
# a level's dDEG is told with the frame after the mark
gives "$(line "$aligned" "S 1 ${clear//1 1/3 3} 3 0 0 0 0" 'F 3 1 7 +TCM6.dDEG +TCM6.aTSD +TCM6.cDEG' "S 2 ${clear//1 1/3 3} 3 0 0 0 0" 'E 2 7')" \
    P L:level=6 'G5:t6=1,st6=1*3' M 'G5:t6=2,st6=1*3' M G5:st6=1

# the same from a pipe, in pieces of 7 bytes, and an input without end
"$work/trace" P 'G:stti=65,ptti=80*300' M 'G:flags=2*3' > "$work/in"
name='pieces of 7 bytes'
text=$(line "$aligned" "$accepted" "F 2 1 301 +OTUk-AIS $failing +SM.cSSF +PM.cSSF head=2 -SM.trace -PM.trace" \
    'S 1 300 300 0 0 0 0 0 0 0 0 0 0 0 0 0 0 0 0 0 0 0' 'E 1 303')
said "$text" "$(dd bs=7 if="$work/in" 2> /dev/null | timeout 120 bin/explain)"
name='zeros without end'
said "$(line 'R 15 0' 'E 0 0')" "$(timeout 60 bin/explain < /dev/zero)"

# the scenarios: the listing, what stands among its lines, and the explanation where it is short enough to be kept
for scenario in examples/scenarios/*.txt; do
    name=$scenario
    listing=$(cat "${scenario%.txt}.listing")
    explained=${scenario%.txt}.explained
    bin/scenario "$scenario" > "$work/in" || exit 1
    said "$listing" "$(timeout 120 bin/ledger < "$work/in")"
    timeout 120 bin/explain < "$work/in" > "$work/out"
    said "$listing" "$(grep -v '^F ' "$work/out")"
    [ ! -e "$explained" ] || said "$(cat "$explained")" "$(cat "$work/out")"
done

counted
