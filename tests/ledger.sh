#!/usr/bin/env bash
# Runs the program ledger on traces and holds what it writes to documents 01 and 02. Status 0 where all is as it should be.
. "$(dirname "$0")/common.sh"
tools/made ledger > "$work/made" || exit 1
program=bin/ledger

# ends TEXT WORDS..: its last two lines
ends() {
    name="${*:2}"
    said "$1" "$(printed "${@:2}" | tail -n 2)"
}

# the worked example and nothing at all
gives "$(line 'S 1 2 0 2 0 0 0 0 0 0 0 0 0 0 1 0 0 0 0 1 0 0' 'E 1 2')" P 'Z:flags=1*2' M
gives 'E 0 0'
# the open second is not printed; the pending one is, at the end, once, before R and E
gives 'E 0 3' P 'Z*3'
gives "$(line 'S 1 3 3 0 0 0 0 0 0 0 0 0 0 0 0 0 0 0 0 0 0 0' 'E 1 5')" P 'Z*3' M 'Z*2'
gives "$(line 'S 1 1 1 0 0 0 0 0 0 0 0 0 0 0 0 0 0 0 0 0 0 0' 'R 14 158' 'E 1 1')" P Z M B:020002
gives "$(line 'S 1 1 1 0 0 0 0 0 0 0 0 0 0 0 0 0 0 0 0 0 0 0' 'R 14 158' 'E 1 1')" P Z M M -1
gives "$(line 'S 1 1 1 0 0 0 0 0 0 0 0 0 0 0 0 0 0 0 0 0 0 0' 'R 2 229' 'E 1 2')" P Z M Z Z:flags=4 M
gives "$(line 'S 1 1 1 0 0 0 0 0 0 0 0 0 0 0 0 0 0 0 0 0 0 0' 'S 2 0 0 0 0 0 0 0 0 0 0 0 0 0 0 0 0 0 0 0 0 0' 'R 16 162' 'E 2 1')" P Z M M P M
gives "$(line 'S 1 0 0 0 0 0 0 0 0 0 0 0 0 0 0 0 0 0 0 0 0 0' 'S 2 0 0 0 0 0 0 0 0 0 0 0 0 0 0 0 0 0 0 0 0 0' 'E 2 0')" P M M

# each refusal as the first record, after others, and across the border of the buffer: before 83 + 4 * 1003 = 4095, and 4083
# 14: fewer than 4 bytes, and a known kind that is cut, even as the first record
gives "$(line 'R 14 0' 'E 0 0')" B:02
gives "$(line 'R 14 0' 'E 0 0')" B:020002
gives "$(line 'R 14 0' 'E 0 0')" Z -1
gives "$(line 'R 14 0' 'E 0 0')" P -1
gives "$(line 'R 14 83' 'E 0 0')" P Z -67
gives "$(line 'R 14 154' 'E 0 1')" P Z P -79
ends "$(line 'R 14 4095' 'E 1003 0')" P 'M*1003' B:02
ends "$(line 'R 14 4083' 'E 1000 0')" P 'M*1000' Z -1
# 15: an unknown kind, also where its body is cut, and a wrong length
gives "$(line 'R 15 0' 'E 0 0')" B:02000400
gives "$(line 'R 15 0' 'E 0 0')" B:ff000900
gives "$(line 'R 15 0' 'E 0 0')" B:02000000
gives "$(line 'R 15 0' 'E 0 0')" B:0300020000
gives "$(line 'R 15 0' 'E 0 0')" B:45000200
gives "$(line 'R 15 0' 'E 0 0')" B:00000000
gives "$(line 'R 15 154' 'E 0 1')" P Z B:46000100
ends "$(line 'R 15 4095' 'E 1003 0')" P 'M*1003' B:02000400 M
# 16: the first record is no provisioning, or a later one is, also with bad fields
gives "$(line 'R 16 0' 'E 0 0')" Z
gives "$(line 'R 16 0' 'E 0 0')" Z:flags=4
gives "$(line 'R 16 0' 'E 0 0')" M
gives "$(line 'R 16 83' 'E 0 0')" P P
gives "$(line 'R 16 83' 'E 0 0')" P P:k=0
ends "$(line 'R 16 4083' 'E 1000 0')" P 'M*1000' P M
# 2 and 3: a frame's flags and counts, in this order
gives "$(line 'R 2 83' 'E 0 0')" P Z:flags=4,sm=9
gives "$(line 'R 3 83' 'E 0 0')" P Z:sm=9
gives "$(line 'R 3 154' 'E 0 1')" P Z:pm=8 Z:pm=9 Z
ends "$(line 'R 2 4083' 'E 1000 0')" P 'M*1000' Z:flags=255 Z
# 5 to 9: a provisioning
gives "$(line 'R 5 0' 'E 0 0')" P:k=0
gives "$(line 'R 5 0' 'E 0 0')" P:k=4,sthr=0
gives "$(line 'R 6 0' 'E 0 0')" P:sthr=0
gives "$(line 'R 6 0' 'E 0 0')" P:pthr=20421
gives 'E 0 0' P:pthr=20420
gives "$(line 'R 6 0' 'E 0 0')" P:k=2,sthr=82026,sdegm=1
gives 'E 0 0' P:k=3,sthr=329492
gives "$(line 'R 6 0' 'E 0 0')" P:k=3,sthr=0x01000001
gives "$(line 'R 7 0' 'E 0 0')" P:sdegm=1
gives "$(line 'R 7 0' 'E 0 0')" P:pdegm=11,smode=4
gives "$(line 'R 8 0' 'E 0 0')" P:pmode=4,sdis=3
gives "$(line 'R 9 0' 'E 0 0')" P:sdis=3
gives 'E 0 0' P:pdis=2
# 4: the 400,001st frame of a second
gives "$(line 'S 1 400000 61 0 0 399939 0 0 0 0 0 0 0 0 1 0 0 0 0 1 0 0' 'E 1 400000')" P 'Z*400000' M
gives "$(line 'R 4 28400083' 'E 0 400000')" P 'Z*400001' M
gives "$(line 'R 2 28400083' 'E 0 400000')" P 'Z*400000' Z:flags=4

# tandem levels, kind 4. 14 and 15 as for every kind
gives "$(line 'R 14 0' 'E 0 0')" L -1
gives "$(line 'R 14 83' 'E 0 0')" P L -40
gives "$(line 'R 14 127' 'E 0 0')" P L L:level=7 -1
gives "$(line 'R 15 83' 'E 0 0')" P B:2b000400
gives "$(line 'R 15 83' 'E 0 0')" P B:29000400
# 16: before the provisioning, and after a frame or a mark, also with bad fields
gives "$(line 'R 16 0' 'E 0 0')" L
gives "$(line 'R 16 0' 'E 0 0')" L:level=7
gives "$(line 'R 16 154' 'E 0 1')" P Z L
gives "$(line 'R 16 160' 'E 0 1')" P Z5 L:level=0,thr=0
gives "$(line 'S 1 0 0 0 0 0 0 0 0 0 0 0 0 0 0 0 0 0 0 0 0 0' 'R 16 87' 'E 1 0')" P M L
gives "$(line 'R 16 127' 'E 0 0')" P L P
# 18: no level, or given twice; before 6 to 9
gives "$(line 'R 18 83' 'E 0 0')" P L:level=0
gives "$(line 'R 18 83' 'E 0 0')" P L:level=7,degm=0
gives "$(line 'R 18 83' 'E 0 0')" P L:level=255
gives "$(line 'R 18 127' 'E 0 0')" P L L
gives "$(line 'R 18 171' 'E 0 0')" P L:level=6 L L:level=6,thr=0,name=7
# 6 to 9, DEGThr by the k of the provisioning
gives "$(line 'R 6 83' 'E 0 0')" P L:thr=20421
gives 'E 0 0' P L:thr=20420,degm=10,mode=3,dis=2
gives "$(line 'R 6 83' 'E 0 0')" P:k=2 L:thr=82026,degm=1
gives 'E 0 0' P:k=3 L:thr=329492
gives "$(line 'R 6 83' 'E 0 0')" P L:thr=0
gives "$(line 'R 7 83' 'E 0 0')" P L:degm=1,mode=4
gives "$(line 'R 7 127' 'E 0 0')" P L L:level=2,degm=11
gives "$(line 'R 8 83' 'E 0 0')" P L:mode=4,dis=3
gives "$(line 'R 9 83' 'E 0 0')" P L:dis=3
# frames with counts of levels, kind 5: 14, 15, 16
gives "$(line 'R 14 0' 'E 0 0')" Z5 -1
gives "$(line 'R 14 83' 'E 0 0')" P Z5 -6
gives "$(line 'R 15 83' 'E 0 0')" P B:45000500
gives "$(line 'R 15 83' 'E 0 0')" P B:4b000100
gives "$(line 'R 16 0' 'E 0 0')" Z5:t1=9
# 19: the other kind of frame, before 2, 3 and 4; a mark is of no kind
gives "$(line 'R 19 160' 'E 0 1')" P Z5 Z:sm=9
gives "$(line 'R 19 154' 'E 0 1')" P Z Z5:flags=4,t1=9
gives "$(line 'S 1 1 1 0 0 0 0 0 0 0 0 0 0 0 0 0 0 0 0 0 0 0 0 0 0 0 0' 'R 19 202' 'E 1 1')" P L Z M Z5
gives "$(line 'R 2 83' 'E 0 0')" P Z5:flags=4,t1=9
gives "$(line 'R 3 83' 'E 0 0')" P Z5:t6=9
for n in 1 2 3 4 5 6; do gives "$(line 'R 3 204' 'E 0 1')" P L Z5:t$n=8 Z5:t$n=9; done
gives "$(line 'R 3 83' 'E 0 0')" P Z5:pm=9
gives "$(line 'R 4 30800083' 'E 0 400000')" P 'Z5*400001' M
gives "$(line 'R 3 30800083' 'E 0 400000')" P 'Z5*400000' Z5:t4=9
# without a level kind 5 lists as kind 1, and so does kind 1 with one, but for the level's figures
gives "$(line 'S 1 10 10 0 0 0 0 0 0 0 0 0 10 10 0 0 10 10 10 0 0 80' 'E 1 10')" P 'G5:sm=1,pm=8,t1=8,t6=8,sst=0x10,pst=0x81*10' M
gives "$(line 'S 1 4 4 0 0 0 0 0 0 0 0 0 0 0 0 0 0 0 0 0 0 0 0 4 0 0 12' 'E 1 4')" P L:level=5 'G:st5=0x31*4' M
# dLTC from the third frame on: two are counted, and the path does not hear of it
gives "$(line 'S 1 5 5 0 0 0 0 0 0 0 0 0 5 0 0 0 0 5 0 0 0 0 2 0 1 0 0' 'E 1 5')" P L 'G5:sm=1,pm=1,t1=1,t2=1,t3=1,t4=1,t5=1,t6=1*5' M
# dIAE discards the level's second, and no other
gives "$(line 'S 1 9 9 0 0 0 0 0 0 0 0 0 9 0 0 0 0 9 0 0 0 0 0 0 0 0 0' 'E 1 9')" \
    P L:level=2 'G5:sm=1,pm=1,t2=1,st2=1*3' 'G5:sm=1,pm=1,t2=1,st2=0x12*3' 'G5:sm=1,pm=1,t2=1,st2=1*3' M
# dAIS of the path and of a level, levels 1 and 6
gives "$(line 'S 1 8 5 0 0 0 0 0 3 0 0 0 0 0 0 0 0 2 0 1 0 0 5 0 0 0 0 5 0 0 0 0' 'E 1 8')" \
    P L L:level=6 'G5:st1=1,st6=1,pst=1*3' 'G5:st1=1,st6=1,pst=7,pm=1,t1=1,t6=1*5' M
gives "$(line 'S 1 8 8 0 0 0 0 0 0 0 0 0 0 0 0 0 0 5 0 0 0 0 2 0 1 0 0 5 0 0 0 0' 'E 1 8')" \
    P L L:level=6 'G5:st1=1,st6=1,pst=1*3' 'G5:st1=7,st6=1,pst=1,pm=1,t1=1,t6=1*5' M
# dBIAE discards the far values
gives "$(line 'S 1 11 11 0 0 0 0 0 0 0 0 0 0 0 0 0 0 0 0 0 0 0 8 0 0 0 0' 'E 1 11')" P L:level=4 'G5:st4=1*3' 'G5:st4=0x89,t4=1*5' 'G5:st4=0xb9,t4=1*3' M
# the lowest level first, in whatever order they are given; all six
gives "$(line 'S 1 3 3 0 0 0 0 0 0 0 0 0 0 0 0 0 0 0 0 0 0 0 3 0 0 0 0 0 3 0 0 3' 'E 1 3')" P L:level=6 L:level=2 'G5:t2=1,st2=1,st6=0x11*3' M
gives "$(line 'S 1 6 6 0 0 0 0 0 0 0 0 0 0 0 0 0 0 0 0 0 0 0 6 0 0 0 0 0 6 0 0 6 2 0 1 0 0 0 0 0 0 0 6 0 0 0 0 0 6 0 1 48' 'E 1 6')" \
    P L:level={5,1,4,6,3,2} 'G5:t1=1,st1=1,st2=0x11,t3=1,t4=1,st4=2,t5=1,st5=1,st6=0x89*6' M
# bytes and counts of a level that is not provisioned: the same listing
name='another level'
said "$(printed P L:level=5 'G5:st5=0x11,t5=1*9' M)" "$(printed P L:level=5 'G5:st5=0x11,t5=1,tti4=85,st4=0xbf,t4=8*9' M)"
# records of levels across the border of the buffer
gives 'E 0 60' P L 'Z5*60'
ends "$(line 'R 3 4087' 'E 0 52')" P 'Z5*52' Z5:t1=9

# dIAE voids the five values of its second and of the one before, dBIAE the three of the far end: in the section, and in a level. BEI is 3
void='0 0 0 0 0'
s() { # NUMBER FRAMES FIVE: the line of a second whose frames are clear, with the five values of $whose
    case $whose in
    section) line "S $1 $2 $2 0 0 0 0 0 0 0 0 0 $3 $void" ;;
    level) line "S $1 $2 $2 0 0 0 0 0 0 0 0 0 $void $void $3" ;;
    esac
}
for whose in section level; do
    case $whose in
    section) first=(P) plain=G:sm=1,sst=0x30 iae=G:sm=1,sst=0x34 biae=G:sm=1,sst=0xb0 bdi=G:sm=1,sst=0x38 ;;
    level) first=(P L:level=2) plain=G5:t2=1,st2=0x31 iae=G5:t2=1,st2=0x32 biae=G5:t2=1,st2=0xb1 bdi=G5:t2=1,st2=0x39 ;;
    esac
    gives "$(s 1 10 "$void" && s 2 10 "$void" && s 3 10 '10 10 0 0 30' && line 'E 3 30')" "${first[@]}" "$plain*10" M "$iae*5" "$plain*5" M "$plain*10" M
    # the second before that is out of reach, and so is one that is closed after it
    gives "$(s 1 10 '10 10 0 0 30' && s 2 10 "$void" && s 3 5 "$void" && s 4 10 "$void" && s 5 10 '10 10 0 0 30' && line 'E 5 45')" \
        "${first[@]}" "$plain*10" M "$plain*10" M "$iae*5" M "$plain*10" M "$plain*10" M
    # the open second voids nothing, nor does an empty one
    gives "$(s 1 10 '10 10 0 0 30' && line 'E 1 15')" "${first[@]}" "$plain*10" M "$iae*5"
    gives "$(s 1 10 '10 10 0 0 30' && line 'R 15 '$((${#first[@]} == 1 ? 1152 : 1286)) 'E 1 15')" "${first[@]}" "$plain*10" M "$iae*5" B:02000000 M
    gives "$(s 1 10 '10 10 0 0 30' && s 2 0 "$void" && s 3 5 "$void" && line 'E 3 15')" "${first[@]}" "$plain*10" M M "$iae*5" M
    # the far end's: near values stay; far DS and sum go too
    gives "$(s 1 10 '10 0 0 0 0' && s 2 10 '10 0 0 0 0' && line 'E 2 20')" "${first[@]}" "$bdi*10" M "$biae*3" "$plain*7" M
    gives "$(s 1 10 '10 10 0 1 30' && s 2 4 '4 4 0 1 12' && line 'E 2 14')" "${first[@]}" "$bdi*10" M "$plain*4" M
    gives "$(s 1 10 "$void" && s 2 10 "$void" && line 'E 2 20')" "${first[@]}" "$bdi*10" M "$iae*10" M
done
# frames, heads and the path's values are never voided
gives "$(line 'S 1 10 7 3 0 0 0 0 0 0 0 0 0 0 0 0 0 7 0 1 0 0' 'S 2 5 5 0 0 0 0 0 0 0 0 0 0 0 0 0 0 5 0 0 0 0' 'E 2 15')" \
    P 'G:flags=1,sm=1,pm=1*3' 'G:sm=1,pm=1*7' M 'G:sm=1,pm=1,sst=4*5' M
# each level by its own, and the section by its own
gives "$(line "S 1 9 9 0 0 0 0 0 0 0 0 0 9 0 0 0 0 $void 9 9 0 0 9 $void" "S 2 9 9 0 0 0 0 0 0 0 0 0 9 0 0 0 0 $void 9 9 0 0 9 $void" 'E 2 18')" \
    P L:level=3 L:level=5 'G5:sm=1,t3=1,st3=0x11,t5=1,st5=0x11*9' M 'G5:sm=1,t3=1,st3=0x11,t5=1,st5=0x12*9' M

# blocks near and far in both layers
gives "$(line 'S 1 10 10 0 0 0 0 0 0 0 0 0 10 10 0 0 10 10 10 0 0 80' 'E 1 10')" P 'G:sm=1,pm=8,sst=0x10,pst=0x81*10' M
# The sum of the far end's violations. BEI 1 to 8 is a number, and all else adds nothing: 9, 0, 15, and 11, which alone is no dBIAE
clear() { line "S 1 $1 $1 0 0 0 0 0 0 0 0 0 ${*:2}"; } # FRAMES FIVES..: the line of one second whose frames are clear
sends() { for bei in "$@"; do printf '%s\n' "G5:sst=$((16 * bei)),pst=$((16 * bei + 1)),st3=$((16 * bei + 1))"; done; }
mapfile -t seven < <(sends 8 1 2 9 11 0 15)
gives "$(clear 7 0 3 0 0 11 0 3 0 0 11 && line 'E 1 7')" P "${seven[@]}" M
gives "$(clear 7 0 3 0 0 11 0 3 0 0 11 0 3 0 0 11 && line 'E 1 7')" P L:level=3 "${seven[@]}" M
for bei in {0..15}; do
    far="0 $((bei >= 1 && bei <= 8)) 0 0 $((bei >= 1 && bei <= 8 ? bei : 0))"
    gives "$(clear 1 "$far" "$far" "$far" && line 'E 1 1')" P L:level=3 "$(sends $bei)" M
done
# dBIAE is of section and levels: in the path three marks of it are none
mapfile -t mark < <(sends 5 11 11 11)
gives "$(clear 4 "$void" 0 1 0 0 5 "$void" && line 'E 1 4')" P L:level=3 "${mark[@]}" M
# it is stopped where blocks are: under TSF-P, in path and level under dAIS, dOCI and dLCK, in a level under dLTC; STAT counts from the third frame on
gives "$(line 'S 1 5 3 2 0 0 0 0 0 0 0 0 0 3 1 0 24 0 3 1 0 24' 'E 1 5')" P 'G:sst=0x80,pst=0x81*3' 'G:flags=1,sst=0x80,pst=0x81*2' M
for stat in 7:6 6:7 5:8; do
    under=(5 2 0 0 0 0 0 0 0 0 0)
    under[1 + ${stat#*:}]=3 # frames, then heads
    gives "$(line "S 1 ${under[*]} 0 5 0 0 40 0 2 1 0 16 0 2 1 0 16" 'E 1 5')" P L 'G:sst=0x80,pst='$((128 + ${stat%:*}))',st1='$((128 + ${stat%:*}))'*5' M
done
gives "$(clear 5 0 5 0 0 40 0 5 0 0 40 0 2 1 0 16 && line 'E 1 5')" P L 'G:sst=0x80,pst=0x80,st1=0x80*5' M
# dTIM, from frame 256 on, does not stop it: in the path, in a level, and in the section, where it acts and is SSF of path and level
gives "$(line 'S 1 300 255 0 0 0 0 0 0 0 0 45 0 300 0 0 600 0 300 1 0 2400 0 300 0 0 900' 'E 1 300')" \
    P:pmode=1,pname=1 L 'G:sst=0x20,pst=0x81,st1=0x31*300' M
gives "$(clear 300 0 300 0 0 600 0 300 0 0 2400 0 300 1 0 900 && line 'E 1 300')" P L:mode=1,name=1 'G:sst=0x20,pst=0x81,st1=0x31*300' M
gives "$(line 'S 1 300 255 0 0 0 0 45 0 0 0 0 0 300 1 0 600 0 255 1 0 2040 0 255 1 0 765' 'E 1 300')" \
    P:smode=1,sname=1 L 'G:sst=0x20,pst=0x81,st1=0x31*300' M
# the fullest second: 400,000 numbers of 8 in section, path and six levels
full='400000 400000 0 1 3200000'
gives "$(clear 400000 "$full" "$full" "$full" "$full" "$full" "$full" "$full" "$full" && line 'E 1 400000')" \
    P L:level={1..6} 'G5:sm=1,pm=1,t1=1,t2=1,t3=1,t4=1,t5=1,t6=1,sst=0x88,pst=0x89,st1=0x89,st2=0x89,st3=0x89,st4=0x89,st5=0x89,st6=0x89*400000' M
# losses of framing that are short: 5 frames without it and 2 with it give 2 in OOF, the first frame gives one; 62 in all are dLOF
short=(P 'G*2')
for _ in $(seq 31); do short+=('N*5' 'G*2'); done
gives "$(line 'S 1 219 216 0 0 3 0 0 0 0 0 0 0 0 1 0 0 0 0 1 0 0' 'E 1 219')" "${short[@]}" M
# every head, in six seconds
heads=(P:smode=1,pmode=1,sname=0x53,pname=0x50 'G:flags=1*3' 'G:flags=2*4' M
    'G:stti=0x53,ptti=0x50,pst=1*249' 'G:stti=0x53,ptti=0x50,pst=7*5' 'G:stti=0x53,ptti=0x50,pst=6*5' 'G:stti=0x53,ptti=0x50,pst=5*5' 'G:stti=0x53,ptti=0x50,pst=1*5' M
    'G:stti=0x53,ptti=0x58,pst=1*239' M 'G:stti=0x58,ptti=0x50,pst=1*255' M 'G:mfas=200,stti=0x58,ptti=0x50,pst=1*70' M 'Z*70' M)
text=$(line 'S 1 7 0 3 4 0 0 0 0 0 0 0 0 0 1 0 0 0 0 1 0 0' \
    'S 2 269 254 0 0 0 0 0 5 5 5 0 0 0 0 0 0 0 0 1 0 0' \
    'S 3 239 235 0 0 0 0 0 0 0 0 4 0 0 0 0 0 0 0 1 0 0' \
    'S 4 255 0 0 0 0 0 3 0 0 0 252 0 0 1 0 0 0 0 1 0 0' \
    'S 5 70 0 0 0 0 5 65 0 0 0 0 0 0 1 0 0 0 0 1 0 0' \
    'S 6 70 0 0 0 5 65 0 0 0 0 0 0 0 1 0 0 0 0 1 0 0' 'E 6 910')
gives "$text" "${heads[@]}"

# the same from a pipe, in pieces
"$work/trace" "${heads[@]}" > "$work/in"
pieced "$text"

# a reader at a pipe sees a second's line at the next mark, before the input ends, and the last one when it ends
waits P 'Z:flags=1*2' M
"$work/trace" M >&"$to"
sees 'S 1 2 0 2 0 0 0 0 0 0 0 0 0 0 1 0 0 0 0 1 0 0'
"$work/trace" 'Z*2' M >&"$to"
sees 'S 2 0 0 0 0 0 0 0 0 0 0 0 0 0 0 0 0 0 0 0 0 0'
exec {to}>&-
sees 'S 3 2 2 0 0 0 0 0 0 0 0 0 0 0 0 0 0 0 0 0 0 0'
sees 'E 3 4'

# it ends where a write fails, and on an input without end
stops P 'M*5000'

# the examples
for trace in examples/*.trace; do
    name=$trace
    said "$(cat "${trace%.trace}.listing")" "$(timeout 60 "$program" < "$trace")"
done

counted
