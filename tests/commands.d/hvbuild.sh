# hvbuild: a text on standard input, the words of its image on standard output.
hvbuild=$bin/hvbuild
five='program 0 0 1 proc 0 out num 5'
sum='program 0 0 2 proc 1 then take 1 out call 1 loc 1 proc 0 if less num 0 loc 0 setloc 0 add loc 0 call 1 sub loc 0 num 1 skip'
cells='program 0 3 1 proc 0 then setcell num 2 num 9 then out cell num 2 out cell num 3'

# run NAME TEXT OUTPUT WORD..: the image of the text, run with the words as tape
run() {
    local name=$1 text=$2 output=$3
    shift 3
    check "$name" 0 "$text" "$output" '' bash -c "$hvbuild | $bin/hvmachine $*"
}

repeated() { local i; for ((i = 0; i < $1; i++)); do printf '%s ' "$2"; done; }

# a program with all the globals, cells, procedures, locals and signs that there may be; $1 halves more in the last number
largest() {
    printf 'program 256 4096 256 proc 64 '
    repeated 495 'then out num 5'
    printf 'out '
    repeated "$1" half
    printf 'num 4 '
    repeated 255 'proc 64 skip'
}

run 'five' "$five" '5\ndone'
run 'sum of a few' "$sum" '10\ndone' 4
run 'sum that has room' "$sum" '27336\ndone' 1168
run 'sum that has no room' "$sum" 'full' 1169
run 'three cells' "$cells" '9\nindex'
run 'a cell far behind the last is not wrapped' 'program 0 3 1 proc 0 out cell num 65535' 'index'
run 'a place is tested after the value is worked out' 'program 0 3 1 proc 0 setcell num 3 call 0 num 0' 'full'
run 'operands in order' 'program 0 0 1 proc 0 then out sub num 9 num 4 then out less num 1 num 2 out nand num 65535 num 65535' '5\n1\n0\ndone'
run 'a call keeps what waits' 'program 0 0 2 proc 0 out sub num 100 call 1 num 7 proc 3 then setloc 1 num 50 setloc 0 add loc 0 loc 3' '93\ndone'
run 'further locals are 0 at each call' 'program 0 0 2 proc 0 then out call 1 num 1 out call 1 num 1 proc 1 then setloc 0 loc 1 setloc 1 num 8' '0\n0\ndone'
run 'while' 'program 1 0 1 proc 1 then setloc 1 num 3 then while loc 1 then setglob 0 add glob 0 loc 1 setloc 1 sub loc 1 num 1 out glob 0' '6\ndone'
run 'if goes both ways' 'program 0 0 1 proc 0 then if num 1 out num 1 out num 2 if num 0 out num 3 out num 4' '1\n4\ndone'
run 'the largest program' "$(largest 2)" "$(lines 495 5)\n1\ndone"
check 'one sign too many' 1 "$(largest 3)" '' 'hvbuild: limits' $hvbuild
check 'the first words' 0 "$five" '22744...' '' $hvbuild
check 'listing' 0 "$five" '0 22744 low 4 216\n1 26879 high 4 255...' '' $hvbuild --listing
check 'no program' 1 'program 0 0 1 proc 0 out' '' 'hvbuild: no program' $hvbuild
check 'an empty text' 1 '' '' 'hvbuild: no program' $hvbuild
check 'outside the limits' 1 'program 257 0 1 proc 0 skip' '' 'hvbuild: limits' $hvbuild
check 'a local that is not there' 1 'program 0 0 1 proc 0 setloc 1 num 0' '' 'hvbuild: limits' $hvbuild
check 'help' 0 '' 'usage: hvbuild...' '' $hvbuild --help
check 'an unknown option' 1 '' '' "hvbuild: unknown option (--help lists them): '--fast'" $hvbuild --fast
check 'a text of as many bytes as there may be' 0 "$five$(printf '%1048546s' '')" '22744...' '' $hvbuild
check 'a text of too many bytes' 1 "$five$(printf '%1048547s' '')" '' 'more than 1048576 bytes' $hvbuild
check 'hvbuild: a word, though it has no tape' 1 "$five" '' "hvbuild: unknown option (--help lists them): '5'" $hvbuild 5
check 'hvbuild: an empty option' 1 "$five" '' "hvbuild: unknown option (--help lists them): ''" $hvbuild ''
check 'hvbuild: help reads no text' 0 'x' 'usage: hvbuild...' '' $hvbuild --help
check 'hvbuild: a listing of no program' 1 'x' '' 'hvbuild: no program' $hvbuild --listing
check 'hvbuild: a number of 65536' 1 'program 0 0 1 proc 0 out num 65536' '' 'hvbuild: limits' $hvbuild
