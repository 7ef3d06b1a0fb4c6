# hvlang: a text on standard input, the tape as arguments. The answers are worked out by hand from the language's rules.
hvlang=$bin/hvlang

# lang NAME TEXT OUTPUT WORD..: the program runs and prints this
lang() {
    local name=$1 text=$2 output=$3
    shift 3
    check "$name" 0 "$text" "$output" '' $hvlang "$@"
}

sum='program 0 0 2 proc 1 then take 1 out call 1 loc 1 proc 0 if less num 0 loc 0 setloc 0 add loc 0 call 1 sub loc 0 num 1 skip'
lang 'sum of 4' "$sum" '10\ndone' 4
lang 'sum of 1168: the deepest that fits' "$sum" '27336\ndone' 1168
lang 'sum of 1169: no room for a frame' "$sum" 'full' 1169
lang 'sum of an empty tape' "$sum" '0\ndone'

# Expressions.
lang 'a number' 'program 0 0 1 proc 0 out num 5' '5\ndone'
lang 'the largest number' 'program 0 0 1 proc 0 out num 65535' '65535\ndone'
lang 'the argument is 0' 'program 0 0 1 proc 0 out loc 0' '0\ndone'
lang 'further locals are 0' 'program 0 0 1 proc 2 then out loc 1 out loc 2' '0\n0\ndone'
lang 'the last local' 'program 0 0 1 proc 64 then setloc 64 num 7 out loc 64' '7\ndone'
lang 'globals are 0 at first' 'program 2 0 1 proc 0 then out glob 0 out glob 1' '0\n0\ndone'
lang 'cells are 0 at first' 'program 0 2 1 proc 0 then out cell num 0 out cell num 1' '0\n0\ndone'
lang 'a sum wraps' 'program 0 0 1 proc 0 out add num 65535 num 2' '1\ndone'
lang 'a sum at the bound' 'program 0 0 1 proc 0 out add num 65534 num 1' '65535\ndone'
lang 'a difference' 'program 0 0 1 proc 0 out sub num 9 num 4' '5\ndone'
lang 'a difference wraps' 'program 0 0 1 proc 0 out sub num 4 num 9' '65531\ndone'
lang 'nand of nothing' 'program 0 0 1 proc 0 out nand num 0 num 0' '65535\ndone'
lang 'nand of all bits' 'program 0 0 1 proc 0 out nand num 65535 num 65535' '0\ndone'
lang 'nand of some bits' 'program 0 0 1 proc 0 out nand num 12 num 10' '65527\ndone'
lang 'less' 'program 0 0 1 proc 0 out less num 3 num 4' '1\ndone'
lang 'less of equals' 'program 0 0 1 proc 0 out less num 4 num 4' '0\ndone'
lang 'less is without sign' 'program 0 0 1 proc 0 then out less num 1 num 65535 out less num 32768 num 32767' '1\n0\ndone'
lang 'half rounds down' 'program 0 0 1 proc 0 then out half num 7 out half num 65535' '3\n32767\ndone'
lang 'half of 1' 'program 0 0 1 proc 0 out half num 1' '0\ndone'

# Statements.
lang 'skip' 'program 0 0 1 proc 0 skip' 'done'
lang 'one after the other' 'program 0 0 1 proc 0 then out num 1 then out num 2 out num 3' '1\n2\n3\ndone'
lang 'a local is set' 'program 0 0 1 proc 1 then setloc 1 num 8 then out loc 1 out loc 0' '8\n0\ndone'
lang 'a global is set' 'program 256 0 1 proc 0 then setglob 255 num 9 then out glob 255 out glob 254' '9\n0\ndone'
lang 'a cell is set, and one past the last read' 'program 0 3 1 proc 0 then setcell num 2 num 9 then out cell num 2 out cell num 3' '9\nindex'
lang 'if: yes' 'program 0 0 1 proc 0 if num 2 out num 1 out num 0' '1\ndone'
lang 'if: 0 is no' 'program 0 0 1 proc 0 if num 0 out num 1 out num 0' '0\ndone'
lang 'while: no turn' 'program 0 0 1 proc 0 then while num 0 out num 1 out num 2' '2\ndone'
lang 'while: three turns' 'program 0 0 1 proc 1 then setloc 1 num 3 while loc 1 then out loc 1 setloc 1 sub loc 1 num 1' '3\n2\n1\ndone'
lang 'the tape in order' 'program 0 0 1 proc 1 then take 1 then out loc 1 then take 0 out loc 0' '5\n6\ndone' 5 6 7
lang 'the tape at its end is 0' 'program 0 0 1 proc 1 then setloc 1 num 4 then take 1 then out loc 1 then setloc 1 num 4 then take 1 out loc 1' '9\n0\ndone' 9

# Cells: both sides of the bound, and places that are not wrapped.
lang 'the last cell' 'program 0 4096 1 proc 0 then setcell num 4095 num 6 out cell num 4095' '6\ndone'
lang 'a place at the number of cells' 'program 0 4096 1 proc 0 setcell num 4096 num 6' 'index'
lang 'a far place' 'program 0 1 1 proc 0 out cell num 65535' 'index'
lang 'no cells at all' 'program 0 0 1 proc 0 out cell num 0' 'index'
lang 'a place that a wrapped sum gives' 'program 0 1 1 proc 0 then setcell add num 65535 num 1 num 3 out cell num 0' '3\ndone'
lang 'words before index stay put out' 'program 0 1 1 proc 0 then out num 1 then setcell num 1 num 1 out num 2' '1\nindex'

# Order: from left to right; of a cell that is set the place, the value, the test; of a call the argument, then the room.
note='proc 0 then out loc 0 skip'
lang 'both sides from left to right' "program 0 0 2 proc 0 out sub call 1 num 7 call 1 num 5 $note" '7\n5\n2\ndone'
lang 'the place, then the value' "program 0 2 2 proc 0 then setcell call 1 num 1 call 1 num 4 out cell num 1 $note" '1\n4\n4\ndone'
lang 'the value before the test of the place' "program 0 1 2 proc 0 setcell num 1 call 1 num 4 $note" '4\nindex'
lang 'the first side is kept over a call that sets it' 'program 1 0 2 proc 0 then setglob 0 num 3 out add glob 0 call 1 num 0 proc 0 then setglob 0 num 100 setloc 0 glob 0' '103\ndone'
lang 'the value may change the cells' 'program 0 2 2 proc 0 then setcell num 0 call 1 num 1 then out cell num 0 out cell num 1 proc 0 then setcell loc 0 num 8 setloc 0 num 2' '2\n8\ndone'

# Calls: the value is local 0, the caller's locals are back, further locals are 0 each time.
lang 'a call without a change gives its argument' 'program 0 0 2 proc 0 out call 1 num 6 proc 0 skip' '6\ndone'
lang 'the caller keeps its locals' 'program 0 0 2 proc 2 then setloc 1 num 11 then setloc 2 call 1 num 5 then out loc 1 then out loc 2 out loc 0 proc 3 then setloc 1 num 90 then setloc 2 num 91 setloc 0 add loc 0 loc 3' '11\n5\n0\ndone'
lang 'further locals are 0 in each call' 'program 0 0 2 proc 0 then out call 1 num 1 out call 1 num 2 proc 1 then setloc 0 loc 1 setloc 1 num 77' '0\n0\ndone'
lang 'a call of a call' 'program 0 0 3 proc 0 out call 1 call 2 num 3 proc 0 setloc 0 add loc 0 num 1 proc 0 setloc 0 add loc 0 loc 0' '7\ndone'
lang 'globals are shared' 'program 1 0 2 proc 0 then setglob 0 call 1 num 4 out glob 0 proc 0 setglob 0 num 9' '4\ndone'
# procedure 0 takes 4 + 0 + 1 = 5 words, each call of procedure 1 takes 4 + 0 + 2 = 6: 1364 of them fit (5 + 6 x 1364 = 8189)
deep='program 0 0 2 proc 0 then take 0 out call 1 loc 0 proc 0 if loc 0 setloc 0 call 1 sub loc 0 num 1 skip'
lang 'the last call that fits' "$deep" '0\ndone' 1363
lang 'one call too many' "$deep" 'full' 1364
lang 'calls without an end' 'program 0 0 2 proc 0 setloc 0 call 1 num 0 proc 0 then out num 1 setloc 0 call 1 half num 1' "$(lines 1637 1)\nfull"
# procedure 1 takes 4 + 64 + 1 = 69 words and procedures 0 and 2 take 5: 118 calls of 1 fit (5 + 69 x 118 = 8147), and in the last the argument of a further one is still worked out
lang 'the argument is worked out before the test for room' 'program 0 0 3 proc 0 setloc 0 call 1 num 0 proc 64 setloc 0 call 1 call 2 num 9 proc 0 out loc 0' "$(lines 118 9)\nfull"

# The deepest recursion that fits, within a native stack of 8 MiB: nested calls, and second operands around them. Procedure 1
# takes the tape's next word and, unless that is 0, calls itself with something around the call; at the tape's end it gives 65535, or what BASE says.
ones() { yes 1 | head -n "$1"; }
times() { local i; for ((i = 0; i < $1; i++)); do printf '%s ' "$2"; done; }
# nested NAME CALLS BEFORE AFTER BASE OUTPUT: procedure 1 is called CALLS times, each inside the one before
nested() {
    local name=$1 calls=$2 before=$3 after=$4 base=$5 output=$6
    local text="program 0 3 2 proc 0 then setcell num 0 num 1 then setcell num 1 num 2 out call 1 num 0 proc 0 then take 0 if loc 0 setloc 0 $before call 1 num 0 $after setloc 0 num $base"
    check "$name" 0 "$text" "$output" '' bash -c 'ulimit -s 8192 && exec "$@"' hvlang $hvlang $(ones $((calls - 1)))
}
# procedure 0 takes 4 + 0 + 2 = 6 words; with a height of 1, each call of procedure 1 takes 5: 1637 fit (6 + 5 x 1637 = 8191)
nested '1637 calls, nothing around' 1637 '' '' 65535 '65535\ndone'
nested '1638 calls: no room' 1638 '' '' 65535 'full'
# with the call on the right of 900 sums the height is 901, so that a call takes 905 words: 9 fit (6 + 905 x 9 = 8151); 8 x 900 = 7200
nested '9 calls, each on the right of 900 sums' 9 "$(times 900 'add num 1')" '' 0 '7200\ndone'
nested '10 calls, each on the right of 900 sums: no room' 10 "$(times 900 'add num 1')" '' 0 'full'
# on the right of one sum: 6 words, 1364 calls
nested '1364 calls, each on the right of a sum' 1364 'add num 1' '' 0 '1363\ndone'

# Loops, fuel.
million='program 2 0 1 proc 0 then setglob 0 num 1000 then while glob 0 then setglob 1 num 1000 then while glob 1 setglob 1 sub glob 1 num 1 setglob 0 sub glob 0 num 1 out num 1'
lang 'a million turns in two loops' "$million" '1\ndone'
long='program 3 0 1 proc 0 then setglob 1 num 16 then while less glob 0 num 62500 then setglob 0 add glob 0 num 1 setglob 2 glob 0 out glob 2'
lang 'a loop of 62500 turns' "$long" '62500\ndone'
one_loop='program 3 0 1 proc 0 then setglob 1 num 16 then while glob 1 then setglob 0 add glob 0 num 1 if less glob 0 num 62500 skip then setglob 0 num 0 setglob 1 sub glob 1 num 1 out num 5'
lang 'one loop of a million turns' "$one_loop" '5\ndone'
check 'one loop of a million turns, within a native stack of 8 MiB' 0 "$one_loop" '5\ndone' '' bash -c 'ulimit -s 8192 && exec "$1"' hvlang $hvlang
forever='program 0 0 1 proc 0 while num 1 skip'
lang 'a program that never ends' "$forever" 'still running after calls and turns 1000 deep' --fuel 1000
lang 'a program that never ends, with the fuel that it has by itself' "$forever" 'still running after calls and turns 10000000 deep'
lang 'no fuel' 'program 0 0 1 proc 0 out num 5' 'still running after calls and turns 0 deep' --fuel 0
lang 'fuel for the call alone' 'program 0 0 1 proc 0 out num 5' 'still running after calls and turns 1 deep' --fuel 1
lang 'fuel for the call and the body' 'program 0 0 1 proc 0 out num 5' '5\ndone' --fuel 2
turns='program 0 0 1 proc 1 then setloc 1 num 3 while loc 1 then out loc 1 setloc 1 sub loc 1 num 1'
lang 'three turns and the last test take three more' "$turns" '3\n2\n1\ndone' --fuel 5
lang 'one less is too little' "$turns" '3\n2\n1\nstill running after calls and turns 4 deep' --fuel 4

# Texts, options, refusals.
lang 'blanks of all kinds' '\t program\r\n0 0\n\n1 proc 0\tout num 5 \n' '5\ndone'
check 'help' 0 '' 'usage: hvlang...' '' $hvlang --help
check 'no program' 1 'program 0 0 1 proc 0 while num 1' '' 'the text is no program' $hvlang
check 'an empty text' 1 '' '' 'the text is no program' $hvlang
check 'words after the program' 1 'program 0 0 1 proc 0 skip skip' '' 'the text is no program' $hvlang
check 'a local that is not there' 1 'program 0 0 1 proc 0 out loc 1' '' 'the program is outside the limits' $hvlang
check 'a global that is not there' 1 'program 1 0 1 proc 0 out glob 1' '' 'outside the limits' $hvlang
check 'a procedure that is not there' 1 'program 0 0 1 proc 0 out call 1 num 0' '' 'outside the limits' $hvlang
check 'a number of 65536' 1 'program 0 0 1 proc 0 out num 65536' '' 'outside the limits' $hvlang
check 'too many cells' 1 'program 0 4097 1 proc 0 skip' '' 'outside the limits' $hvlang
check 'more words than there is room for' 1 'program 0 0 1 proc 0 while num 1 out num 7' '' 'more than 1000000 words are put out' $hvlang
check 'a tape word too large' 1 'program 0 0 1 proc 0 skip' '' "a tape word is a number below 65536: '65536'" $hvlang 65536
check 'a tape word that is no number' 1 'program 0 0 1 proc 0 skip' '' "'1x'" $hvlang 1x
check 'an unknown option' 1 'program 0 0 1 proc 0 skip' '' "unknown option (--help lists them): '--fast'" $hvlang --fast
check 'fuel without a number' 1 'program 0 0 1 proc 0 skip' '' '--fuel wants a number' $hvlang --fuel
check 'fuel that is no number' 1 'program 0 0 1 proc 0 skip' '' "not an amount of fuel: 'much'" $hvlang --fuel much
check 'hvlang: an empty tape word' 1 'program 0 0 1 proc 0 skip' '' "a tape word is a number below 65536: ''" $hvlang ''
check 'hvlang: a dash alone' 1 'program 0 0 1 proc 0 skip' '' "unknown option (--help lists them): '-'" $hvlang -
check 'hvlang: fuel too large' 1 'program 0 0 1 proc 0 skip' '' "not an amount of fuel: '4294967295'" $hvlang --fuel 4294967295
check 'hvlang: help reads no text' 0 'x' 'usage: hvlang...' '' $hvlang --help
