# three_machines: tables of texts with what is expected of them; its own tables are run by rt ci.
three_machines=$bin/three_machines
table_file=$(mktemp)

# table NAME STATUS OUTPUT ERROR LINES: what comes of a table of these lines
table() {
    printf "$5" > "$table_file"
    check "three_machines: $1" "$2" '' "$3" "$4" $three_machines "$table_file"
}

five='name five\ntext program 0 0 1 proc 0 out num 5\n'
echo_two='name echo\ntext program 0 0 1 proc 1 then take 1 then out loc 1 then take 1 out loc 1\n'
counting='name count\ntext program 0 0 1 proc 0 while num 1 then out loc 0 setloc 0 add loc 0 num 1\n'
same='1 texts: the expected words and endings on three machines; 0 texts refused by all'
wrong='not all texts came out as expected'

table 'a text as expected' 0 "$same" '' "# a comment\n\n${five}gives 5 done\n"
table 'a tape as expected' 0 "$same" '' "${echo_two}tape 8 9 | 7\ngives 8 9 done\n"
table 'words that are repeated' 0 "$same" '' 'name many\ntext program 0 0 1 proc 0 {3:then out num 7 }skip\ngives {3:7 }done\n'
table 'a beginning as expected' 0 "$same" '' "${counting}gives 0 1 2 ...\n"
table 'a refusal as expected' 0 '0 texts: the expected words and endings on three machines; 1 texts refused by all' '' 'name x\ntext x\ngives no program\n'
table 'another word' 1 'DIFFERS: five\n  expected: 6 done (put out 1, taken 0)\n  definition: 5 done (put out 1, taken 0)\n  instruction machine: 5 done (put out 1, taken 0)\n  board: 5 done (put out 1, taken 0)\n1 texts differ' "$wrong" "${five}gives 6 done\n"
table 'a word too few' 1 'DIFFERS: five...' "$wrong" "${five}gives 5 5 done\n"
table 'a word too many' 1 'DIFFERS: five...' "$wrong" "${five}gives done\n"
table 'another ending' 1 'DIFFERS: five...' "$wrong" "${five}gives 5 full\n"
table 'no ending' 1 'DIFFERS: five...' "$wrong" "${five}gives 5 running\n"
table 'a refusal that is none' 1 'DIFFERS: five...' "$wrong" "${five}gives limits\n"
table 'another refusal' 1 'DIFFERS: x...' "$wrong" 'name x\ntext x\ngives limits\n'
table 'another number of words taken' 1 'DIFFERS: echo...' "$wrong" "${echo_two}tape 8 9 7\ngives 8 9 done\n"
table 'another beginning' 1 'DIFFERS: count...' "$wrong" "${counting}gives 0 1 3 ...\n"
table 'a beginning that is taken for all' 1 'DIFFERS: count...' "$wrong" "${counting}gives 0 1 2 running\n"
table 'a line that no table has' 1 '' 'give 5' "${five}give 5 done\n"
table 'a word that is no number' 1 '' 'a word of a table is a number below 65536' "${five}gives 65536 done\n"
table 'no texts' 1 '' 'no texts' '# nothing\n'
rm -f "$table_file"
check 'three_machines: no table' 1 '' '' 'no texts' $three_machines
check 'three_machines: no such table' 1 '' '' 'nothing.txt: cannot be read' $three_machines nothing.txt
check 'three_machines --help' 0 '' 'usage: three_machines...' '' $three_machines --help
