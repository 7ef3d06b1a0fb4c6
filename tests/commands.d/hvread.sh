# hvread: a text on standard input. The table of texts is crates/text_tests; here is what the program makes of them.
hvread=$bin/hvread
sum='program 0 0 2 proc 1 then take 1 out call 1 loc 1 proc 0 if less num 0 loc 0 setloc 0 add loc 0 call 1 sub loc 0 num 1 skip'

check 'a program' 0 'program 0 0 1 proc 0 out num 5\n' 'program: 0 globals, 0 cells, 1 procedures, 3 signs' '' $hvread
check 'the sum program' 0 "$sum" 'program: 0 globals, 0 cells, 2 procedures, 19 signs' '' $hvread
check 'globals and cells' 0 'program 256 4096 1 proc 64 skip' 'program: 256 globals, 4096 cells, 1 procedures, 2 signs' '' $hvread
check 'blanks of all kinds' 0 '\n\t program\r\n 0\t0 1 proc 0  skip\r\n\n' 'program: 0 globals, 0 cells, 1 procedures, 2 signs' '' $hvread
check 'an empty text' 1 '' '' 'no program' $hvread
check 'a text cut short' 1 'program 0 0 1 proc 0 while num 1' '' 'no program' $hvread
check 'a word too many' 1 'program 0 0 1 proc 0 skip skip' '' 'no program' $hvread
check 'an unknown word' 1 'program 0 0 1 proc 0 stop' '' 'no program' $hvread
check 'a local that is not there' 1 'program 0 0 1 proc 0 out loc 1' '' 'limits' $hvread
check 'a number of 65536' 1 'program 0 0 1 proc 0 out num 65536' '' 'limits' $hvread
check 'no procedure' 1 'program 0 0 0' '' 'limits' $hvread
check 'hvread help' 0 '' 'usage: hvread...' '' $hvread --help
check 'hvread with an unknown option' 1 '' '' 'unknown option' $hvread --all
check 'hvread: an empty option' 1 '' '' 'hvread: unknown option' $hvread ''
check 'hvread help reads no text' 0 'x' 'usage: hvread...' '' $hvread --help
check 'hvread: blanks alone' 1 ' \n\t\r ' '' 'no program' $hvread
