# hvrun: the program of a text on the board, the tape as arguments.
hvrun=$bin/hvrun

check 'the board puts out 5' 0 'program 0 0 1 proc 0 out num 5\n' '5\ndone' '' $hvrun
check 'the sum up to 4' 0 @examples/sum.txt '10\ndone' '' $hvrun 4
check 'the deepest sum that fits' 0 @examples/sum.txt '27336\ndone' '' $hvrun 1168
check 'one call too deep' 0 @examples/sum.txt 'full' '' $hvrun 1169
check 'a cell past the last' 0 'program 0 3 1 proc 0 then setcell num 2 num 9 then out cell num 2 out cell num 3' '9\nindex' '' $hvrun
check 'a program that never ends' 0 'program 0 0 1 proc 0 while num 1 skip' 'not halted after 2000000 cycles' '' $hvrun
check 'the tape at its end' 0 'program 0 0 1 proc 1 then take 1 then out loc 1 then take 1 out loc 1' '7\n0\ndone' '' $hvrun 7
check 'no program' 1 'program 0 0 1 proc 0' '' 'hvrun: no program' $hvrun
check 'outside the limits' 1 'program 0 0 1 proc 0 out loc 1' '' 'hvrun: limits' $hvrun
check 'hvrun: a tape word too large' 1 'program 0 0 1 proc 0 skip' '' "a tape word is a number below 65536: '65536'" $hvrun 65536
check 'hvrun: an unknown option' 1 'program 0 0 1 proc 0 skip' '' "unknown option (--help lists them): '--fast'" $hvrun --fast
check 'a text that is too long' 1 "$(lines 300000 skip)" '' 'longer than 1048576 bytes' $hvrun
check 'hvrun help' 0 '' 'usage: hvrun...' '' $hvrun --help
check 'run' 0 '' '10\ndone' '' ./run examples/sum.txt 4
check 'run without a file' 1 '' '' 'usage' ./run
check 'run with no such file' 1 '' '' 'cannot read' ./run examples/nothing.txt
check 'hvrun: an empty text' 1 '' '' 'hvrun: no program' $hvrun
check 'hvrun: an empty tape word' 1 'program 0 0 1 proc 0 skip' '' "a tape word is a number below 65536: ''" $hvrun ''
check 'hvrun: a dash alone' 1 'program 0 0 1 proc 0 skip' '' "unknown option (--help lists them): '-'" $hvrun -
check 'hvrun: help reads no text' 0 'x' 'usage: hvrun...' '' $hvrun --help
check 'hvrun: as long a tape as there may be' 0 'program 0 0 1 proc 0 then take 0 out loc 0' '1\ndone' '' $hvrun $(lines 100000 1)
check 'hvrun: a tape that is too long' 1 'program 0 0 1 proc 0 skip' '' 'the tape has more than 100000 words' $hvrun $(lines 100001 1)
check 'run --help' 0 '' 'usage: ./run...' '' ./run --help
check 'run with an unknown option' 1 '' '' 'usage' ./run --fast
check 'run with a directory' 1 '' '' "run: cannot read 'examples'" ./run examples
check 'run with a wrong tape word' 1 '' '' "hvrun: a tape word is a number below 65536: 'x'" ./run examples/sum.txt x
check 'run with an option after the file' 1 '' '' "hvrun: unknown option (--help lists them): '--fast'" ./run examples/sum.txt --fast
check 'run with no words in its file' 1 '' '' 'hvrun: no program' ./run /dev/null
check 'run from another folder' 0 '' '10\ndone' '' sh -c 'cd examples && ../run sum.txt 4'
check 'run with a text from a pipe' 0 '' '5\ndone' '' bash -c './run <(echo program 0 0 1 proc 0 out num 5)'
