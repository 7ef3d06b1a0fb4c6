# The examples, each on the board, by the language's definition, and on the instruction machine.

# example NAME OUTPUT WORD..
example() {
    local text=examples/$1.txt output=$2
    shift 2
    check "$text on the board" 0 @$text "$output" '' $bin/hvrun "$@"
    check "$text by the definition" 0 @$text "$output" '' $bin/hvlang "$@"
    check "$text on the instruction machine" 0 @$text "$output" '' sh -c "$bin/hvbuild | $bin/hvmachine $*"
}

example sum '10\ndone' 4
example sum '27336\ndone' 1168
example sum 'full' 1169
example gcd '12\ndone' 48 36
example fibonacci '0\n1\n1\n2\n3\n5\n8\n13\n21\n34\ndone' 10
example primes '2\n3\n5\n7\n11\n13\n17\n19\ndone' 20
example sort '10\n20\n30\n40\n50\ndone' 5 30 10 50 20 40
example reverse '3\n2\n1\ndone' 1 2 3
example bits '65523\n8\n14\n6\ndone' 12 10
example multiply '5535\ndone' 123 45
example multiply '24464\ndone' 300 300
example divide '14\n2\ndone' 100 7
example deep 'full'
example cells '9\nindex'
check 'a count without end, on the board' 0 @examples/count.txt '0\n1\n2\n3\n...' '' $bin/hvrun
