# A long text is read to its end: a million blanks stand before the program's last word.
long="program 0 0 1 proc 0 out num $(printf '%1000000s' '')5"
check 'hvread reads a long text' 0 "$long" 'program: 0 globals, 0 cells, 1 procedures, 3 signs' '' $bin/hvread
check 'hvlang reads a long text' 0 "$long" '5\ndone' '' $bin/hvlang
check 'hvbuild reads a long text' 0 "$long" '5\ndone' '' bash -c "$bin/hvbuild | $bin/hvmachine"
check 'hvrun reads a long text' 0 "$long" '5\ndone' '' $bin/hvrun
