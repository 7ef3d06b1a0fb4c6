# Streams that fail: an output that is full or closed, a reader that is gone, an input that cannot be read. A program then
# says so, with status 1, or is ended by SIGPIPE; it never ends with status 0 as if all were well.
image='20997\n49664\n53248\n'
text='program 0 0 1 proc 0 out num 5'

# lost NAME INPUT COMMAND: what the command prints cannot be written
lost() {
    local name=$1 input=$2 command=$3
    check "$name: a full device" 1 "$input" '' 'No space left' sh -c "$command > /dev/full"
    check "$name: a closed output" 1 "$input" '' 'Bad file descriptor' sh -c "$command >&-"
    check "$name: a reader that is gone" 0 "$input" 'lost' '' bash -c \
        "exec 4> >(:); wait \$!; $command >&4 2> /dev/null; s=\$?; [ \$s = 141 ] || [ \$s = 1 ] && echo lost"
}

lost 'hvread' "$text" $bin/hvread
lost 'hvlang' "$text" $bin/hvlang
lost 'hvbuild' "$text" $bin/hvbuild
lost 'hvbuild --listing' "$text" "$bin/hvbuild --listing"
lost 'hvmachine' "$image" $bin/hvmachine
lost 'hvrun' "$text" $bin/hvrun
lost 'hvdraw' '' $bin/hvdraw
lost 'hvdraw --parts' '' "$bin/hvdraw --parts"
lost 'three_machines' '' "$bin/three_machines crates/three_machines/data/refused.txt"
lost 'run' '' './run examples/gcd.txt 4 2'
lost 'run-image' '' './run-image examples/echo.image 4 2'
for program in hvread hvlang hvbuild hvmachine hvrun hvdraw three_machines; do
    lost "$program --help" '' "$bin/$program --help"
done

# a count without end: more than a pipe holds
check 'a reader that leaves after a word' 0 '49152\n37374\n' '0\nlost' '' bash -c \
    "exec 4>&1; { $bin/hvmachine --limit 1000000 2> /dev/null; s=\$?; [ \$s = 141 ] || [ \$s = 1 ] && echo lost >&4; } | head -n 1"

# nothing can be said where standard error is closed too
check 'no output and no error output' 1 "$text" '' '' sh -c "$bin/hvlang > /dev/full 2>&-"

for program in hvread hvlang hvbuild hvmachine hvrun; do
    check "$program: a directory as input" 1 '' '' "$program: Is a directory" sh -c "$bin/$program < /"
    check "$program: a closed input" 1 '' '' "$program: Bad file descriptor" sh -c "$bin/$program <&-"
done
