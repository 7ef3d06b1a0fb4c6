# hvmachine: an image on standard input, the tape as arguments.
hvmachine=$bin/hvmachine
echo_image=examples/echo.image

check 'three instructions' 0 '20997\n49664\n53248\n' '5\ndone' '' $hvmachine
check 'no newline at the end' 0 '20997\n49664\n53248' '5\ndone' '' $hvmachine
check 'blank lines and carriage returns' 0 '\n20997\r\n\n49664\r\n53248\r\n' '5\ndone' '' $hvmachine
check 'echo' 0 @$echo_image '3\n1\n2\ndone' '' $hvmachine 3 1 2
check 'echo stops at 0' 0 @$echo_image '7\ndone' '' $hvmachine 7 0 8
check 'an empty tape reads 0' 0 @$echo_image 'done' '' $hvmachine
check 'the largest word' 0 @$echo_image '65535\ndone' '' $hvmachine 65535
check 'index' 0 '57344\n' 'index' '' $hvmachine
check 'full' 0 '61440\n' 'full' '' $hvmachine
check 'an empty image never halts' 0 '' 'not halted after 1000 instructions' '' $hvmachine --limit 1000
check 'limit met exactly' 0 '20997\n49664\n53248\n' '5\ndone' '' $hvmachine --limit 3
check 'limit one short' 0 '20997\n49664\n53248\n' '5\nnot halted after 2 instructions' '' $hvmachine --limit 2
check 'limit 0' 0 '53248\n' 'not halted after 0 instructions' '' $hvmachine --limit 0
# out 0 at place 0, then a branch back to it
check 'more words than a piece holds' 0 '49152\n37374\n' "$(lines 5000 0)\nnot halted after 10000 instructions" '' $hvmachine --limit 10000
check 'a full image' 0 "$(lines 65536 53248)\n" 'done' '' $hvmachine
check 'help' 0 '' 'usage: hvmachine...' '' $hvmachine --help
check 'help reads no image' 0 'x\n' 'usage: hvmachine...' '' $hvmachine --help
check 'an image of too many words' 1 "$(lines 65537 0)\n" '' 'more than 65536 words' $hvmachine
check 'an image word too large' 1 '1\n65536\n' '' "line 2: an image word is a number below 65536: '65536'" $hvmachine
check 'an image word far too large' 1 '99999999999999999999999\n' '' 'line 1' $hvmachine
check 'an image word that is no number' 1 '1\n2\n3x\n' '' "line 3: an image word is a number below 65536: '3x'" $hvmachine
check 'two words on a line' 1 '1 2\n' '' 'line 1' $hvmachine
check 'a sign' 1 '+1\n' '' 'line 1' $hvmachine
check 'a tape word too large' 1 '53248\n' '' "a tape word is a number below 65536: '65536'" $hvmachine 65536
check 'a tape word that is no number' 1 '53248\n' '' "'1x'" $hvmachine 1x
check 'an empty tape word' 1 '53248\n' '' "''" $hvmachine ''
check 'an unknown option' 1 '53248\n' '' "unknown option (--help lists them): '--fast'" $hvmachine --fast
check 'a negative tape word' 1 '53248\n' '' "unknown option" $hvmachine -1
check 'limit without a number' 1 '53248\n' '' '--limit wants a number' $hvmachine --limit
check 'limit that is no number' 1 '53248\n' '' "not a number of instructions: 'many'" $hvmachine --limit many
check 'run-image' 0 '' '3\n1\n2\ndone' '' ./run-image $echo_image 3 1 2
check 'run-image without a file' 1 '' '' 'usage' ./run-image
check 'run-image with no such file' 1 '' '' 'cannot read' ./run-image examples/nothing.image
check 'run-image --help' 0 '' 'usage: ./run-image...' '' ./run-image --help
check 'run-image with an option first' 1 '' '' 'usage' ./run-image --limit 5 $echo_image
check 'run-image with a directory' 1 '' '' "run-image: cannot read 'examples'" ./run-image examples
check 'run-image with a limit' 0 '' '3\nnot halted after 6 instructions' '' ./run-image $echo_image --limit 6 3 1 2
check 'run-image with a wrong tape word' 1 '' '' "hvmachine: a tape word is a number below 65536: 'x'" ./run-image $echo_image x
check 'run-image with no words in its file' 0 '' 'not halted after 10 instructions' '' ./run-image /dev/null --limit 10
check 'run-image from another folder' 0 '' '3\ndone' '' sh -c 'cd examples && ../run-image echo.image 3'

# Single instructions where a slip is easy.
# low 1 4; jump 1 1: a is read before d is written; out 1 at place 4
check 'a jump with one register' 0 '20996\n41536\n61440\n61440\n49664\n53248\n' '2\ndone' '' $hvmachine
# zero 0 +1 goes over one instruction; zero 7 -1 comes back to itself
check 'a branch counts from the next instruction' 0 '36865\n61440\n53248\n' 'done' '' $hvmachine
check 'a branch to itself' 0 '40959\n53248\n' 'not halted after 50 instructions' '' $hvmachine --limit 50
# low 1 7; store 1 at 20; load 2 from 20; out 2
check 'a load right after its store' 0 '20999\n33300\n29716\n50176\n53248\n' '7\ndone' '' $hvmachine
# low 1 0; high 1 208 is the word of done; store 1 at 3, over a full
check 'an instruction stored right before it is run' 0 '20992\n25296\n33283\n61440\n' 'done' '' $hvmachine
# low 1 1; nand 2 0 0 is 65535; less 3 1 2; out 3; less 3 2 1; out 3
check 'less is without sign' 0 '20993\n9216\n13904\n50688\n13960\n50688\n53248\n' '1\n0\ndone' '' $hvmachine
check 'limit too large' 1 '53248\n' '' "not a number of instructions: '4294967295'" $hvmachine --limit 4294967295
check 'hvmachine: a dash alone' 1 '53248\n' '' "unknown option (--help lists them): '-'" $hvmachine -
