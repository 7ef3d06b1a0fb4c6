# hvdraw: the drawing's sheet, or a table of its parts.
hvdraw=$bin/hvdraw

check 'the sheet begins with its sizes' 0 '' '184 1747\n0\n...' '' $hvdraw
check 'the sheet has all its numbers' 0 '' '3900' '' sh -c "$hvdraw | wc -l | tr -d ' '"
check 'the parts' 0 '' '' '' sh -c "$hvdraw --parts | grep -q adder || echo missing"
check 'hvdraw help' 0 '' 'usage: hvdraw...' '' $hvdraw --help
check 'hvdraw with an unknown option' 1 '' '' "unknown option (--help lists them): '--big'" $hvdraw --big
check 'hvdraw: an empty option' 1 '' '' "hvdraw: unknown option (--help lists them): ''" $hvdraw ''
check 'hvdraw: a word' 1 '' '' "hvdraw: unknown option (--help lists them): 'parts'" $hvdraw parts
check 'hvdraw: a wrong option after a right one' 1 '' '' "'--big'" $hvdraw --parts --big
check 'hvdraw reads no input' 0 'x' 'part ...' '' $hvdraw --parts
# signal 215, flip-flop 181, is phase 3: the only value of 1 at power on; the last pin is the higher of the two that halt
check 'hvdraw: the numbers stand at their lines' 0 '' '0\n1\n0\n281' '' bash -c "$bin/hvdraw | sed -n '182,184p;\$p'"
