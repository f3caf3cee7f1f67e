# Inserts the countdown of `guest/build --yield-every` into gcc's assembly: at the head of each loop, which is a label
# that a later instruction jumps to; at the start of each function; and before each indirect jump. gcc doesn't use t5
# and t6, which are for the countdown. The file is read twice: awk -f yields.awk FILE.s FILE.s
function countdown() {
    print "\tlui\tt6,%tprel_hi(it_countdown)"
    print "\tadd\tt6,t6,tp,%tprel_add(it_countdown)"
    print "\tlw\tt5,%tprel_lo(it_countdown)(t6)"
    print "\taddi\tt5,t5,-1"
    print "\tsw\tt5,%tprel_lo(it_countdown)(t6)"
    print "\tbnez\tt5,.Lit" ++places
    print "\tcall\tt5,it_countdown_over"
    print ".Lit" places ":"
}

FNR == 1 { pass++ }

pass == 1 {
    if (/^\.L[0-9]+:/)
        seen[substr($1, 1, length($1) - 1)] = 1
    else if (/^\t(j|b[a-z]*|jump)\t/ && match($0, /\.L[0-9]+/) && substr($0, RSTART, RLENGTH) in seen)
        head[substr($0, RSTART, RLENGTH) ":"] = 1
    else if (/^\t\.type\t.*@function/)
        head[substr($2, 1, length($2) - 1) ":"] = 1
    next
}

/^\tjr\t/ && $2 != "ra" { countdown() }
{ print }
$1 in head { countdown() }
