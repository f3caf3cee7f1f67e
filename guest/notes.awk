# Reads a disassembly with relocations, and prints for each function that is called in place of an operator: the number
# of calls, its name, and the calling function. If mode=pages, it reads a list of sections, and prints how many pages
# they take; if mode=instructions, it counts the products and quotients in a disassembly. The functions in place of
# operators are products and quotients of integers (mulsi3, udivdi3, ..), and all of float, double and long double
# (addsf3, muldf3, ..).

BEGIN {
    operator = "^__(u?(mul|div|mod)[sdt]i3"
    operator = operator "|(add|sub|mul|div)[sdt]f3|neg[sdt]f2|powi[sdt]f2|(cmp|eq|ne|lt|le|gt|ge|unord)[sdt]f2"
    operator = operator "|float(un)?[sdt]i[sdt]f|fix(uns)?[sdt]f[sdt]i|(extend|trunc)[sdt]f[sdt]f2)$"
}

function number(hexadecimal,    k, value) {
    value = 0
    for (k = 1; k <= length(hexadecimal); k++)
        value = value * 16 + index("0123456789abcdef", substr(hexadecimal, k, 1)) - 1
    return value
}

mode == "instructions" && /\t(mul|mulhs?u?|divu?|remu?)\t/ {
    instructions++
}

# a label is a function, unless it is a local one of the compiler's
mode == "" && /^[0-9a-f]+ <[^.].*>:$/ {
    caller = $2
    gsub(/[<>:]/, "", caller)
}

mode == "" && /R_RISCV_(CALL|CALL_PLT|JAL)[ \t]/ {
    called = $NF
    sub(/[-+]0x.*/, "", called)
    sub(/^__wrap_/, "", called)
    if (called ~ operator && caller !~ operator && caller !~ /^__wrap_|^divide_long/)
        count[called " " caller]++
}

# A section's line has its number, name, size and address. The lines are in the order of addresses, and two sections may
# share a page. .tbss, for thread-local data, takes no memory.
mode == "pages" && $1 ~ /^[0-9]+$/ && $2 != ".tbss" && number($4) >= 4096 && number($3) > 0 {
    first = int(number($4) / 4096)
    page_end = int((number($4) + number($3) + 4095) / 4096)
    pages += page_end - (first > counted_end ? first : counted_end)
    counted_end = page_end
}

END {
    if (mode == "pages")
        printf "build: %d pages of 1,024\n", pages
    if (mode == "instructions")
        printf "build: %d places where a product or a quotient is an instruction\n", instructions
    for (pair in count) {
        split(pair, part, " ")
        printf "%8d  %-14s in %s\n", count[pair], part[1], part[2]
    }
}
