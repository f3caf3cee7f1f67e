# Prints a compiler's and a linker's messages for guest/build. Messages that wouldn't help a guest's author are replaced
# by others that say what to do; the rest stay as they are.
#
#   awk -f words.awk gaps [FILE.su..] messages
#
# gaps is guest/gaps; gcc's -fstack-usage wrote the files .su. The variable libc is 1 if there is a C library.

# print_wrapped HEAD TEXT: prints lines of up to 118 columns, the first one after HEAD
function print_wrapped(head, text, parts, k, n, line, begin) {
    n = split(text, parts, " ")
    line = begin = head
    for (k = 1; k <= n; k++) {
        if (length(line) + length(parts[k]) > 117 && line != begin) {
            print line
            line = begin = "      "
        }
        line = line " " parts[k]
    }
    print line
}

# The first lines of a message are pending until it is known whether the message is replaced.
function flush() {
    if (pending != "")
        print pending
    pending = ""
}

function plain_name(name) {
    sub(/^__wrap_/, "", name)
    sub(/\.(constprop|part|isra|cold)(\..*)?$/, "", name)
    return name
}

# Returns the text in quotes after the match of the pattern.
function quoted(pattern, name) {
    name = $0
    sub(".*" pattern "[`']", "", name)
    sub(/'.*/, "", name)
    return plain_name(name)
}

function missing(name, where) {
    if (name in first) {
        more[name]++
        return
    }
    first[name] = where
    names[++count] = name
}

# Whether all names that were missing so far are in gaps.
function all_known(k) {
    for (k = 1; k <= count; k++)
        if (!(names[k] in gap))
            return 0
    return count > 0
}

function thousands(number, suffix) {
    for (suffix = ""; length(number) > 3; number = substr(number, 1, length(number) - 3))
        suffix = "," substr(number, length(number) - 2) suffix
    return number suffix
}

FNR == 1 { part = FILENAME ~ /gaps$/ ? "gaps" : FILENAME ~ /\.su$/ ? "stacks" : "messages" }

part == "gaps" {
    if (/^ /) {
        sub(/^ +/, "")
        words[group] = words[group] " " $0
        closed = 1
    } else if (/^[^#]/) {
        group += closed
        closed = 0
        for (k = 1; k <= NF; k++)
            gap[$k] = group
    }
    next
}

part == "stacks" {
    split($1, parts, ":")
    line_of[plain_name(parts[4])] = parts[1] ":" parts[2]
    next
}

# after a header that isn't for this machine, no message means anything
stop { next }

# gcc and ld print the function's name before the message
/: [Ii]n function [`']/ {
    flush()
    pending = $0
    function_name = quoted("[Ii]n function ")
    library = /\.a\([^)]*\): in function/ ? function_name : ""
    next
}

# the lines of source that gcc prints below a message that isn't printed
skipped && (/^ *[0-9]* \|/ || skipped++ < 3 && clang) { next }
{ skipped = 0 }

/frame size.*(larger than|exceeds limit)/ {
    pending = ""
    match($0, /[0-9]+( bytes is larger|\) exceeds)/)
    size = substr($0, RSTART, RLENGTH) + 0
    clang = /exceeds limit/
    if (clang)
        function_name = quoted("exceeds limit [^']*in ")
    where = $0
    sub(/:[0-9]+: error: .*/, "", where)
    if (function_name in line_of)
        where = line_of[function_name]
    print_wrapped("build:", where ": the function " function_name " has " thousands(size) " bytes of variables, more than 49,152 bytes.")
    stacks = skipped = 1
    next
}
/some warnings being treated as errors|^[0-9]+ errors? generated/ && stacks { next }

# after an undefined name, lld prints the file that uses it, then the object with the function
/undefined symbol: / {
    undefined_name = $0
    sub(/.*undefined symbol: /, "", undefined_name)
    next
}
/^>>> referenced by / { user = $4; next }
/^>>> .*:\(.*\)$/ {
    where = user
    if (match($0, /:\([a-zA-Z_][a-zA-Z_0-9]*\)$/))
        where = user ", in " substr($0, RSTART + 2, RLENGTH - 3)
    if (undefined_name == "main" || undefined_name == "_start")
        no_start = 1
    else
        missing(undefined_name, where)
    next
}
/^$/ && undefined_name { next }

/more undefined references to / { next }
/undefined reference to / {
    pending = where = ""
    name = quoted("undefined reference to ")
    if (library == "") {
        where = $0
        sub(/:? *undefined .*/, "", where)
        sub(/.*\/ld: /, "", where)
        sub(/:?\(.*/, "", where)
    } else if (library in gap) {
        name = library
    }
    if (name == "main" || name == "_start")
        no_start = 1
    else
        missing(name, where)
    next
}
/cannot find entry symbol/ { no_start = 1; next }
/^>>> / || /collect2: error: ld returned|error: (linker|ld\.lld) command failed/ { next }

# the files that include a missing header: the last of these lines has the program's own file
/^In file included from |^ +from [^ ]+:[0-9]+[,:]$/ {
    pending = pending (pending == "" ? "" : "\n") $0
    includer = $NF
    sub(/[,:]$/, "", includer)
    next
}
/fatal error: .*: No such file or directory|' file not found|#error "<dirent\.h> not supported"|error: "This header is only/ {
    header = 1
    name = where = $0
    sub(/.*fatal error: '?/, "", name)
    sub(/(: No such file|' file not found).*/, "", name)
    sub(/:[0-9]+: (fatal )?error: .*/, "", where)
    if (/error: (#error )?"/) {
        name = where
        sub(/:[0-9]+$/, "", name)
        sub(/.*\//, "", name)
        stop = 1
    }
    if (name in gap) {
        missing(name, pending == "" ? where : includer)
        pending = ""
        skipped = 1
        next
    }
}
# the linker reports it too, if it is used
/warning: implicit declaration of function '/ {
    name = quoted("implicit declaration of function ")
    if (name in gap) {
        match($0, /^[^:]*:[0-9]+/)
        pending = ""
        skipped = 1
        implicit[++unseen] = name
        place[unseen] = substr($0, RSTART, RLENGTH)
        next
    }
}
/makes pointer from integer without a cast/ && unseen && index($0, place[unseen] ":") == 1 {
    pending = ""
    skipped = 1
    next
}

/error: unknown type name '|error: '[^']*' undeclared/ {
    name = quoted(/unknown type/ ? "unknown type name " : "error: ")
    match($0, /^[^:]*:[0-9]+/)
    where = substr($0, RSTART, RLENGTH)
    if (name in gap) {
        pending = ""
        skipped = 1
        missing(name, where)
        next
    }
}
/note: each undeclared identifier is reported only once/ && all_known() { skipped = 1; next }
/^compilation terminated\.$/ && header { next }

/multiple definition of / {
    name = quoted("multiple definition of ")
    pending = ""
    if (!twice[name]++)
        print_wrapped("build:", name " is there twice. malloc, free and their like, exit, and what is of stdio.h and pthread.h are guest/lib's: a program can't have its own.")
    next
}

/impossible constraint in 'asm'|invalid (input|output) constraint .* in asm/ { foreign = 1 }
/__int128' is not supported|__int128 is not supported/ { wide = 1 }

/a guest has at most 1,024 pages/ {
    pending = ""
    sub(/.*a guest has/, "a guest has")
    print_wrapped("build:", $0 ".")
    next
}

/-Wvla|-Walloca/ { unknown_length = 1 }
/PTHREAD_[^ ]* undeclared|unknown type name [^ ]*pthread_/ { undeclared = 1 }
{
    flush()
    print
}

END {
    flush()
    for (k = 1; k <= unseen && count; k++)
        missing(implicit[k], place[k])
    words["atomic"] = "There are no atomic variables. What several threads change is under a mutex."
    words["other"] = libc ? "Neither the files nor the library have it. Give guest/build the file that has it, too. Of POSIX threads, a guest has what guest/include/pthread.h declares." : "Neither the files nor ithreads.h have it. With --libc there is a C library."
    for (k = 1; k <= count; k++) {
        name = names[k]
        group = name ~ /^__(atomic|sync)_/ ? "atomic" : name in gap ? gap[name] : "other"
        where = first[name] (more[name] ? " and " more[name] " more" : "")
        if (!(group in listed))
            groups[++all] = group
        listed[group] = listed[group] (listed[group] == "" ? "" : ", ") name (first[name] == "" ? "" : " (" where ")")
    }
    for (k = 1; k <= all; k++) {
        print_wrapped("build:", "not there: " listed[groups[k]] ".")
        print_wrapped("      ", words[groups[k]])
    }
    if (no_start)
        print_wrapped("build:", "there is nothing to start: a guest has a function main, and without --libc it includes ithreads.h.")
    if (stacks || unknown_length)
        print_wrapped("build:", "a thread's stack has 65,536 bytes, and stacks lie one upon the other: a thread that needs more writes into the stack of the thread before it, and nothing says so. Of an array whose length is known only when the guest runs, and of alloca, nobody looks after the size. Make large arrays static, or take them from malloc.")
    if (header && !libc && !all)
        print_wrapped("build:", "without --libc there are ithreads.h and the headers that come with clang, and no C library.")
    if (foreign)
        print_wrapped("build:", "a guest has the instructions of RV32I, and with --march rv32im those of RV32IM. Write in C what another processor has instructions for.")
    if (wide)
        print_wrapped("build:", "a number has 64 bits at most. Put a larger one together from several.")
    if (undeclared)
        print_wrapped("build:", "of POSIX threads, a guest has what guest/include/pthread.h declares.")
}
