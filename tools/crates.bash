# Functions of the scripts that run `rt ci` on some crates alone, on a copy of these. They read $root, the repository.

# lines_of NAME..: the lines of crates.txt of these crates and of all that they stand on, in its order.
lines_of() {
    awk -v tops="$*" '
        function mark(name, names, k, many) {
            if (!(name in line) || needed[name]++) return
            many = split(below[name], names, " ")
            for (k = 1; k <= many; k++) mark(names[k])
        }
        { sub(/#.*/, ""); at = index($0, ":") }
        at { split(substr($0, 1, at - 1), words, " "); order[++count] = words[1]; line[words[1]] = $0
             below[words[1]] = substr($0, at + 1) }
        END { many = split(tops, names, " ")
              for (k = 1; k <= many; k++) mark(names[k])
              for (k = 1; k <= count; k++) if (needed[order[k]]) print line[order[k]] }' "$root/crates.txt"
}

# copy_crates FOLDER NAME..: copies these crates and all that they stand on into the folder, as a repository of their own
# without a wrong body.
copy_crates() {
    local folder=$1 crate part
    shift
    cp -- "$root/HANDLES" "$folder/" && lines_of "$@" >"$folder/crates.txt" || return
    while read -r crate; do
        mkdir -p "$folder/crates/$crate" || return
        for part in src specs proofs args data status stdin stdout; do
            [ ! -e "$root/crates/$crate/$part" ] || cp -R -- "$root/crates/$crate/$part" "$folder/crates/$crate/" || return
        done
    done < <(sed 's/[: ].*//' "$folder/crates.txt")
}
