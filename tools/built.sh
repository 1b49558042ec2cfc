# Read by ./typify and ./tests, with the repository's folder in `top`: whether a program is what its sources are now.

# A crate and those that it stands on, one a line.
floors_of() {
    awk -v crate="$1" '
        /^#/ || !/:/ { next }
        { split($0, halves, ":"); split(halves[1], words, " "); below[words[1]] = halves[2] }
        END {
            found[count = 1] = crate
            seen[crate] = 1
            for (i = 1; i <= count; i++) {
                print found[i]
                number = split(below[found[i]], words, " ")
                for (k = 1; k <= number; k++)
                    if (words[k] in below && !(words[k] in seen)) {
                        seen[words[k]] = 1
                        found[++count] = words[k]
                    }
            }
        }' "$top/crates.txt"
}

# Whether `rt ci` built the crate's program, and no text that it was built from has changed since.
is_built() {
    local program="$top/crates/$1/out/$1" floors
    [ -x "$program" ] && [ ! "$top/crates.txt" -nt "$program" ] || return 1
    mapfile -t floors < <(floors_of "$1")
    [ -z "$(cd "$top/crates" && find "${floors[@]/%//src}" "${floors[@]/%//specs}" "${floors[@]/%//proofs}" -type f -newer "$program" -print -quit 2>/dev/null)" ]
}
