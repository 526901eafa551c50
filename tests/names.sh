#!/bin/bash
# Looks at crates.txt. Each library on a crate's line has to be named in a .rt or .antt file of the
# crate, and each such file below crates/ has to be of a crate that has a line. And looks at the names
# of definitions: one that a reader of the headline, the output, the findings or the trace meets has
# one meaning (maintain/two_meanings). One case for each crate and one for those names, one line for
# each that fails, and at the end 'N passed, M failed'.
cd "$(dirname "$0")/.." || exit 1
. tests/cases.sh

# the crates that have a line
listed() {
    sed -n 's/^\([a-z][a-z0-9_]*\)[^:]*:.*/\1/p' crates.txt
}

# the crates that have a file
written() {
    find crates -name out -prune -o \( -name '*.rt' -o -name '*.antt' \) -print | cut -d / -f 2
}

# unnamed CRATE: the libraries of the crate's line that none of its files names
unnamed() {
    sed -n "s/^$1[^a-z0-9_:]*: *\(..*\)/\1/p" crates.txt | tr -s ' ' '\n' | while read -r library; do
        grep -rqw --include='*.rt' --include='*.antt' --exclude-dir=out "$library" "crates/$1" || echo "it doesn't name $library;"
    done
}

# unlisted CRATE: says so where the crate has no line
unlisted() {
    listed | grep -qx "$1" || echo "it has no line in crates.txt;"
}

for crate in $({ listed; written; } | sort -u); do
    count "$crate" "$(unlisted "$crate" && unnamed "$crate")"
done
count "names of definitions" "$(maintain/two_meanings 2>&1)"

finish
