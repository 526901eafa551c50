#!/bin/bash
# Looks at the pages and at the words that pages are made of. Each definition of crates/*/specs has
# a sentence above it, each law, crate and file of lemmas has words at its top, each crate stands
# below those that name it, docs/ARCHITECTURE.md names crates and files that are there, and
# docs/BELIEVE.md the files that the headline needs (maintain/pages). Each call and clause that the
# table of docs/PROOFS.md names stands in the sources (maintain/promises). Each link of a page to a file of the repository
# leads to a file. README.md has at most 900 words. One line for each case that fails, and at the
# end 'N passed, M failed'.
cd "$(dirname "$0")/.." || exit 1
. tests/cases.sh

# found TOOL: the last thing that the tool finds wrong
found() {
    local why
    why=$("maintain/$1" --check 2>&1) || tail -n 1 <<< "${why:-it failed}"
}

# broken PAGE: the links of the page that lead to no file
broken() {
    grep -oE '\]\([^)#]+' "$1" | cut -c 3- | grep -vE '^[a-z]+:' | sort -u | while read -r link; do
        [ -f "$(dirname "$1")/$link" ] || echo -n "$link leads to no file; "
    done
}

# long PAGE MOST: says how many words the page has, if these are more
long() {
    local words
    words=$(wc -w < "$1")
    [ "$words" -le "$2" ] || echo "it has $words words, and may have $2"
}

for tool in pages promises; do
    count "maintain/$tool" "$(found "$tool")"
done
for page in README.md CONTRIBUTING.md CHANGELOG.md docs/*.md; do
    count "links of $page" "$(broken "$page")"
done
count README.md "$(long README.md 900)"

finish
