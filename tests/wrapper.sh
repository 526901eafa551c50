#!/bin/bash
# Tries which words ./dmlab and the command that ./install puts hand on to the program. A script
# stands in for the program: it writes its words, and then what standard input has. Each case is run
# by ./dmlab, by the installed command, some by links to both. Then the program itself is tried: the
# word of a bundle's file, wherever it stands, and words that name none. One line for each case that
# fails, and at the end 'N passed, M failed'.
cd "$(dirname "$0")/.." || exit 1
. tests/cases.sh
bundle=$PWD/examples/first.bundle
unset GLIBC_TUNABLES

# the two commands, in folders with blanks in their names, and files to read
program=$'#!/bin/sh\n[ "$1" != tunables ] || printf "%s" "$GLIBC_TUNABLES"\nprintf "<%s>" "$@"\necho\ncat'
clone="$room/a clone" prefix="$room/a prefix"
mkdir -p "$clone/crates/dmlab/out" "$prefix/bin" "$prefix/lib/dmlab" "$room/files/folder" "$room/links/deep"
cp -r dmlab share "$clone"
cp share/dmlab "$prefix/bin"
echo "$program" | tee "$clone/crates/dmlab/out/dmlab" > "$prefix/lib/dmlab/dmlab"
chmod +x "$clone/crates/dmlab/out/dmlab" "$prefix/lib/dmlab/dmlab"
for file in one 'two words' -dash x:-y check 3; do
    echo "in $file" > "$room/files/$file"
done

# runs NAME STATUS TEXT WORDS..: the command at hand ends so, where standard input has the line
# `typed`
runs() {
    output=$(cd "$room/files" && echo typed | "$command" "${@:4}" 2>&1)
    same "$1 by ${command#"$room/"}" "status $2: $3" "status $?: $output"
}

# the cases, by the command at hand: each word goes on as it is, and glibc is asked for large pages
# unless it was told something else
try_words() {
    runs large_pages 0 $'glibc.malloc.hugetlb=1<tunables>\ntyped' tunables
    GLIBC_TUNABLES='' runs no_large_pages 0 $'<tunables>\ntyped' tunables
    runs a_file 0 $'<sim><one>\ntyped' sim one
    runs a_path 0 $'<check><'"$room"$'/files/one>\ntyped' check "$room/files/one"
    runs behind_a_seed 0 $'<sim><--seed><3><--history><one>\ntyped' sim --seed 3 --history one
    runs blanks 0 $'<sim><--prompt><two words>\ntyped' sim --prompt 'two words'
    runs a_dash_behind_dashes 0 $'<sim><--><-dash>\ntyped' sim -- -dash
    runs a_dash_alone 0 $'<sim><->\ntyped' sim -
    runs an_empty_word 0 $'<sim><>\ntyped' sim ''
    runs no_word 0 $'<>\ntyped'
}

# reads NAME STATUS TEXT WORDS..: the program itself ends so, where standard input has no bundle;
# TEXT is the first line that it writes, on standard error or output
reads() {
    output=$(cd "$room/files" && echo typed | "$dmlab" "${@:4}" 2>&1 | head -n 1; exit "${PIPESTATUS[1]}")
    same "$1 read by the program" "status $2: $3" "status $?: $output"
}

# the cases of a bundle's file
try_files() {
    local told="accepted budget=13"
    cp "$bundle" "$room/files/bundle"
    cp "$bundle" "$room/files/two words"
    cp "$bundle" "$room/files/-dash"
    cp "$bundle" "$room/files/3"
    reads a_file 0 "$told" sim bundle
    reads a_path 0 "$told" check "$room/files/bundle"
    reads before_an_option 0 "$told" sim bundle --prompt
    reads behind_a_seed 0 "$told" sim --seed 3 --history bundle
    reads blanks 0 "$told" sim 'two words'
    reads a_dash_behind_dashes 0 "$told" sim -- -dash
    reads a_name_like_a_seed 0 "$told" sim --seed 3 3
    reads threads 0 "$told" threads bundle
    reads trace 0 $'place\tclock\tevent\tlog\tline\tbio\tparent\tkind\tdevice\tsectors\thappened\twriters' trace bundle
    reads nothing_more 1 "refused bundle 1 Stray" sim
    reads the_seed_is_no_file 1 "refused bundle 1 Stray" sim --seed 3
    reads a_dash_alone 1 "refused bundle 1 Stray" sim -
    reads no_such_file 3 'dmlab: two: No such file or directory (os error 2)' sim two
    reads no_such_file_with_blanks 3 'dmlab: two  words: No such file or directory (os error 2)' sim 'two  words'
    reads a_folder 3 'dmlab: folder: is a directory' sim --seed 3 folder
    reads two_files 2 "error: unexpected argument 'bundle' found" sim bundle bundle
    # a file that may not be read, which root may
    touch "$room/files/secret" && chmod 0 "$room/files/secret"
    [ -r "$room/files/secret" ] || reads unreadable 3 'dmlab: secret: Permission denied (os error 13)' check secret
}

# by_links WHOLE: the command by links to it: a whole one, a relative one in another folder, both
# behind one more link, and one that is found on the path
by_links() {
    local base
    base=$(basename "$(dirname "$1")")
    ln -s "$1" "$room/links/$base"
    ln -s "../../${1#"$room/"}" "$room/links/deep/$base"
    ln -s "deep/$base" "$room/links/twice $base"
    mkdir "$room/path" && ln -s "../links/twice $base" "$room/path/dmlab"
    for command in "$room/links/$base" "$room/links/deep/$base" "$room/beside/$base" "$room/links/twice $base"; do
        runs a_file 0 $'<sim><--prompt><one>\ntyped' sim --prompt one
        runs nothing_more 0 $'<sim>\ntyped' sim
    done
    command=dmlab
    PATH="$room/path:$PATH" runs "on_the_path of $base" 0 $'<sim><one>\ntyped' sim one
    rm -r "$room/path"
}

ln -s links/deep "$room/beside"
for whole in "$clone/dmlab" "$prefix/bin/dmlab"; do
    command=$whole
    try_words
    by_links "$whole"
    cd "$(dirname "$whole")" || exit 1
    for command in ./dmlab "sh dmlab"; do
        same "in_its_folder by $command" $'<sim><one>\ntyped' "$(echo typed | $command sim one 2>&1)"
    done
done

# with no program, and without the toolchain, one line says what is missing
rm "$clone/crates/dmlab/out/dmlab"
command=$clone/dmlab
mkdir "$room/few" && ln -s "$(command -v dirname)" "$(command -v readlink)" "$room/few"
PATH=$room/few runs no_toolchain 127 'dmlab: no program is made here, and there is no rt on the path to make it (docs/INSTALL.md)' sim one

needs_program
try_files

finish
