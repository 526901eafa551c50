#!/bin/bash
# Tries ./install, ./package and the completions of share/: what is put, run, and taken away again,
# in folders of its own; refusals, which write nothing; and the life of the package in an empty
# root. One line for each case that fails, and at the end 'N passed, M failed'. It wants the proved
# program. What this machine has no tool for is skipped, by a line that says so.
cd "$(dirname "$0")/.." || exit 1
root=$PWD
. tests/cases.sh
needs_program
unset DESTDIR SOURCE_DATE_EPOCH
umask 022

# status_of COMMAND..: runs it, and writes its status and what it says
status_of() {
    output=$("$@" 2>&1)
    echo "status $?: $output"
}

# found FOLDER: all that is in a folder, each with its kind, mode, what a link holds, and a sum of
# its bytes
found() {
    (cd "$1" && find . -printf '%y %m %p %l\n' | LC_ALL=C sort && find . -type f -print0 | LC_ALL=C sort -z | xargs -0 sha256sum)
}

# bare_copy: a copy of the repository's files that are installed, with scripts in place of the
# programs
bare_copy() {
    rm -rf "$room/bare"
    mkdir -p "$room/bare/crates/dmlab/out"
    cp -r install package VERSION README.md CHANGELOG.md RELEASE LICENSE-* docs share tools examples "$room/bare"
    mkdir "$room/bare/maintain"
    cp maintain/manual "$room/bare/maintain"
    script "$room/bare/maintain/pages" "mkdir \"\$3\" && cd \"\$3\" && touch believe.md crates.md definitions.md laws.md lemmas.md variants.md"
    script "$room/bare/crates/dmlab/out/dmlab" "echo \"proved \$*\""
    script "$room/bare/crates/dmlab/out/dmlab.unproved" "echo \"unproved \$*\""
}

# script FILE LINE: an executable file of shell, which has this line
script() {
    printf '#!/bin/sh\n%s\n' "$2" > "$1"
    chmod +x "$1"
}

# ---- ./install: all that it puts, without the examples
put() {
    sed 's/^ *//' << END
        bin/dmlab
        bin/dmlab-aftermath
        bin/dmlab-bundle
        bin/dmlab-compare
        bin/dmlab-iolog3to2
        bin/dmlab-outages
        bin/dmlab-shrink
        bin/dmlab-sweep
        bin/dmlab-timeline
        lib/dmlab/aftermath
        lib/dmlab/bundle
        lib/dmlab/compare
        lib/dmlab/dmlab
        lib/dmlab/dmlab_tools/__init__.py
        lib/dmlab/dmlab_tools/aftermath_check.py
        lib/dmlab/dmlab_tools/aftermath_process.py
        lib/dmlab/dmlab_tools/aftermath_runs.py
        lib/dmlab/dmlab_tools/aftermath_table.py
        lib/dmlab/dmlab_tools/aftermath_words.py
        lib/dmlab/dmlab_tools/bundle_disks.py
        lib/dmlab/dmlab_tools/bundle_logs.py
        lib/dmlab/dmlab_tools/bundle_machine.py
        lib/dmlab/dmlab_tools/bundle_recording.py
        lib/dmlab/dmlab_tools/bundle_rows.py
        lib/dmlab/dmlab_tools/bundle_tables.py
        lib/dmlab/dmlab_tools/bundle_text.py
        lib/dmlab/dmlab_tools/bundle_words.py
        lib/dmlab/dmlab_tools/compact_spans.py
        lib/dmlab/dmlab_tools/compact_stack.py
        lib/dmlab/dmlab_tools/fio_logs.py
        lib/dmlab/dmlab_tools/fio_steps.py
        lib/dmlab/dmlab_tools/outage_bundles.py
        lib/dmlab/dmlab_tools/outage_words.py
        lib/dmlab/dmlab_tools/progress.py
        lib/dmlab/dmlab_tools/recorded_disks.py
        lib/dmlab/dmlab_tools/recorded_image.py
        lib/dmlab/dmlab_tools/recorded_moves.py
        lib/dmlab/dmlab_tools/recorded_scene.py
        lib/dmlab/dmlab_tools/recording_file.py
        lib/dmlab/dmlab_tools/recording_lines.py
        lib/dmlab/dmlab_tools/shrink_bundle.py
        lib/dmlab/dmlab_tools/shrink_judge.py
        lib/dmlab/dmlab_tools/shrink_numbers.py
        lib/dmlab/dmlab_tools/shrink_pairs.py
        lib/dmlab/dmlab_tools/shrink_run.py
        lib/dmlab/dmlab_tools/shrink_search.py
        lib/dmlab/dmlab_tools/shrink_words.py
        lib/dmlab/dmlab_tools/sweep_found.py
        lib/dmlab/dmlab_tools/sweep_join.py
        lib/dmlab/dmlab_tools/sweep_parts.py
        lib/dmlab/dmlab_tools/sweep_run.py
        lib/dmlab/dmlab_tools/sweep_words.py
        lib/dmlab/dmlab_tools/tab_text.py
        lib/dmlab/dmlab_tools/time_words.py
        lib/dmlab/dmlab_tools/timeline.css
        lib/dmlab/dmlab_tools/timeline.html
        lib/dmlab/dmlab_tools/timeline.js
        lib/dmlab/dmlab_tools/timeline_bars.py
        lib/dmlab/dmlab_tools/timeline_bundle.py
        lib/dmlab/dmlab_tools/timeline_draw.py
        lib/dmlab/dmlab_tools/timeline_found.py
        lib/dmlab/dmlab_tools/timeline_layout.py
        lib/dmlab/dmlab_tools/timeline_legend.py
        lib/dmlab/dmlab_tools/timeline_page.py
        lib/dmlab/dmlab_tools/timeline_perfetto.py
        lib/dmlab/dmlab_tools/timeline_svg.py
        lib/dmlab/dmlab_tools/timeline_why.py
        lib/dmlab/dmlab_tools/tool_words.py
        lib/dmlab/dmlab_tools/trace_bios.py
        lib/dmlab/dmlab_tools/trace_rows.py
        lib/dmlab/iolog3to2
        lib/dmlab/outages
        lib/dmlab/shrink
        lib/dmlab/sweep
        lib/dmlab/timeline
        share/bash-completion/completions/dmlab
        share/bash-completion/completions/dmlab-aftermath
        share/bash-completion/completions/dmlab-bundle
        share/bash-completion/completions/dmlab-compare
        share/bash-completion/completions/dmlab-iolog3to2
        share/bash-completion/completions/dmlab-outages
        share/bash-completion/completions/dmlab-shrink
        share/bash-completion/completions/dmlab-sweep
        share/bash-completion/completions/dmlab-timeline
        share/dmlab/files
        share/doc/dmlab/CHANGELOG.md
        share/doc/dmlab/LICENSE-APACHE
        share/doc/dmlab/LICENSE-MIT
        share/doc/dmlab/README.md
        share/doc/dmlab/RELEASE
        share/doc/dmlab/docs/BELIEVE.md
        share/doc/dmlab/docs/FILESYSTEM.md
        share/doc/dmlab/docs/FORMATS.md
        share/doc/dmlab/docs/INSTALL.md
        share/doc/dmlab/docs/KERNEL.md
        share/doc/dmlab/docs/PERFORMANCE.md
        share/doc/dmlab/docs/PROVED.md
        share/doc/dmlab/docs/README.md
        share/doc/dmlab/docs/RECIPES.md
        share/doc/dmlab/docs/SHRINK.md
        share/doc/dmlab/docs/SWEEP.md
        share/doc/dmlab/docs/TIMELINE.md
        share/doc/dmlab/docs/TUTORIAL.md
        share/doc/dmlab/pages/believe.md
        share/doc/dmlab/pages/crates.md
        share/doc/dmlab/pages/definitions.md
        share/doc/dmlab/pages/laws.md
        share/doc/dmlab/pages/lemmas.md
        share/doc/dmlab/pages/variants.md
        share/fish/vendor_completions.d/dmlab-aftermath.fish
        share/fish/vendor_completions.d/dmlab-bundle.fish
        share/fish/vendor_completions.d/dmlab-compare.fish
        share/fish/vendor_completions.d/dmlab-iolog3to2.fish
        share/fish/vendor_completions.d/dmlab-outages.fish
        share/fish/vendor_completions.d/dmlab-shrink.fish
        share/fish/vendor_completions.d/dmlab-sweep.fish
        share/fish/vendor_completions.d/dmlab-timeline.fish
        share/fish/vendor_completions.d/dmlab.fish
        share/man/man1/dmlab-aftermath.1
        share/man/man1/dmlab-bundle.1
        share/man/man1/dmlab-compare.1
        share/man/man1/dmlab-iolog3to2.1
        share/man/man1/dmlab-outages.1
        share/man/man1/dmlab-shrink.1
        share/man/man1/dmlab-sweep.1
        share/man/man1/dmlab-timeline.1
        share/man/man1/dmlab.1
        share/zsh/site-functions/_dmlab
END
}

prefix="$room/a folder/of mine"
same install "status 0: installed the proved program, the tools and their pages below $prefix" \
    "$(cd "$room" && status_of "$root/install" "a folder/of mine/")"
same install_files "$({ put; find examples -type f | sed 's/^/share\/doc\/dmlab\//'; } | LC_ALL=C sort)" \
    "$(cd "$prefix" && find . ! -type d | sed 's/^..//' | LC_ALL=C sort)"
same install_list "$(cd "$prefix" && find . ! -type d | sed 's/^..//' | LC_ALL=C sort)" \
    "$(grep -v '/$' "$prefix/share/dmlab/files" | LC_ALL=C sort)"
same install_program "same" "$(cmp "$dmlab" "$prefix/lib/dmlab/dmlab" && echo same)"
same install_examples "" "$(diff -r examples "$prefix/share/doc/dmlab/examples" 2>&1)"
same install_modes "755 755 755 755 644 644 755 755" "$(cd "$prefix" && stat -c %a bin/dmlab lib/dmlab/dmlab lib/dmlab/bundle \
    lib/dmlab/iolog3to2 lib/dmlab/dmlab_tools/fio_logs.py share/man/man1/dmlab.1 share/doc/dmlab/examples/tutorial/sweep.sh bin | paste -s -d ' ')"
for page in LICENSE-MIT LICENSE-APACHE RELEASE CHANGELOG.md docs/FORMATS.md; do
    same "install_$page" "same" "$(cmp "$page" "$prefix/share/doc/dmlab/$page" && echo same)"
done

# in_text FILE: the page, where links to what isn't installed are plain text
in_text() {
    sed -E 's/\[([^][]*)\]\((\.\.\/)?(crates\/|CONTRIBUTING|DECISIONS|PROOFS)[^)]*\)/\1/g' "$1"
}
maintain/pages --top .. "$room/pages"
for page in "$room"/pages/*.md; do
    same "install_${page##*/}" "" "$(in_text "$page" | diff - "$prefix/share/doc/dmlab/pages/${page##*/}" 2>&1)"
done
for page in docs/BELIEVE.md docs/PROVED.md; do
    same "install_$page" "" "$(in_text "$page" | diff - "$prefix/share/doc/dmlab/$page" 2>&1)"
done

# the installed pages need no network and no other file: each link leads to a place of its page or
# to an installed file
same install_links "" "$(cd "$prefix/share/doc/dmlab" && find . -name '*.md' | while read -r page; do
    grep -oE '\]\([^)#]+' "$page" | cut -c 3- | sort -u | while read -r link; do
        [ -f "$(dirname "$page")/$link" ] || echo "$page: $link"
    done
done)"

# the text of the tag is of this version, and so is the changelog's first section
same release "dmlab $(cat VERSION)" "$(head -n 1 RELEASE)"
same changelog "$(cat VERSION)" "$(grep -m 1 '^## ' CHANGELOG.md | cut -d ' ' -f 2)"

# what is installed runs: the program, the tools through their links and a link to these, from any
# folder
mkdir "$room/elsewhere"
ln -s "$prefix/bin/dmlab-iolog3to2" "$prefix/bin/dmlab-bundle" "$room/elsewhere"
example=$prefix/share/doc/dmlab/examples/lost_write.bundle
same run_program "$(cat examples/lost_write.out)" "$("$prefix/bin/dmlab" sim --seed 1 < "$example")"
same run_program_on_a_file "$(cat examples/lost_write.out)" "$("$prefix/bin/dmlab" sim --seed 1 "$example")"
same run_program_on_no_file "status 3: dmlab: nothing: No such file or directory (os error 2)" "$(status_of "$prefix/bin/dmlab" sim --seed 1 nothing)"
same run_sweep "$(cat examples/tutorial/sweep.out)" "$(PATH="$prefix/bin:$PATH" "$prefix/share/doc/dmlab/examples/tutorial/sweep.sh")"
for folder in "$prefix/bin" "$room/elsewhere"; do
    same run_iolog3to2 "$(cat tests/tools/milliseconds.out)" \
        "$(cd / && "$folder/dmlab-iolog3to2" -m /dev/mapper/wal < "$root/tests/tools/milliseconds.iolog" 2>&1)"
    read -r -a words < tests/tools/stack/words
    same run_bundle "$(cat tests/tools/stack/bundle)" "$(cd tests/tools/stack && "$folder/dmlab-bundle" "${words[@]}" 2>&1)"
done
workload=$prefix/share/doc/dmlab/examples/filesystem
same run_aftermath "1 1 0 db - {}" "$("$prefix/bin/dmlab-aftermath" "$workload/db.bundle" --recording "$workload/db.log.xz" -- \
    echo {} 2> "$room/told" | tail -n 1 | tr '\t' ' ')"
same run_outages "962" "$("$prefix/bin/dmlab-outages" "$workload/db.bundle" --outage disk=error --for 1ms --at every-write \
    --into "$room/outages" 2> "$room/told"; find "$room/outages" -type f | wc -l)"
# each tool tells its help by the name of its command, and finds the program beside it
for tool in aftermath bundle compare iolog3to2 outages shrink sweep timeline; do
    same "help_of_$tool" "0 dmlab-$tool" "$("$prefix/bin/dmlab-$tool" --help > "$room/told" 2>&1; echo "$? $(head -n 1 "$room/told" | cut -d ' ' -f 1)")"
    same "help_of_${tool}_in_the_clone" "0 tools/$tool" "$("tools/$tool" --help > "$room/told" 2>&1; echo "$? $(head -n 1 "$room/told" | cut -d ' ' -f 1)")"
done
same run_shrink "disk write 0 512" "$(cd "$room/elsewhere" && "$prefix/bin/dmlab-shrink" "$example" --lost 2> "$room/told" | grep -o 'disk write.*')"
"$prefix/bin/dmlab" trace "$example" > "$room/run.trace" 2> "$room/told"
same run_timeline "status 0: svg" "$(cd "$room" && status_of "$prefix/bin/dmlab-timeline" run.trace --bundle "$example" --svg run.svg)$(grep -o -m 1 '^<svg' "$room/run.svg" | tr -d '<')"
same run_compare "status 0: the traces are the same: 26 events" "$(status_of "$prefix/bin/dmlab-compare" "$room/run.trace" "$room/run.trace")"
same run_sweep_tool "4 seeds are there" "$("$prefix/bin/dmlab-sweep" "$example" --seeds 0..3 --into "$room/swept" 2>&1 | grep -o '4 seeds are there')"
# the pages for users name the installed commands, and the commands of README's first run and of a recipe are those
for page in README.md docs/FILESYSTEM.md docs/RECIPES.md docs/SHRINK.md docs/SWEEP.md docs/TIMELINE.md docs/TUTORIAL.md; do
    same "commands_of_$page" "" "$(grep -nE '(^|[^a-z])(\./dmlab |tools/[a-z])' "$prefix/share/doc/dmlab/$page")"
done
same command_of_readme "$(cat examples/lost_write.out)" "$(cd "$prefix/share/doc/dmlab" && PATH="$prefix/bin:$PATH" bash -c \
    "$(grep -o 'dmlab sim --seed 1 examples/lost_write.bundle' README.md)")"
same command_of_recipes "$(printf 'digest %s\n' '35d7a6f863c5658a first=0 count=37' '132232d41cdb1e2e first=1 count=13' \
    'ab59d22aa53320f0 first=2 count=21' '86a0ed521fa6372b first=5 count=29')" "$(cd "$prefix/share/doc/dmlab" &&
    PATH="$prefix/bin:$PATH" bash -c "$(grep '^dmlab sweep --last 99 examples/recipes/race' docs/RECIPES.md)" 2> "$room/told")"
same folder_of_filesystem "$prefix/share/doc/dmlab" "$(lab=
    eval "$(grep '^lab=' "$prefix/share/doc/dmlab/docs/FILESYSTEM.md")"; echo "$lab")"
same tools_of_filesystem "aftermath bundle outages shrink timeline" "$(grep -oE '(^|[ "])dmlab-[a-z]+' "$prefix/share/doc/dmlab/docs/FILESYSTEM.md" |
    cut -d - -f 2 | sort -u | paste -s -d ' ')"
same run_writes_nothing "" "$(find "$prefix" -name '*.pyc')"

# twice is as once, also where the first one's list had a file that isn't put now
found "$prefix" > "$room/once"
same twice "status 0: installed the proved program, the tools and their pages below $prefix" "$(status_of ./install "$prefix")"
same twice_same "" "$(found "$prefix" | diff "$room/once" - 2>&1)"
echo old > "$prefix/bin/dmlab-old"
echo bin/dmlab-old >> "$prefix/share/dmlab/files"
./install "$prefix" > "$room/told" 2>&1
same earlier_file "" "$(found "$prefix" | diff "$room/once" - 2>&1)"

# removed, all is gone that was put; a file of one's own stays, with the folders that it stands in
echo mine > "$prefix/share/man/mine"
same remove_leaves_mine "status 0: removed the files that were put below $prefix
share/man/mine" "$(status_of ./install --remove "$prefix"; cd "$prefix" && find . ! -type d | sed 's/^..//')"
same remove_folders "share share/man" "$(cd "$prefix" && find . -mindepth 1 -type d | sed 's/^..//' | sort | paste -s -d ' ')"
same remove_twice "status 1: install: there is no $prefix/share/dmlab/files: nothing was put there" \
    "$(status_of ./install --remove "$prefix")"
rm -r "$room/a folder"
./install "$prefix" > "$room/told" 2>&1 && ./install --remove "$prefix" > "$room/told" 2>&1
same remove_prefix "status 2: " "$(status_of test -e "$room/a folder" | sed 's/status 1/status 2/')"
mkdir -p "$room/had/bin" "$room/had/share/man/man1"
./install "$room/had" > "$room/told" 2>&1 && ./install "$room/had" > "$room/told" 2>&1 && ./install --remove "$room/had" > "$room/told" 2>&1
same remove_leaves_folders ". ./bin ./share ./share/man ./share/man/man1" "$(cd "$room/had" && find . | sort | paste -s -d ' ')"
(cd "$room" && DESTDIR=stage "$root/install" /usr > told 2>&1)
same destdir "bin lib share" "$(cd "$room/stage/usr" && find . -mindepth 1 -maxdepth 1 -printf '%f\n' | sort | paste -s -d ' ')"
DESTDIR=$room/stage ./install --remove /usr > "$room/told" 2>&1
same destdir_removed "gone" "$([ -e "$room/stage" ] || echo gone)"

# ---- refusals, which write nothing
# in_the_way NAME TEXT: what stands in the folder `had` is told, and the folder stays as it is
in_the_way() {
    found "$room/had" > "$room/before"
    same "$1" "status 1: install: $2" "$(status_of ./install "$room/had")"
    same "$1_same" "" "$(found "$room/had" | diff "$room/before" - 2>&1)"
}
echo other > "$room/had/bin/dmlab"
in_the_way other_program "$room/had/bin/dmlab is in the way: ./install didn't put it"
rm "$room/had/bin/dmlab" && ln -s nowhere "$room/had/share/man/man1/dmlab.1"
in_the_way link_in_the_way "$room/had/share/man/man1/dmlab.1 is in the way: ./install didn't put it"
rm "$room/had/share/man/man1/dmlab.1" && echo file > "$room/had/lib"
in_the_way file_for_folder "$room/had/lib is in the way: it is no folder"
rm "$room/had/lib" && mkdir "$room/had/share/dmlab" && echo ../../etc/mine > "$room/had/share/dmlab/files"
in_the_way strange_list "$room/had/share/dmlab/files isn't as ./install writes it"
same strange_list_removed "status 1: install: $room/had/share/dmlab/files isn't as ./install writes it" \
    "$(status_of ./install --remove "$room/had")"
same prefix_is_file "status 1: install: $root/README.md is in the way: it is no folder" "$(status_of ./install README.md)"

for words in '' '-x' '--unproved' '--remove' '/a /b' '--unproved --remove /a'; do
    read -r -a given <<< "$words"
    same "install_words_$words" "status 2: usage: ./install [--unproved | --remove] PREFIX" "$(status_of ./install "${given[@]}")"
done
for script in install package build test; do
    same "${script}_help" "status 0: usage: ./$script" "$(status_of "./$script" --help | grep -oE "^status 0: usage: ./[a-z]+")"
done
same build_words "status 2: usage: ./build" "$(status_of ./build x | grep -oE "^status 2: usage: ./[a-z]+")"
same test_words "status 2: usage: ./test" "$(status_of ./test -x | grep -oE "^status 2: usage: ./[a-z]+")"
same install_empty_prefix "status 2: usage: ./install [--unproved | --remove] PREFIX" "$(status_of ./install '')"

# missing FILE WORDS WHY: a copy without the file refuses, and makes no folder
missing() {
    bare_copy
    rm -r "${room:?}/bare/$1"
    read -r -a given <<< "$2"
    same "missing_$1" "status 1: install: $3" "$(status_of "$room/bare/install" "${given[@]}" "$room/new")"
    same "missing_$1_nothing" "nothing" "$([ -e "$room/new" ] || echo nothing)"
}
missing crates/dmlab/out/dmlab '' 'there is no proved program: ./build makes one, and --unproved takes an unproved one'
missing crates/dmlab/out/dmlab.unproved --unproved 'there is no unproved program: ./dmlab --help makes one'
missing examples '' 'there is no folder examples'
missing tools/dmlab_tools '' 'there is no folder tools/dmlab_tools'
for file in docs/dmlab.1 docs/dmlab-bundle.1 docs/KERNEL.md tools/iolog3to2 share/dmlab \
    share/_dmlab LICENSE-MIT RELEASE maintain/pages maintain/manual docs/SWEEP.md tools/shrink; do
    missing "$file" '' "there is no $file"
done

# ---- the unproved program: it says so when it is put and when it is run, and goes where the proved one comes
bare_copy
same unproved "status 0: installed the unproved program, the tools and their pages below $room/new" \
    "$(status_of "$room/bare/install" --unproved "$room/new")"
ln -s "$room/new/bin/dmlab" "$room/elsewhere/dmlab"
same unproved_run "dmlab: this is an unproved build
unproved sim --seed 2" "$(cd / && "$room/elsewhere/dmlab" sim --seed 2 2>&1)"
"$room/bare/install" "$room/new" > "$room/told" 2>&1
same proved_after_unproved "proved check" "$("$room/new/bin/dmlab" check 2>&1; find "$room/new" -name '*unproved*')"
"$room/bare/install" --unproved "$room/new" > "$room/told" 2>&1
same unproved_after_proved "dmlab: this is an unproved build
unproved check" "$("$room/new/bin/dmlab" check 2>&1)"
"$room/bare/install" --remove "$room/new" > "$room/told" 2>&1
same unproved_removed "gone" "$([ -e "$room/new" ] || echo gone)"

# ---- completions of bash: WORDS, of which the last is completed, and what may come
completed() {
    # shellcheck source=share/dmlab.bash
    . share/dmlab.bash
    read -r -a COMP_WORDS <<< "$1"
    [ "${1% }" = "$1" ] || COMP_WORDS+=('')
    COMP_CWORD=$((${#COMP_WORDS[@]} - 1))
    _dmlab
    echo "${COMPREPLY[*]}"
}
while IFS='|' read -r words wanted; do
    same "completed_$words" "$wanted" "$(completed "$words")"
done << 'END'
dmlab |check sim threads audit trace trace-history disks disks-history sweep --help --version
dmlab s|sim sweep
dmlab trace|trace trace-history
dmlab trace |
dmlab trace --|--seed --prompt --help
dmlab trace-history -|--help
dmlab di|disks disks-history
dmlab disks -|--seed --prompt --help
dmlab disks-history -|--help
dmlab sweep --|--first --last --prompt --eio --lost --corrupt --stale --misplaced --broken-sync --fail --by-line --disks --help
dmlab sweep --last 3 --s|--stale
dmlab sweep --last |
dmlab -|--help --version
dmlab sim |
dmlab sim -|--seed --prompt --history --eio --lost --corrupt --stale --misplaced --broken-sync --fail --help
dmlab sim --s|--seed --stale
dmlab sim --seed |
dmlab sim --seed 7 --hi|--history
dmlab threads --|--history --help
dmlab check --|--all --help
dmlab audit |
dmlab sim < exam|
dmlab sim --history > exam|
dmlab < check au|audit
dmlab < first.bundle sim --s|--seed --stale
dmlab replay|
END
typed() {
    cat << 'END'
dmlab th|dmlab threads 
dmlab trace-|dmlab trace-history 
dmlab sweep --la|dmlab sweep --last 
dmlab sweep --last CHANGE|dmlab sweep --last CHANGE
dmlab sweep --last 9 --st|dmlab sweep --last 9 --stale 
dmlab sweep --last 9 --eio CHANGE|dmlab sweep --last 9 --eio CHANGELOG.md 
dmlab sweep --last 9 CHANGE|dmlab sweep --last 9 CHANGELOG.md 
dmlab trace-history CHANGE|dmlab trace-history CHANGELOG.md 
dmlab sim --hi|dmlab sim --history 
dmlab disks-|dmlab disks-history 
dmlab disks --se|dmlab disks --seed 
dmlab sim --br|dmlab sim --broken-sync 
dmlab sweep --last 9 --eio --by|dmlab sweep --last 9 --eio --by-line 
dmlab sim --seed 3 --pr|dmlab sim --seed 3 --prompt 
dmlab threads --pr|dmlab threads --pr
dmlab check --a|dmlab check --all 
dmlab check < CHANGE|dmlab check < CHANGELOG.md 
dmlab sim --seed 3 <CHANGE|dmlab sim --seed 3 <CHANGELOG.md 
dmlab sim 2> CHANGE|dmlab sim 2> CHANGELOG.md 
dmlab < CHANGELOG.md au|dmlab < CHANGELOG.md audit 
dmlab sim CHANGE|dmlab sim CHANGELOG.md 
dmlab audit -- CHANGE|dmlab audit -- CHANGELOG.md 
dmlab sim --seed CHANGE|dmlab sim --seed CHANGE
dmlab CHANGE|dmlab CHANGE
END
}
same completion_is_told "complete -F _dmlab dmlab" "$(bash -c '. share/dmlab.bash; complete -p dmlab')"

# the tools stand on the path
./install "$room/tools" > "$room/told" 2>&1

# the same by the key TAB in a shell of its own, bash and then zsh, where files stand behind a
# command, < and >
same completed_by_key "$(typed | sed 's/.*|//')" "$(typed | sed 's/|.*//' | tests/tab_key.py bash share/dmlab.bash 2>&1)"
if command -v zsh > /dev/null; then
    same completed_by_zsh "$(typed | sed 's/.*|//')" "$(typed | sed 's/|.*//' | tests/tab_key.py zsh share/_dmlab 2>&1)"
else
    echo "skipped: no zsh here, so its completion isn't tried"
fi

# completed_by_fish LINE: what fish offers for the line, without its remarks
completed_by_fish() {
    HOME=$room fish --no-config -c "source share/dmlab.fish; complete -C \"\$argv\"" "$1" 2>&1 | cut -f 1 | paste -s -d ' '
}
if command -v fish > /dev/null; then
    while IFS='|' read -r words wanted; do
        same "fish_$words" "$wanted" "$(completed_by_fish "$words")"
    done << 'END'
dmlab |audit check disks disks-history sim sweep threads trace trace-history
dmlab -|-h -V --help --version
dmlab th|threads
dmlab sim --|--broken-sync --corrupt --eio --fail --help --history --lost --misplaced --prompt --seed --stale
dmlab sim --seed 7 --hi|--history
dmlab sim --seed |
dmlab sim --seed CHANGE|
dmlab threads --|--help --history
dmlab check --|--all --help
dmlab audit --|--help
dmlab trace --|--help --prompt --seed
dmlab trace-history --|--help
dmlab disks --|--help --prompt --seed
dmlab disks-history --|--help
dmlab sweep --|--broken-sync --by-line --corrupt --disks --eio --fail --first --help --last --lost --misplaced --prompt --stale
dmlab sweep --last CHANGE|
dmlab sim CHANGE|CHANGELOG.md
dmlab check -- CHANGE|CHANGELOG.md
dmlab audit < CHANGE|CHANGELOG.md
dmlab CHANGE|
END
else
    echo "skipped: no fish here, so its completion isn't tried"
fi

# each command that dmlab.1 has is completed by each of the three, each option too
for word in check sim threads audit trace trace-history disks disks-history sweep seed prompt history first last eio lost corrupt stale misplaced \
    broken-sync fail by-line all help version; do
    same "page_has_$word" "has" "$(grep -Eq "^\.B.*${word//-/.*}" docs/dmlab.1 && echo has)"
    for file in dmlab.bash _dmlab dmlab.fish; do
        same "${file}_has_$word" "$word" "$(grep -ow -m 1 -- "$word" "share/$file" | head -n 1)"
    done
done

# the tools: their options by their helps, and files
tools_typed() {
    cat << 'END'
dmlab-shrink --ren|dmlab-shrink --renumber 
dmlab-timeline --per|dmlab-timeline --perfetto 
dmlab-timeline CHANGE|dmlab-timeline CHANGELOG.md 
END
}
for shell in bash zsh; do
    file=share/dmlab.bash
    [ "$shell" = bash ] || file=share/_dmlab
    if command -v "$shell" > /dev/null; then
        same "tools_by_$shell" "$(tools_typed | sed 's/.*|//')" \
            "$(tools_typed | sed 's/|.*//' | PATH="$room/tools/bin:$PATH" tests/tab_key.py "$shell" "$file" 2>&1)"
    fi
done
if command -v fish > /dev/null; then
    same tools_by_fish '--seconds --seed --seeds --stale' "$(PATH="$room/tools/bin:$PATH" HOME=$room fish --no-config \
        -c 'source share/dmlab.fish; complete -C "dmlab-shrink --s"' 2>&1 | cut -f 1 | paste -s -d ' ')"
fi

# ---- manual pages: groff finds no fault in them, and they have the options that the tools tell
if command -v groff > /dev/null; then
    for page in docs/*.1 "$room/tools/share/man/man1"/*.1; do
        same "groff_$page" "" "$(groff -ww -b -man -Tutf8 "$page" 2>&1 > "$room/told")"
    done
else
    echo "skipped: no groff here, so nothing has set the manual pages"
fi
# long TEXT: the long options that a text has
long() {
    sed 's/\\-/-/g; s/\\f.//g' <<< "$1" | grep -oE -- '--[a-z]+(-[a-z]+)*' | sort -u
}
for tool in aftermath outages; do
    same "${tool}_page" "$(long "$("tools/$tool" --help)")" "$(long "$(cat "docs/dmlab-$tool.1")")"
done
same bundle_page "$(tools/bundle --help | grep -oE '^ +--?[a-z]+' | tr -d ' ' | sort)" \
    "$(sed 's/\\-/-/g' docs/dmlab-bundle.1 | grep -A 1 '^\.TP' | grep -oE '^\.BI? --?[a-z]+' | sed 's/.* //' | sort)"

# ---- ./package: words and refusals first
for words in '-x' '--unproved -x' '/a /b'; do
    read -r -a given <<< "$words"
    same "package_words_$words" "status 2: usage: ./package [--unproved] [FOLDER]" "$(status_of ./package "${given[@]}")"
done
same package_no_folder "status 1: package: there is no folder $room/nothing" "$(status_of ./package "$room/nothing")"

# field NAME DEB: a field of the package's control, or all fields where the name is empty
field() {
    dpkg-deb -f "$2" ${1:+"$1"}
}

# no_package FILE TEXT WORDS..: a copy without the file makes no package
no_package() {
    bare_copy
    rm -f "$room/bare/$1"
    same "no_package_$1" "status 1: $2" "$(SOURCE_DATE_EPOCH=1700000000 status_of "$room/bare/package" "${@:3}")"
    same "no_package_$1_nothing" "" "$(find "$room/bare/out" -type f)"
}

# try_package: makes it twice, and looks at what it has
try_package() {
    no_package VERSION 'package: there is no file VERSION'
    no_package crates/dmlab/out/dmlab 'install: there is no proved program: ./build makes one, and --unproved takes an unproved one'
    bare_copy
    same package_no_commit "status 1: package: git tells no commit here, so SOURCE_DATE_EPOCH has to tell the time" \
        "$(GIT_DIR=$room/nothing status_of "$room/bare/package")"
    same package_no_program "status 1: package: the program doesn't run here, so that nothing tells its libraries" \
        "$(SOURCE_DATE_EPOCH=1700000000 status_of "$room/bare/package")"
    printf '#!/bin/sh\necho "Usage: dmlab <COMMAND>"\n' > "$room/bare/crates/dmlab/out/dmlab"
    SOURCE_DATE_EPOCH=4000000000 "$room/bare/package" > "$room/told" 2>&1
    same package_later_time "2096-10-02" "$(TZ=UTC dpkg-deb -c "$(cat "$room/told")" | awk '{ print $4 }' | sort -u)"
    same package_no_library "Version Architecture" "$(field '' "$(cat "$room/told")" | grep -oE '^(Version|Architecture|Depends)' | paste -s -d ' ')"
    mkdir "$room/one" "$room/two"
    moment=$(git log -1 --format=%ct 2> "$room/told") || export SOURCE_DATE_EPOCH=${moment:=1700000000}
    name=dmlab_$(cat VERSION)-1_$(dpkg --print-architecture).deb
    same package "status 0: $room/one/$name" "$(status_of ./package "$room/one")"
    (umask 077 && cd "$room" && TZ=Asia/Tokyo SOURCE_DATE_EPOCH=$moment "$root/package" two > told 2>&1)
    same package_same_bytes "same" "$(cmp "$room/one/$name" "$room/two/$name" && echo same)"
    deb=$room/one/$name
    same package_version "$(cat VERSION)-1" "$(field Version "$deb")"
    same package_says_nothing_of_unproved "" "$(field Description "$deb" | grep -i unproved)"
    same package_owner "root/root" "$(dpkg-deb -c "$deb" | awk '{ print $2 }' | sort -u)"
    same package_time "$(date -d "@$moment" '+%Y-%m-%d %H:%M')" "$(dpkg-deb -c "$deb" | awk '{ print $4, $5 }' | sort -u)"
    if command -v lintian > "$room/told"; then
        same package_by_lintian "" "$(lintian --fail-on error "$deb" 2>&1 | grep '^E:')"
    else
        echo "skipped: no lintian here, so it has found no fault in the package"
    fi
    same package_recommends "python3 (>= 3.9)" "$(field Recommends "$deb")"
    if command -v dpkg-shlibdeps > /dev/null; then
        mkdir "$room/source" "$room/source/debian" && printf 'Source: dmlab\n\nPackage: dmlab\nArchitecture: any\n' > "$room/source/debian/control"
        same package_depends "$(cd "$room/source" && dpkg-shlibdeps -O "$dmlab" 2> "$room/told" | sed 's/.*Depends=//')" \
            "$(field Depends "$deb")"
    else
        echo "skipped: no dpkg-shlibdeps here, so nothing else has told what the package depends on"
    fi
}

# an unproved package says so, and is older than the proved one
try_unproved_package() {
    bare_copy
    cp "$dmlab" "$room/bare/crates/dmlab/out/dmlab.unproved"
    SOURCE_DATE_EPOCH=1700000000 "$room/bare/package" --unproved > "$room/told" 2>&1
    old=$room/bare/out/dmlab_$(cat VERSION)~unproved-1_$(dpkg --print-architecture).deb
    same unproved_package "$old" "$(cat "$room/told")"
    same unproved_package_says_so "This is an unproved build" "$(field Description "$old" | grep -o 'This is an unproved build')"
    same unproved_package_older "status 0: " "$(status_of dpkg --compare-versions "$(field Version "$old")" lt "$(field Version "$deb")")"
}

# dpkg_in_room WORDS..: dpkg on the empty root, as root or as if
dpkg_in_room() {
    PATH=$PATH:/usr/sbin:/sbin "${as_root[@]}" dpkg --root="$room/root" --log="$room/dpkg.log" "$@"
}

# run_in_room: the packaged program on a packaged example, in the root itself where this user may
# go there, which gets the shell and the dirname of its script, and the libraries of all three
run_in_room() {
    local example=/usr/share/doc/dmlab/examples/lost_write.bundle commands=(/bin/sh /usr/bin/dirname)
    if [ "$(id -u)" = 0 ] && chroot / true 2> "$room/told"; then
        { printf '%s\n' "${commands[@]}"; ldd "$dmlab" "${commands[@]}" | grep -oE '/[^ ]+ '; } | sort -u | while read -r file; do
            mkdir -p "$room/root$(dirname "$file")" && cp -L "$file" "$room/root$file" && echo "$file" >> "$room/libraries"
        done
        chroot "$room/root" /usr/bin/dmlab sim --seed 1 "$example"
    else
        "$room/root/usr/bin/dmlab" sim --seed 1 "$room/root$example"
    fi
}

# left: the files in the empty root that aren't dpkg's own or the libraries' of the run
left() {
    (cd "$room/root" && find . ! -type d ! -path './var/lib/dpkg/*' | sed 's/^.//' | grep -Fvx -f "$room/libraries")
}

# the package's life in an empty root, whose list of packages has those that it depends on as this
# machine has them
try_life() {
    mkdir -p "$room/root/var/lib/dpkg/info" "$room/root/var/lib/dpkg/updates"
    echo none > "$room/libraries"
    local fields=
    for name in Package Status Version Architecture Multi-Arch; do
        fields+="$name: \${$name}\n"
    done
    field Depends "$deb" | tr , '\n' | awk '{ print $1 }' |
        xargs -r dpkg-query -W -f "${fields}Maintainer: none\nDescription: none\n\n" > "$room/root/var/lib/dpkg/status"
    same life_install "status 0" "$(status_of dpkg_in_room -i "$deb" | grep -o '^status [0-9]*')"
    same life_told "Status: install ok installed" "$(dpkg_in_room -s dmlab 2>&1 | grep '^Status')"
    same life_files "$(dpkg-deb --fsys-tarfile "$deb" | tar t | sed 's/^\.//' | grep -v '/$' | sort)" "$(left | sort)"
    same life_sums "" "$(cd "$room/root" && md5sum --quiet -c var/lib/dpkg/info/dmlab.md5sums 2>&1)"
    same life_program "same" "$(cmp "$dmlab" "$room/root/usr/lib/dmlab/dmlab" && echo same)"
    same life_run "$(cat examples/lost_write.out)" "$(run_in_room 2> "$room/told")"
    same life_tool "$(cat tests/tools/milliseconds.out)" \
        "$("$room/root/usr/bin/dmlab-iolog3to2" -m /dev/mapper/wal < tests/tools/milliseconds.iolog 2>&1)"
    for page in dmlab dmlab-bundle dmlab-iolog3to2; do
        same "life_page_$page" "same" "$(gzip -dc "$room/root/usr/share/man/man1/$page.1.gz" | cmp - "docs/$page.1" && echo same)"
    done
    same life_changelog "$(cat CHANGELOG.md)" "$(gzip -dc "$room/root/usr/share/doc/dmlab/changelog.gz")"
    same life_debian_changelog "dmlab ($(field Version "$deb")) unstable; urgency=medium" \
        "$(gzip -dc "$room/root/usr/share/doc/dmlab/changelog.Debian.gz" | head -n 1)"
    same life_remove "status 0" "$(status_of dpkg_in_room -r dmlab | grep -o '^status [0-9]*')"
    same life_nothing_left "" "$(left)"
    same life_no_folder_left "" "$(find "$room/root/usr" -iname '*dmlab*' 2> "$room/told")"
    same life_gone "status 1" "$(status_of dpkg_in_room -s dmlab | grep -o '^status [0-9]*')"
}

if ! command -v dpkg-deb > "$room/told" || ! command -v dpkg > "$room/told"; then
    echo "skipped: no dpkg-deb or no dpkg here, so no package is made"
else
    try_package
    try_unproved_package
    as_root=()
    [ "$(id -u)" = 0 ] || as_root=(fakeroot)
    if [ "$(id -u)" = 0 ] || command -v fakeroot > "$room/told"; then
        try_life
    else
        echo "skipped: neither root nor fakeroot here, so the package isn't installed"
    fi
fi

finish
