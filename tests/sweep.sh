#!/bin/bash
# Runs tools/sweep on a small program in place of dmlab, whose rows are known: what it runs, keeps,
# joins and refuses. Then it runs the commands of docs/SWEEP.md, for fewer seeds, on that program
# and on the proved one, and kills a call half way and goes on with it. What this machine has no
# tool for is skipped, by a line that says so. One line for each case that fails, and at the end 'N
# passed, M failed'.
cd "$(dirname "$0")/.." || exit 1
. tests/cases.sh
top=$PWD

# The program in place of dmlab: seeds that leave 5 or 6 of 7 have one report, each fifth seed has
# EIO, each third a lost write, each seventh a stale read, and each eleventh a corrupt read, a
# misplaced one and a broken sync, on the line of that number. Each call is a line of the file
# `calls`: its words, and how many run at once. By the first words of the bundle it is refused, a
# call waits until so many run at once, fails or waits for the file `hold` to go where its first
# seed isn't below a number, leaves out a seed, writes another count, findings that weren't asked
# for or those of the next seeds, or the program changes.
cat > "$room/small" << 'END'
#!/usr/bin/env python3
import os, sys, time

def running():
    return sum(name.startswith("running.") for name in os.listdir())

kind, *rest = (sys.stdin.read().split() or [""])[:2]
words, least = sys.argv[1:], int(rest[0]) if kind in ("meets", "fails", "holds") else 0
first, last = int(words[2]), int(words[4])
own = f"running.{first}.{os.getpid()}"
open(own, "w").close()
with open("calls", "a") as calls:
    calls.write(f"{' '.join(words)}: {running()}\n")
for moment in range(3000):
    if kind == "meets" and running() >= least:
        open("met", "w").close()
    if not (kind == "meets" and not os.path.exists("met") or kind == "holds" and first >= least and os.path.exists("hold")):
        break
    time.sleep(0.02)
os.remove(own)
if kind == "refused":
    print("refused bundle 1 Stray")
    sys.exit("dmlab: line 1 of the bundle: refused")
if kind == "fails" and first >= least:
    print("dmlab: no memory", file=sys.stderr)
    sys.exit(3)
if kind == "grows":
    with open(sys.argv[0], "a") as program:
        program.write("# more\n")
lines = {"lost": 3, "stale": 7, "eio": 5, "corrupt": 11, "misplaced": 11, "broken-sync": 11}
sought = [word for word in lines if f"--{word}" in words]
found = [
    (word, seed)
    for seed in range(first, last + 1) if sought
    for word, every in lines.items()
    if seed % every == 0 and (word in sought or kind == "unasked")
]
names = "finding seed log name line kind device sectors issued took at count by table_line target found wanted sync"
if sought and "--by-line" not in words:
    print(*names.split(), sep="\t")
    for word, seed in found:
        log = seed % 4 + 1
        own = word, seed + (kind == "strays"), log, f"log{log}", lines[word]
        print(*own, *"read dm0 0+8 7 0 0 8 dm0 1 flakey - 1.7+0 -".split(), sep="\t")
if sought and "--by-line" in words:
    print(*"finding log name line seeds first percent".split(), sep="\t")
    counts = {}
    for word, seed in found:
        counts.setdefault((word, seed % 4 + 1), []).append(seed)
    for (word, log), seeds in sorted(counts.items(), key=lambda it: -len(it[1])):
        share = len(seeds) * 10000 // (last + 1 - first) + (kind == "shares")
        print(word, log, f"log{log}", lines[word], len(seeds), seeds[0], f"{share // 100}.{share % 100:02d}", sep="\t")
tally = {}
for seed in range(first + (kind == "skips"), last + 1) if not sought else ():
    digest = f"{min(seed % 7, 5):016x}"
    print(f"seed {seed} {digest} eio={int(seed % 5 == 0)} steps={5 + ('--prompt' in words)} clock=1 now=7")
    tally.setdefault(digest, [seed, 0])[1] += 1
for digest, (least, many) in tally.items():
    print(f"digest {digest} first={least} count={many + (kind == 'counts')}")
END
chmod +x "$room/small"

# sweep WORDS..: runs the tool in the room. Its output, errors and status are kept
sweep() {
    (cd "$room" && "$top/tools/sweep" "$@") > "$room/out" 2> "$room/err"
    status=$?
}

# small BUNDLE WORDS..: sweeps a bundle of this text by the small program into the folder `rows`
small() {
    echo "$1" > "$room/bundle"
    sweep bundle --program ./small --into rows "${@:2}"
}

# await PATTERN: until there is such a file, but no longer than a minute or two
await() {
    for _ in {1..3000}; do
        compgen -G "$1" > "$room/seen" && break
        sleep 0.02
    done
}

# fresh: no rows and no calls
fresh() {
    rm -rf "$room/rows" "$room/calls" "$room/hold"
}

# whole FIRST LAST [WORD..]: what one sweep of these seeds writes
whole() {
    (cd "$room" && rm -f calls && ./small sweep --first "$1" --last "$2" "${@:3}" < bundle; rm -f calls)
}

# calls: the seeds of the calls, in their order
calls() {
    sed -E 's/sweep --first ([0-9]+) --last ([0-9]+).*/\1..\2/' "$room/calls" 2>&1 | sort -n | paste -s -d ' '
}

# kept: the files in the folder of rows
kept() {
    (cd "$room/rows" && find . -type f | sed 's/^..//' | sort -n | paste -s -d ' ')
}

# told: the status and the line that tells why
told() {
    echo "$status: $(cat "$room/out")$(head -n 1 "$room/err")"
}

# joined NAME FIRST LAST WORDS..: the join writes what one sweep of these seeds writes
joined() {
    sweep --join rows "${@:4}"
    same "$1" "status 0 $(whole "$2" "$3")" "status $status $(cat "$room/out" "$room/err")"
}

# ---- what is run and kept
fresh
small plain --seeds 95..1020 --chunk 300 --jobs 3
same run "0: sweep: 926 seeds are there; 926 of them were run now, in 4 parts" "$(told | sed 's/; [0-9.]* seconds$//')"
same run_files "95-299.rows 300-599.rows 600-899.rows 900-1020.rows" "$(kept)"
same run_calls "95..299 300..599 600..899 900..1020" "$(calls)"
same run_head "# bundle $(sha256sum < "$room/bundle" | cut -c 1-64) program $(sha256sum < "$room/small" | cut -c 1-64) prompt no \
seeds 900..1020" "$(head -n 1 "$room/rows/900-1020.rows")"
same run_rows "$(whole 900 1020 | grep '^seed')" "$(sed '1d; $d' "$room/rows/900-1020.rows")"
same run_end "# end" "$(tail -n 1 "$room/rows/900-1020.rows")"
joined join 95 1020
joined join_of_some 200 700 --seeds 200..700
sweep --join rows --eio
same join_eio "$(whole 95 1020 | grep ' eio=1 ')" "$(cat "$room/out" "$room/err")"

# the same words run nothing, others what is missing
small plain --seeds 95..1020 --chunk 300
same again "0: sweep: 926 seeds are there; 0 of them were run now, in 0 parts" "$(told | sed 's/; [0-9.]* seconds$//')"
same again_calls "" "$(calls | grep -v 'No such file')"
small plain --seeds 0..1100 --chunk 50
same larger_calls "0..49 50..94 1021..1049 1050..1099 1100..1100" "$(calls)"
joined larger_join 0 1100
rm "$room/rows/300-599.rows" "$room/rows/1050-1099.rows"
sweep --join rows
same gaps "1: sweep: rows: no rows of the seeds 300..599 sweep: rows: no rows of the seeds 1050..1099" \
    "$status: $(cat "$room/out")$(paste -s -d ' ' "$room/err")"
sweep --join rows --seeds 700..1200 --eio
same gaps_at_the_end "1: sweep: rows: no rows of the seeds 1050..1099 sweep: rows: no rows of the seeds 1101..1200" \
    "$status: $(cat "$room/out")$(paste -s -d ' ' "$room/err")"
small plain --seeds 350..449
same gap_within "350..449" "$(calls)"

# prompt runs, the last seeds that there are, and as many processes at once as were asked for
fresh
small plain --seeds 7..30 --prompt --chunk 10
sweep --join rows
same prompt "$(whole 7 30 --prompt)" "$(cat "$room/out")"
same prompt_head yes "$(sed -n '1s/.* prompt \(.*\) seeds .*/\1/p' "$room/rows/7-9.rows")"
fresh
small plain --seeds 18446744073709551600..18446744073709551615 --chunk 10
same last_seeds "18446744073709551600-18446744073709551609.rows 18446744073709551610-18446744073709551615.rows" "$(kept)"
joined last_seeds_join 18446744073709551600 18446744073709551615
fresh
small 'meets 3' --seeds 0..11 --chunk 1 --jobs 3
same at_once 3 "$(sed 's/.*: //' "$room/calls" | sort -n | tail -n 1)"

# findings in place of rows: the words go on to each run, the parts join, and a part may have none
fresh
small plain --seeds 7..105 --lost --stale --prompt --chunk 1
same findings "0: sweep: 99 seeds are there; 99 of them were run now, in 99 parts" "$(told | sed 's/; [0-9.]* seconds$//')"
same findings_call "sweep --first 7 --last 7 --prompt --lost --stale" "$(grep -om 1 'sweep --first 7 .*stale' "$room/calls")"
same findings_head "prompt yes findings lost,stale seeds 7..7" "$(sed -n '1s/.* prompt/prompt/p' "$room/rows/7-7.rows")"
same findings_none "$(whole 8 8 --lost) # end" "$(sed 1d "$room/rows/8-8.rows" | paste -s -d ' ')"
sweep --join rows
same findings_join "status 0 $(whole 7 105 --lost --stale)" "status $status $(cat "$room/out" "$room/err")"
sweep --join rows --seeds 20..70
same findings_join_of_some "status 0 $(whole 20 70 --lost --stale)" "status $status $(cat "$room/out" "$room/err")"
sweep --join rows --eio
same findings_join_eio "status 0 $(whole 8 8 --lost)" "status $status $(cat "$room/out" "$room/err")"
sweep --join rows --eio --fail
same findings_join_of_none_fails "status 0 $(whole 8 8 --lost)" "status $status $(cat "$room/out" "$room/err")"
sweep --join rows --fail
same findings_join_fails "status 4 $(whole 7 105 --lost --stale)" "status $status $(cat "$room/out" "$room/err")"
sweep --join rows --seeds 10..11 --fail
same findings_join_of_other_seeds_fails "status 0 $(whole 8 8 --lost)" "status $status $(cat "$room/out" "$room/err")"
rm "$room/rows/9-9.rows"
sweep --join rows
same findings_gap "1: sweep: rows: no rows of the seeds 9..9" "$(told)"
small plain --seeds 7..105 --prompt --lost
same findings_others "1: sweep: rows/7-7.rows, line 1: rows of findings lost,stale, and not of findings lost" "$(told)"
small plain --seeds 7..105 --prompt
same findings_beside_rows "1: sweep: rows/7-7.rows, line 1: rows of findings lost,stale, and not of findings none" "$(told)"
small plain --seeds 7..105 --prompt --lost --stale --by-line
same findings_beside_counts "1: sweep: rows/7-7.rows, line 1: rows of by-line no, and not of by-line yes" "$(told)"
head -c -7 "$room/rows/21-21.rows" > "$room/cut"
mv "$room/cut" "$room/rows/21-21.rows"
sweep --join rows
same findings_cut "1: sweep: rows/21-21.rows: cut off: its last line isn't \`# end\`; the sweep has to be run again" "$(told)"
fresh
small plain --seeds 0..29 --eio --lost --chunk 10
sweep --join rows --eio
same findings_eio "$(whole 0 29 --eio)" "$(cat "$room/out" "$room/err")"
sed -i '3s/^/x/' "$room/rows/10-19.rows"
sweep --join rows
same findings_changed "1: sweep: rows/10-19.rows, line 3: no finding of eio,lost of a seed from 10 to 19" "$(told)"
sed -i '2s/^/x/' "$room/rows/10-19.rows"
sweep --join rows
same findings_names_changed "1: sweep: rows/10-19.rows, line 2: not the names of the columns" "$(told)"
fresh
small plain --seeds 0..99 --eio --lost --corrupt --stale --misplaced --broken-sync --chunk 10
same findings_all_head "findings eio,lost,corrupt,stale,misplaced,broken-sync seeds 0..9" \
    "$(sed -n '1s/.* prompt no //p' "$room/rows/0-9.rows")"
sweep --join rows
same findings_all "status 0 $(whole 0 99 --eio --lost --corrupt --stale --misplaced --broken-sync)" \
    "status $status $(cat "$room/out" "$room/err")"
fresh
small plain --seeds 0..9
sweep --join rows --fail
same rows_fail "1: sweep: rows: --fail wants findings, and rows of seeds are there" "$(told)"
fresh
small unasked --seeds 0..9 --lost
same findings_unasked "1: sweep: output of the program for the seeds 0..9, line 3: no finding of lost of a seed from 0 to 9" "$(told)"
same findings_unasked_kept "" "$(kept)"
small strays --seeds 0..9 --lost
same findings_of_others "1: sweep: output of the program for the seeds 0..9, line 5: no finding of lost of a seed from 7 to 9" "$(told)"

# counts by line: the sums of all parts, whose lines stand in the order in which they came first. Of
# the seeds 0 to 20 the finding eio has two, and stale, which comes before it, has one; of all
# seeds up to 30 both have two
fresh
small plain --seeds 0..30 --eio --lost --stale --by-line --chunk 21
same counts_head "findings eio,lost,stale by line seeds 0..20" "$(sed -n '1s/.* prompt no //p' "$room/rows/0-20.rows")"
same counts_order "lost stale eio" "$(awk '$2 == 1 && $6 == 0 { print $1 }' "$room/rows/0-20.rows" | paste -s -d ' ')"
same counts_calls "0..0 0..20 21..30" "$(calls)"
sweep --join rows
same counts_join "status 0 $(whole 0 30 --eio --lost --stale --by-line)" "status $status $(cat "$room/out" "$room/err")"
same counts_join_order "lost 3 9.67 stale 2 6.45 eio 2 6.45" \
    "$(awk '$2 == 1 && $6 == 0 { print $1, $5, $7 }' "$room/out" | paste -s -d ' ')"
sweep --join rows --seeds 0..20
same counts_join_of_some "status 0 $(whole 0 20 --eio --lost --stale --by-line)" "status $status $(cat "$room/out" "$room/err")"
sweep --join rows --seeds 0..25
same counts_join_of_half_a_part "1: sweep: rows/21-30.rows: its counts are not of the seeds 0..25 alone" "$(told)"
sweep --join rows --eio --fail
same counts_join_eio "status 4 $(whole 0 30 --eio --by-line)" "status $status $(cat "$room/out" "$room/err")"
small plain --seeds 0..30 --eio --lost --stale
same counts_beside_findings "1: sweep: rows/0-20.rows, line 1: rows of by-line yes, and not of by-line no" "$(told)"
sed -i '3s/[^ \t]*$/1.00/' "$room/rows/21-30.rows"
sweep --join rows
same counts_changed "1: sweep: rows/21-30.rows, line 3: no count of eio,lost,stale of a seed from 21 to 30" "$(told)"
fresh
small plain --seeds 0..999 --eio --lost --corrupt --stale --misplaced --broken-sync --by-line --chunk 7
sweep --join rows
same counts_of_many_parts "status 0 $(whole 0 999 --eio --lost --corrupt --stale --misplaced --broken-sync --by-line)" \
    "status $status $(cat "$room/out" "$room/err")"
fresh
small plain --seeds 1..2 --lost --by-line
sweep --join rows --fail
same counts_of_nothing "status 0 $(whole 1 2 --lost --by-line)" "status $status $(cat "$room/out" "$room/err")"
fresh
small shares --seeds 0..9 --lost --by-line
same counts_wrong_share "1: sweep: output of the program for the seeds 0..9, line 2: no count of lost of a seed from 0 to 9" "$(told)"

# shares: equal, and together the whole range; some are empty where there are more of them than
# seeds
fresh
for part in 3 1 2; do
    small plain --seeds 100..199 --chunk 1000 --part $part --of 3
done
same shares "100-132.rows 133-165.rows 166-199.rows" "$(kept)"
joined shares_join 100 199 --seeds 100..199
fresh
for part in 1 2 3 4 5; do
    small plain --seeds 0..2 --part $part --of 5
done
same small_shares "0-0.rows 1-1.rows 2-2.rows" "$(kept)"

# ---- what was cut off: a file at any place, a call that was killed, and what it leaves
for bytes in 0 100 230 2000 -1 -7; do
    fresh
    small plain --seeds 0..299 --chunk 100
    head -c "$bytes" "$room/rows/100-199.rows" > "$room/cut"
    mv "$room/cut" "$room/rows/100-199.rows"
    sweep --join rows
    same "cut_at_$bytes" "1: sweep: rows/100-199.rows: cut off: its last line isn't \`# end\`; the sweep has to be run again" "$(told)"
    rm "$room/calls"
    small plain --seeds 150..250 --chunk 30
    same "cut_at_${bytes}_calls" 100..199 "$(calls)"
    joined "cut_at_${bytes}_join" 0 299
done
cp "$room/rows/100-199.rows" "$room/rows/100-199.rows.host.7"
joined left_over 0 299

# killed NAME SIGNAL STATUS: a call that is killed while the seeds from 200 on are run has kept
# those before, and the same words go on. What it started is ended, too, unless it can't know
killed() {
    fresh
    rm -f "$room"/running.*
    touch "$room/hold"
    echo 'holds 200' > "$room/bundle"
    (cd "$room" && exec python3 -c 'import os, signal, sys
for kind in (signal.SIGINT, signal.SIGTERM, signal.SIGHUP):
    signal.signal(kind, signal.SIG_DFL)
os.execv(sys.argv[1], sys.argv[1:])' "$top/tools/sweep" bundle --program ./small --seeds 0..399 --chunk 100 --jobs 2 --into rows) \
        > "$room/out" 2> "$room/err" &
    await "$room/running.200.*"
    await "$room/running.300.*"
    kill -s "$2" $!
    wait $! 2> "$room/seen"
    status=$?
    same "$1_status" "$3: $4" "$status: $(head -n 1 "$room/err")"
    same "$1_files" "0-99.rows 100-199.rows" "$(kept)"
    for file in "$room"/running.*; do
        [ "$2" = KILL ] || same "$1_ended" ended "$(kill -0 "${file##*.}" 2> "$room/seen" || echo ended)"
    done
    rm "$room/hold" "$room/calls"
    small 'holds 200' --seeds 0..399 --chunk 100
    same "$1_calls" "200..299 300..399" "$(calls)"
    joined "$1_join" 0 399
}
ended="sweep: interrupted: the same words go on with what is missing"
killed interrupted INT 130 "$ended"
killed terminated TERM 130 "$ended"
killed hung_up HUP 130 "$ended"
killed killed KILL 137

# ---- refusals
fresh
small 'refused' --seeds 0..99 --chunk 10
same refused "1: sweep: bundle: refused bundle 1 Stray" "$(told)"
same refused_told "dmlab: line 1 of the bundle: refused" "$(sed -n 2p "$room/err")"
same refused_files "" "$(kept)"
rm "$room/calls"
small 'fails 20' --seeds 0..99 --chunk 10 --jobs 1
same fails "1: sweep: bundle: the program ended with status 3 on the seeds 20..29" "$(told)"
same fails_told "dmlab: no memory" "$(sed -n 2p "$room/err")"
same fails_files "0-9.rows 10-19.rows" "$(kept)"
same fails_calls "0..9 10..19 20..29" "$(calls)"
fresh
small skips --seeds 0..9
same skips "1: sweep: output of the program for the seeds 0..9, line 1: no row of seed 0" "$(told)"
small counts --seeds 0..9
same counts "1: sweep: bundle: the program's digests of the seeds 0..9 aren't those of its rows" "$(told)"
cp "$room/small" "$room/before"
small grows --seeds 0..9
same grows "1: sweep: $room/small: another program than when the sweep began" "$(told)"
same nothing_kept "" "$(kept)"
cp "$room/before" "$room/small"

# rows of something else
fresh
small plain --seeds 0..99
bundle=$(sha256sum < "$room/bundle" | cut -c 1-64) program=$(sha256sum < "$room/small" | cut -c 1-64)
rm "$room/calls"
small other --seeds 0..199
same other_bundle "1: sweep: rows/0-99.rows, line 1: rows of bundle $bundle, and not of bundle $(sha256sum < "$room/bundle" | cut -c 1-64)" "$(told)"
small plain --seeds 0..199 --prompt
same other_prompt "1: sweep: rows/0-99.rows, line 1: rows of prompt no, and not of prompt yes" "$(told)"
echo '# other' >> "$room/small"
small plain --seeds 0..199
same other_program "1: sweep: rows/0-99.rows, line 1: rows of program $program, and not of program $(sha256sum < "$room/small" | cut -c 1-64)" "$(told)"
cp "$room/before" "$room/small"
same other_calls "" "$(calls | grep -v 'No such file')"
mv "$room/rows" "$room/apart"
small plain --seeds 100..199 --prompt
mv "$room/apart/0-99.rows" "$room/rows"
sweep --join rows
same other_joined "1: sweep: rows/100-199.rows, line 1: rows of prompt yes, and not of prompt no" "$(told)"

# damaged NAME EDIT TOLD: once this edit, for sed, is made in one of three parts, the join tells
# this
damaged() {
    fresh
    small plain --seeds 0..29 --chunk 10
    sed -i "$2" "$room/rows/10-19.rows"
    sweep --join rows
    same "$1" "1: sweep: rows/10-19.rows$3" "$(told)"
}
damaged row_gone 5d ", line 5: no row of seed 13"
damaged row_twice 5p ", line 6: no row of seed 14"
damaged row_at_the_end '11p' ", line 12: not the line \`# end\`"
damaged last_row_gone '11d' ", line 11: no row of seed 19"
damaged row_changed '4s/eio=0/eio=/' ", line 4: no row of seed 12"
damaged row_joined '4s/$/ /' ", line 4: no row of seed 12"
damaged end_in_row '4s/.*/# end/' ", line 4: no row of seed 12"
damaged head_gone 1d ", line 1: not the first line of rows that tools/sweep wrote"
damaged head_of_others '1s/seeds 10/seeds 11/' ", line 1: rows of the seeds 11..19, and the file's name says 10..19"

# parts that overlap
fresh
small plain --seeds 0..99
mv "$room/rows" "$room/first"
small plain --seeds 90..150 --chunk 1000
mv "$room/first/0-99.rows" "$room/rows"
sweep --join rows
same overlap "1: sweep: rows/90-150.rows: seeds that rows/0-99.rows has, too" "$(told)"
rm -r "$room/rows/90-150.rows"
joined overlap_gone 0 99

mkdir "$room/empty"
sweep --join empty
same empty "1: sweep: empty: no rows are there" "$(told)"
while IFS='|' read -r name status_wanted words told; do
    read -r -a words <<< "$words"
    sweep "${words[@]}"
    same "$name" "$status_wanted: sweep: $told" "$status: $(cat "$room/out")$(tail -n 1 "$room/err")"
done < <(sed -E 's/ *\| */|/g' << 'END'
no_folder        | 1 | --join nothing | nothing: No such file or directory
no_bundle        | 1 | nothing --program ./small --seeds 0..1 --into rows | nothing: No such file or directory
no_program       | 1 | bundle --program nothing --seeds 0..1 --into rows | nothing: no program: ./build makes it, --program tells another
folder_is_file   | 1 | bundle --program ./small --seeds 0..1 --into bundle | bundle: File exists
no_words         | 2 | | error: either a bundle, --seeds and --into are wanted, or --join
no_seeds         | 2 | bundle --into rows | error: either a bundle, --seeds and --into are wanted, or --join
no_into          | 2 | bundle --seeds 0..1 | error: either a bundle, --seeds and --into are wanted, or --join
backwards        | 2 | bundle --seeds 4..2 --into rows | error: argument --seeds: invalid read_seeds value: '4..2'
above_the_last   | 2 | bundle --seeds 0..18446744073709551616 --into rows | error: argument --seeds: invalid read_seeds value: '0..18446744073709551616'
one_seed         | 2 | bundle --seeds 4 --into rows | error: argument --seeds: invalid read_seeds value: '4'
no_chunk         | 2 | bundle --seeds 0..1 --chunk 0 --into rows | error: argument --chunk: invalid read_count value: '0'
no_jobs          | 2 | bundle --seeds 0..1 --jobs x --into rows | error: argument --jobs: invalid read_count value: 'x'
part_alone       | 2 | bundle --seeds 0..1 --part 1 --into rows | error: --part and --of go together
part_0           | 2 | bundle --seeds 0..1 --part 0 --of 2 --into rows | error: argument --part: invalid read_count value: '0'
part_above       | 2 | bundle --seeds 0..1 --part 3 --of 2 --into rows | error: --part is one of 1 to 2
too_many_parts   | 2 | bundle --seeds 0..100000000000 --into rows | error: --chunk 10000 makes more than 1000000 parts
stale_of_a_join  | 2 | --join rows --stale | error: --join goes with --seeds, --eio and --fail, and with nothing else
counts_of_a_join | 2 | --join rows --by-line | error: --join goes with --seeds, --eio and --fail, and with nothing else
join_and_run     | 2 | --join rows --into rows | error: --join goes with --seeds, --eio and --fail, and with nothing else
fail_of_a_run    | 2 | bundle --seeds 0..1 --into rows --lost --fail | error: --fail goes with --join
counts_of_rows   | 2 | bundle --seeds 0..1 --into rows --by-line | error: --by-line wants a finding to look for
short_word       | 2 | --join rows --ei | error: unrecognized arguments: --ei
END
)

# ---- the page: its commands, for 400 seeds in place of a million, in a folder that has what they name
# laboratory PROGRAM BUNDLE: makes the folder, in which the bundle stands where the page has its own. The file `one` has
# what one sweep of the 400 seeds writes, or of as many from seed 100 on, `two`, and `found` what one search of the 400 writes
recorded=examples/tutorial/recorded.bundle
laboratory() {
    rm -rf "$room/lab" "$room/hosts"
    mkdir -p "$room/lab/crates/dmlab/out" "$room/lab/examples/tutorial"
    cp -r tools "$room/lab"
    cp "$2" "$room/lab/$recorded"
    cp "$1" "$room/lab/crates/dmlab/out/dmlab"
    (cd "$room/lab" && "$1" sweep --first 0 --last 399 < $recorded > ../one && "$1" sweep --first 100 --last 499 < $recorded > ../two &&
        "$1" sweep --first 0 --last 399 --lost --stale < $recorded > ../found 2> ../err)
}

# block NUMBER: the commands of this block of the page, the first one being 1, with smaller numbers
block() {
    awk -v "number=$1" '/^```/ { inside = !inside; at += inside; next } inside && at == number' "$top/docs/SWEEP.md" |
        sed 's/999999/399/; s/1009999/499/; s/10000\.\./100../; s/seq 100/seq 4/; s/--of 100/--of 4/; s/1-100/1-4/; s/}\(0000\|9999\)/}@\1/g
            s/@0000/00/g; s/@9999/99/g'
}

# by_page NAME NUMBER FILE [CHANGE]: the commands of the page's block, which sed may change, join to
# the bytes of the file
by_page() {
    rm -rf "$room/lab/out"
    (cd "$room/lab" && PATH=$room/bin:$PATH bash -c "$(block "$2" | sed "${4-}")") > "$room/out" 2> "$room/err"
    status=$?
    same "$1" "status 0 $(cat "$room/$3")" "status $status $(cat "$room/lab/out/recorded.rows" 2>&1)"
}

# a Slurm whose array runs here, one after the other, and hosts that are folders: where the home of
# this shell has what runs, theirs have it not, and it goes there by rsync. A login has its shell's
# name from sshd, and GNU parallel asks for it
mkdir "$room/bin" "$room/home"
cat > "$room/bin/sbatch" << 'END'
#!/bin/bash
[ "$1 $2 $4" = '--wait --array=1-4 --wrap' ] || exit 2
for task in 1 2 3 4; do
    SLURM_ARRAY_TASK_ID=$task sh -c "$5" || exit
done
END
cat > "$room/bin/ssh" << 'END'
#!/bin/bash
while [[ $1 == -* ]]; do
    [[ $1 == -[lpoS] ]] && shift
    shift
done
[ -z "$HOSTS" ] || { HOME=$HOSTS/$1; mkdir -p "$HOME"; cd "$HOME" || exit; }
echo "$1" >> "$LOGINS"
shift
[ "$1" != -- ] || shift
export SHELL=/bin/sh
exec sh -c "$*"
END
chmod +x "$room"/bin/*

# hosts: the page's two ways by GNU parallel, on this host and on hosts that are folders
by_parallel() {
    export LOGINS=$room/logins
    echo : > "$room/lab/hosts"
    by_page "$1_parallel_here" 2 one
    by_page "$1_parallel_files_here" 3 two
    printf '1/anna\n1/bert\n' > "$room/lab/hosts"
    rm -f "$room/lab/recorded.log"
    HOME=$room/home PARALLEL_SSH=$room/bin/ssh by_page "$1_parallel_shared" 2 one
    same "$1_logins" "anna bert" "$(sort -u "$LOGINS" | paste -s -d ' ')"
    if command -v rsync > "$room/seen"; then
        HOME=$room HOSTS=$room/hosts PARALLEL_SSH=$room/bin/ssh by_page "$1_parallel_files" 3 two
        same "$1_parallel_files_there" "100-199 200-299 300-399 400-499" "$(find "$room/hosts" -name '*.rows' -printf '%f\n' |
            sed 's/\.rows//' | sort | paste -s -d ' ')"
        # the page's remarks: an unproved program, and options of ssh
        rm -rf "$room/lab/recorded.log" "$room/hosts"
        mv "$room/lab/crates/dmlab/out/dmlab" "$room/lab/crates/dmlab/out/dmlab.unproved"
        HOME=$room HOSTS=$room/hosts PARALLEL_SSH="$room/bin/ssh -p 2222" by_page "$1_parallel_unproved" 3 two \
            's,basefile crates/dmlab/out/dmlab ,basefile crates/dmlab/out/dmlab.unproved ,'
        mv "$room/lab/crates/dmlab/out/dmlab.unproved" "$room/lab/crates/dmlab/out/dmlab"
    else
        echo "skipped: no rsync here, so no file goes from host to host"
    fi
}

# four NAME PROGRAM: four calls at once, of which the third is killed half way and gone on with
four() {
    cat > "$room/lab/held" << END
#!/bin/sh
[ "\$3" != 250 ] || while [ -e hold ]; do touch waits; sleep 0.02; done
exec "$2" "\$@"
END
    chmod +x "$room/lab/held"
    touch "$room/lab/hold"
    calls=()
    for part in 1 2 3 4; do
        (cd "$room/lab" && exec tools/sweep $recorded --program ./held --seeds 0..399 --chunk 50 --part $part --of 4 --jobs 2 \
            --into out/four) 2> "$room/err" &
        calls+=($!)
    done
    await "$room/lab/out/four/200-249.rows"
    await "$room/lab/waits"
    kill "${calls[2]}"
    wait "${calls[@]}"
    rm "$room/lab/hold"
    same "$1_half" "0-49 50-99 100-149 150-199 200-249 300-349 350-399" "$(cd "$room/lab/out/four" && printf '%s\n' * |
        sed 's/\.rows//' | sort -n | paste -s -d ' ')"
    (cd "$room/lab" && tools/sweep $recorded --program ./held --seeds 0..399 --chunk 50 --part 3 --of 4 --into out/four) 2> "$room/err"
    same "$1_gone_on" "50 of them were run now, in 1 parts" "$(grep -o '50 of them .* parts' "$room/err")"
    same "$1_joined" "$(cat "$room/one")" "$("$room/lab/tools/sweep" --join "$room/lab/out/four" --seeds 0..399 2>&1)"
}

# by_all NAME PROGRAM BUNDLE: all ways of the page
by_all() {
    laboratory "$2" "$3"
    by_page "$1_one_machine" 1 one
    by_page "$1_slurm" 4 one
    by_page "$1_findings" 10 found
    four "$1" "$2"
    if parallel --version 2> "$room/seen" | grep -q '^GNU parallel'; then
        by_parallel "$1"
    else
        echo "skipped: no GNU parallel here, so the page's commands for many hosts aren't run"
    fi
}
by_all small "$room/small" examples/lost_write.bundle

# the proved program, and what the page says of its rows
if [ ! -x "$dmlab" ]; then
    count program "crates/dmlab/out/dmlab is not there: ./test or rt ci builds it"
elif ! "$dmlab" sweep --last 0 < $recorded > "$room/seen" 2>&1; then
    echo "skipped: the program that was built has no sweep"
else
    by_all lost_write "$dmlab" examples/lost_write.bundle
    by_all recorded "$dmlab" $recorded
    same page_rows "$(block 6)" "$("$dmlab" sweep --last 99 < $recorded | grep -Fx "$(block 6)")"
    same page_digest "$(block 6 | sed -n 's/^digest \([^ ]*\) .*/\1/p')" "$(bash -c "$(block 7)" 2> "$room/err")"
    same page_findings "$(block 9)" "$(bash -c "$(block 8)" 2> "$room/err")"
    echo x > "$room/bundle"
    rm -rf "$room/rows"
    sweep bundle --program "$dmlab" --seeds 0..9 --into rows
    same program_refuses "1: sweep: bundle: refused bundle 1 Stray" "$(told)"
fi

finish
