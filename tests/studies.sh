#!/bin/bash
# Compares what dmlab trace and dmlab sweep tell with what dmlab sim tells of the same seeds: a
# trace has the events of the printed history, and ends where the report says; a sweep has of each
# seed the sum that sha256sum makes of its report. One line for each case that fails, and at the
# end 'N passed, M failed'. It wants the proved program.
cd "$(dirname "$0")/.." || exit 1
. tests/cases.sh
last=39

# traced NAME BUNDLE WORDS..: the trace of each of ten seeds has the events of the run by it
traced() {
    local why=
    for ((seed = 0; seed < 10; seed++)); do
        "$dmlab" sim --seed "$seed" --history "${@:3}" < "$2" > "$room/run"
        "$dmlab" trace --seed "$seed" "${@:3}" < "$2" | sed 1d > "$room/trace"
        cmp -s <(sed '1,/^== history/d' "$room/run") <(cut -f 3 "$room/trace") || why+=" seed $seed has other events;"
        cmp -s <(cut -f 1 "$room/trace") <(seq "$(wc -l < "$room/trace")") || why+=" seed $seed has other places;"
        [ "$(cut -f 7,11 "$room/trace" | grep -c '^-	EIO$')" = "$(grep -cE '^[0-9]+ [a-z]+ EIO$' "$room/run")" ] ||
            why+=" seed $seed has other failures;"
        sed '/^== history/,$d' "$2" | cat - <(sed -n '/^== history/,$p' "$room/run") |
            "$dmlab" trace-history | sed 1d | cmp -s - "$room/trace" || why+=" seed $seed has another trace of its history;"
    done
    count "$1_traced" "$why"
}

# swept NAME BUNDLE WORDS..: a sweep tells the reports of the seeds, and which of them are one
swept() {
    for ((seed = 0; seed <= last; seed++)); do
        "$dmlab" sim --seed "$seed" "${@:3}" < "$2" > "$room/report"
        echo "seed $seed $(sha256sum < "$room/report" | head -c 16)" \
            "eio=$(grep -cE '^[0-9]+ [a-z]+ EIO$' "$room/report") $(sed -n 's/^done //p' "$room/report")"
    done > "$room/wanted"
    awk '{ print }
         !($3 in count) { order[++different] = $3; first[$3] = $2 }
         { count[$3]++ }
         END { for (i = 1; i <= different; i++) print "digest " order[i] " first=" first[order[i]] " count=" count[order[i]] }' \
        "$room/wanted" > "$room/sweep"
    count "$1_swept" "$("$dmlab" sweep --last "$last" "${@:3}" < "$2" | diff "$room/sweep" - | grep '^[<>]' | head -n 2 | tr '\n' ' ')"
}

needs_program

for bundle in examples/*.bundle; do
    name=$(basename "$bundle" .bundle)
    traced "$name" "$bundle"
    swept "$name" "$bundle"
    swept "$name promptly" "$bundle" --prompt
done
traced three_logs_promptly tests/rows/three_logs_checked/bundle --prompt
swept three_logs tests/rows/three_logs_checked/bundle
different=$(grep -c '^digest ' "$room/sweep")
count three_logs_reports_differ "$([ "$different" -gt 1 ] || echo "one report by $((last + 1)) seeds")"

# at_terminal NAME TOTALS WORDS..: on a terminal a sweep tells how far it is, and a search behind that
# its totals, which it tells otherwise, too.
at_terminal() {
    "$dmlab" sweep --last 3 "${@:3}" < examples/lost_write.bundle > "$room/quiet" 2> "$room/silent"
    tests/on_terminal.py "$dmlab" sweep --last 3 "${@:3}" < examples/lost_write.bundle > "$room/shown" 2> "$room/told"
    { printf '\rdmlab: seed %d of 0 to 3' 0 1 2; printf '\r\033[K'; printf '%s' "${2:+$2$'\r\n'}"; } > "$room/wanted"
    count "$1" "$(cmp "$room/wanted" "$room/told" 2>&1; cmp "$room/quiet" "$room/shown" 2>&1; differing "$2" "$(cat "$room/silent")")"
}
at_terminal sweep_tells_a_terminal ''
# of 250 seeds every third one is told, from the first on and but for the last
tests/on_terminal.py "$dmlab" sweep --first 7 --last 256 < examples/first.bundle 2>&1 > /dev/null | grep -o 'seed [0-9]* of 7 to 256' > "$room/told"
seq -f 'seed %g of 7 to 256' 7 3 253 > "$room/wanted"
count every_third_seed_is_told "$(cmp "$room/wanted" "$room/told" 2>&1)"
at_terminal search_tells_a_terminal 'runs=4 found=4 lost=4' --lost

finish
