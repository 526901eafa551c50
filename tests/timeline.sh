#!/bin/bash
# Runs tools/timeline and tools/compare on the traces of tests/timeline/, which were written by
# hand, on edits of them, and on wrong words and files, and asks the modules what became of the
# operations. One line for each case that fails, and at the end 'N passed, M failed'. It wants no
# program; where one is built that has the word `trace`, the trace of examples/lost_write.bundle is
# drawn too.
cd "$(dirname "$0")/.." || exit 1
. tests/cases.sh
samples=$PWD/tests/timeline
bundle=$PWD/examples/lost_write.bundle

# tool NAME WORDS..: runs a tool in the room. Its output, errors and status are kept
tool() {
    (cd "$room" && "$OLDPWD/tools/$1" "${@:2}") > "$room/out" 2> "$room/err"
    status=$?
}

# python LINES: python with the modules of tools/
python() {
    python3 -B -c "import sys; sys.path.insert(0, 'tools')
$1" "${@:2}" 2>&1
}

# edited SAMPLE EDIT: the trace of a sample, edited by sed, in the room; \t stands for a tab
edited() {
    sed "$2" "$samples/$1.trace" > "$room/trace"
}

# ---- what became of the operations: log, line, action, sectors, start, end, result, and what reached no disk
operations='from dmlab_tools.trace_bios import Bios, lost_text
from dmlab_tools.trace_rows import read_trace
for it in Bios(sys.argv[1], read_trace(sys.argv[1])).operations():
    end = f"{it.end.place} {it.end.clock}" if it.end else "-"
    print(it.log, it.line, it.action, it.device, *it.sectors, it.start.place, it.start.clock, end, it.result, lost_text(it.bio))'
same lost_operations '1 4 write dm0 0 8 5 0 8 0 ok 
1 5 sync dm0 0 0 9 0 12 0 ok 
1 7 write dm0 8 8 15 6000000 17 6000000 ok sectors 8 to 15
1 8 sync dm0 0 0 18 6000000 20 6000000 ok 
1 10 read dm0 0 16 23 11000000 26 11000000 ok ' "$(python "$operations" "$samples/lost.trace")"

# Bio 2 has 16 sectors and one piece of 8: nobody knows which 8 were dropped. All of bio 13 was,
# and its place is known.
same pieces_operations '1 4 write dm1 0 32 6 0 14 5000 ok some of its sectors: 8 of the sectors 0 to 15
1 5 read dm1 8 16 15 5000 23 5000 ok 
1 6 write dm1 4 8 26 5000 31 5000 ok some of its sectors: 4 of the sectors 4 to 11
1 7 write dm1 8 20 32 5000 39 10000 ok sectors 8 to 15' "$(python "$operations" "$samples/pieces.trace")"
same pieces_fates 'lost changed lost lost' "$(python 'from dmlab_tools.trace_bios import Bios, fate_of
from dmlab_tools.trace_rows import read_trace
print(*(fate_of(bio) for bio in Bios("", read_trace(sys.argv[1])).roots))' "$samples/pieces.trace")"
same pieces_parents '2>1 3>1 4>2 6>5 7>5 8>6 10>9 11>10 13>12 14>12' "$(python 'from dmlab_tools.trace_bios import Bios
from dmlab_tools.trace_rows import read_trace
print(*(f"{it.number}>{it.parent.number}" for it in Bios("", read_trace(sys.argv[1])).known.values() if it.parent))' "$samples/pieces.trace")"

# a piece may lie elsewhere on the lower device: what counts is its place among the pieces
edited pieces '/\t13\t12\t/s/8+8/0+8/'
same moved_piece '1 7 write dm1 8 20 32 5000 39 10000 ok sectors 8 to 15' "$(python "$operations" "$room/trace" | tail -n 1)"

# one that ends early: what isn't answered is neither ok nor lost
edited lost "17,\$d"
same unanswered '1 7 write dm0 8 8 15 6000000 - unanswered ' "$(python "$operations" "$room/trace" | tail -n 1)"
edited lost 's/dropped/failed/; s/\(finish [56].*\)ok[a-z ]*/\1EIO/'
same failed '1 7 write dm0 8 8 15 6000000 17 6000000 EIO ' "$(python "$operations" "$room/trace" | sed -n 3p)"

# a dropped trim is lost, too; a trim writes as a write does
edited lost '6,9s/write/trim/g; 16,18s/write/trim/g'
same lost_trim '1 7 trim dm0 8 8 15 6000000 17 6000000 ok sectors 8 to 15' "$(python "$operations" "$room/trace" | sed -n 3p)"
# what only a zero line drops isn't lost, and its answer tells so
edited lost '18s/ok lost/ok/'
same dropped_by_zero '1 7 write dm0 8 8 15 6000000 17 6000000 ok ' "$(python "$operations" "$room/trace" | sed -n 3p)"
# a log that opens a disk: its bios are served, and no other bio is made
same served '1 4 write ram0 0 1 4 0 5 0 ok 
1 5 read ram0 0 2 6 0 7 0 ok ' "$(python "$operations" tests/rows/disk_write_and_read_traced/stdout)"
same writers '8 None 8 (1, 4)' "$(python 'from dmlab_tools.trace_rows import read_trace
print(*(word for row in read_trace(sys.argv[1]) for run in row.writers or () for word in run))' "$samples/pieces.trace")"

# ---- the page
# remarks PAGE: what the page tells of bars and shades
remarks() {
    grep -o 'data-t="[^"]*"' "$1" | cut -d '"' -f 2 | LC_ALL=C sort
}

# whole PAGE: what is wrong with a page: tags that don't pair, bytes that aren't ASCII, or a word
# that loads something
whole() {
    python 'import html.parser, re
class Tags(html.parser.HTMLParser):
    open = []
    def handle_starttag(self, tag, attributes):
        if tag not in ("meta", "br"): self.open.append(tag)
    def handle_endtag(self, tag):
        if not self.open or self.open.pop() != tag: print("the tag", tag, "ends", self.getpos())
text = open(sys.argv[1], encoding="ascii").read()
tags = Tags()
tags.feed(text)
print(*tags.open, end="")
text = text.replace("http://www.w3.org/2000/svg", "")
print(*re.findall(r"https?:|src=|href=|@import|@[A-Z]+@|url\((?!#)", text), end="")' "$1"
}

tool timeline "$samples/lost.trace" --bundle "$bundle"
same lost_page "status 0: " "status $status: $(cat "$room/err")$(whole "$room/out")"
same lost_remarks 'bio 1: ok
bio 2: ok
bio 3: ok
bio 4: ok
bio 5: ok but lost: sectors 8 to 15 never reached a disk
bio 6: ok but lost
bio 7: ok: line 4 of log 1 wrote sectors 0 to 7, nobody wrote sectors 8 to 15
bio 8: ok
down from 5 s to 10 s: 0 64 flakey /dev/ram0 0 5 5 1 drop_writes
log 1, line 10: ok: line 4 of log 1 wrote sectors 0 to 7, nobody wrote sectors 8 to 15
log 1, line 4: ok
log 1, line 5: ok
log 1, line 7: lost: line 7 of log 1 wrote sectors 8 to 15 of dm0 at 6 s and was answered ok; sectors 8 to 15 never reached a disk
log 1, line 8: ok but lost
lost: line 7 of log 1 wrote sectors 8 to 15 of dm0 at 6 s and was answered ok; sectors 8 to 15 never reached a disk' "$(remarks "$room/out")"
same lost_summary '<p>26 events, 0 s to 11 s. 5 operations: 3 ok, 2 ok but lost.</p>' "$(grep '^<p>' "$room/out")"
# told PAGE: the sentences of its list, without markup
told() {
    sed -n "s/^<li data-f=\"[0-9]*\"><b class=\"[a-zA-Z-]*\">\([a-z-]*\)<\/b> \(.*\)<\/li>/\1: \2/p" "$1" | sed "s/&#x27;/'/g"
}
lost_line='lost: line 7 of log 1 wrote sectors 8 to 15 of dm0 at 6 s and was answered ok; sectors 8 to 15 never reached a disk'
same lost_listed "$lost_line" "$(told "$room/out")"
same lost_names 'lost 1|script |log 1 journal|dm0 disk|ram0 ' "$(sed -n 's/.*<b>\(.*\)<\/b> \(.*\) <i>.*/\1 \2/p' "$room/out" | paste -s -d '|')"

# By event the write of line 7 has the events 15 to 17 of 26: from 14 / 26 to 17 / 26. By moment it
# stands at 6 of 11 seconds, which have 75 percent of the width, and 25 percent are the events'
# own.
same lost_bar 'x="54.3706%" width="2.8846%" data-e="53.8462 11.5385"' \
    "$(grep 'data-t="log 1, line 7' "$room/out" | grep -o 'x=.* data-e="[^"]*"')"
# The outage lies between the moments 5 and 10: behind event 14, and before event 23. No event of
# it is a clock's.
same lost_outage 'x="47.5524%" width="41.7832%" data-e="53.8462 30.7692"' \
    "$(grep 'class="down" x' "$room/out" | grep -o 'x=.* data-e="[^"]*"')"
same lost_text '/dev/mapper/disk write 4096 4096' "$(sed -n 's/.*"1 7":"\([^"]*\)".*/\1/p' "$room/out")"
same lost_script_text 'create disk t' "$(sed -n 's/.*"- 2":"\([^"]*\)".*/\1/p' "$room/out")"

# of many runs the first 8 are told
edited lost '27s/8x1.4,8x-/1x1.4,1x-,1x1.4,1x-,1x1.4,1x-,1x1.4,8x-,1x1.4/'
tool timeline trace
same many_writers 'nobody wrote sectors 7 to 14, and 1 more' "$(remarks "$room/out" | sed -n 's/log 1, line 10: .* \(nobody .*\)/\1/p')"

tool timeline "$samples/pieces.trace" --bundle "$samples/pieces.bundle" -o page
same pieces_page "status 0: " "status $status: $(cat "$room/out" "$room/err")$(whole "$room/page")"
same pieces_held 'bio 14: held until moment 10000
bio 3: held until moment 5000
bio 7: held until moment 10000' "$(remarks "$room/page" | grep held)"
same pieces_writers 'log 1, line 5: changed: line 5 of log 1 read sectors 8 to 23 of dm1 at 0.005 s and was answered ok with a changed byte; nobody wrote sectors 8 to 15, line 4 of log 1 wrote sectors 16 to 23' \
    "$(remarks "$room/page" | grep '^log 1, line 5:')"
same pieces_shades 'down from 0 s to 1 s: 8 8 flakey /dev/ram0 8 0 1 6 drop_writes corrupt_bio_byte 4 r 255 0
suspended' "$(remarks "$room/page" | grep -E '^(down|suspended)')"
# bio 3 is held from event 7 to event 12 of 40, and from then to event 13 in flight on its disk
same pieces_released 'data-e="15 15" data-e="27.5 5"' \
    "$(grep 'data-t="bio 3' "$room/page" | grep -o 'data-e="[^"]*"' | sort | paste -s -d ' ')"
# suspended from event 20 to event 25 of 40
same pieces_suspended 'data-e="47.5 15"' "$(grep 'class="suspended" x' "$room/page" | grep -o 'data-e="[^"]*"')"

# an outage that begins and ends at moments of events has those of its first moment and not those
# of its end: 15 to 22
sed 's/ 0 5 5 / 0 6 5 /' "$bundle" > "$room/edges"
tool timeline "$samples/lost.trace" --bundle edges
same outage_edges 'x="54.3706%" width="41.7832%" data-e="53.8462 30.7692"' \
    "$(grep 'class="down" x' "$room/out" | grep -o 'x=.* data-e="[^"]*"')"

# a table that is loaded at 1.5 seconds and live from 2.5 seconds on: its seconds count from the
# load
tool timeline "$samples/swapped.trace" --bundle "$samples/swapped.bundle"
same swapped_shades 'down from 1 s to 2 s: 0 8 flakey /dev/ram0 0 1 1
down from 2.5 s to 4.5 s: 0 8 flakey /dev/ram0 0 1 2
suspended' "$(remarks "$room/out" | grep -E '^(down|suspended)')"
# the swap is event 10 of 14, and the outage ends before event 13
same swapped_live 'data-e="64.2857 21.4286"' "$(grep 'down from 2.5' "$room/out" | grep -o 'data-e="[^"]*"')"

# without a bundle there are no names, no texts and no outages, but suspends
tool timeline "$samples/pieces.trace"
same bare_page "status 0: suspended" "status $status: $(whole "$room/out")$(remarks "$room/out" | grep -E '^(down|suspended)')"
same bare_texts '{}' "$(sed -n 's/.*id="texts">\(.*\)<\/script>/\1/p' "$room/out")"

# ---- findings: each is marked on top, its operation has its colour, and a sentence says why
# columns: the rows on standard input with tabs in place of spaces, below the names of the columns
columns() {
    local names='finding seed log name line kind device sectors issued took at count by table_line target found wanted sync'
    { echo "$names"; cat; } | tr ' ' '\t'
}
{
    echo 'a report'
    columns << 'END'
lost 1 1 journal 7 write dm0 8+8 6000000 0 8 8 dm0 1 flakey - - 1.8
broken-sync 1 1 journal 8 sync dm0 - 6000000 0 8 8 dm0 1 flakey - 1.7+0 -
stale 1 1 journal 10 read dm0 0+16 11000000 0 8 8 dm0 1 flakey - 1.7+0 -
END
    printf '== history\nline 1\n'
} > "$room/found"
tool timeline "$samples/lost.trace" --bundle "$bundle" --findings found
same found_page "status 0: " "status $status: $(cat "$room/err")$(whole "$room/out")"
same found_summary '<p>26 events, 0 s to 11 s. 5 operations: 3 ok, 2 ok but lost. 3 findings: 1 lost, 1 stale, 1 broken-sync.</p>' \
    "$(grep '^<p>' "$room/out")"
table="line 1 of dm0's table (0 64 flakey /dev/ram0 0 5 5 1 drop_writes) was down and dropped"
found_lost="lost: line 7 of log 1 wrote sectors 8 to 15 of dm0 at 6 s and was answered ok, with all 8 sectors lost; $table the first of them, sector 8; \
the sync on line 8 of log 1 was answered ok after it; at 11 s line 10 of log 1 read zeroes in sector 8"
found_broken="broken-sync: line 8 of log 1 synced dm0 at 6 s and was answered ok, with 8 sectors lost; sector 8 lacked \
what line 7 of log 1 wrote at 6 s; $table it"
found_stale="stale: line 10 of log 1 read sectors 0 to 15 of dm0 at 11 s and was answered ok, with 8 sectors stale; \
sector 8 has zeroes that nobody wrote, in place of what line 7 of log 1 wrote at 6 s; $table it"
same found_listed "$found_lost
$found_broken
$found_stale" "$(told "$room/out")"
# for the script: the places of the operation, of its answer, and of the write that was lost
same found_places '[["lost",15,17,0],["broken-sync",18,20,15],["stale",23,26,15]]' \
    "$(sed -n 's/.*id="found">\(.*\)<\/script>/\1/p' "$room/out")"
# two rectangles of each: a mark in the strip, and the bar of its operation
same found_looks '2 lost 2 broken-sync 2 stale' "$(for look in lost broken-sync stale; do
    grep -cE "<rect class=\"$look\".*data-t=\"(log|$look)" "$room/out"; echo $look; done | paste -s -d ' ')"
same found_strip '3 of 26' "$(sed -n '/data-kind="finding"/,/<\/g>/p' "$room/out" | grep -c 'data-e="[0-9.]* 3.8462"') of 26"
same found_width 'stroke-width: 6px' "$(grep -F 'g[data-kind="finding"] rect[data-r]' "$room/out" | grep -o 'stroke-width: [0-9]*px')"
same found_bar 'nobody wrote sectors 8 to 15' "$(remarks "$room/out" | sed -n 's/^log 1, line 10: stale: .*, \(nobody.*\)/\1/p')"
same found_names 'lost 1|stale 1|broken-sync 1|script ' \
    "$(sed -n 's/.*<span><b>\(.*\)<\/b> \(.*\) <i>.*/\1 \2/p' "$room/out" | head -n 4 | paste -s -d '|')"
same found_legend 'ok but stale' "$(grep -o 'ok but stale' "$room/out" | head -n 1)"
# ---- the picture, and the JSON of Chrome's tracing
# README shows examples/lost_write.svg, which is what the tool draws
cp "$samples/lost.trace" "$room/lost_write.trace"
tool timeline lost_write.trace --bundle "$bundle" --findings found --svg picture --perfetto json
same picture 'status 0: ' "status $status: $(cat "$room/out" "$room/err")"
same readme_picture "$(cat examples/lost_write.svg)" "$(cat "$room/picture")"
same readme_shows 1 "$(grep -c '](examples/lost_write.svg)' README.md)"
# The event 17 of 26 at 6 of 11 seconds begins at 6 / 11 * 0.75 + 16 / 26 * 0.25 of 818 pixels behind
# the names, and has 1 / 26 * 0.25 of them.
same picture_mark 'x="590.48" y="36" width="7.87"' "$(grep '<title>lost: ' "$room/picture" | grep -o 'x=.* width="[^"]*"')"
# pictured FILE: what is wrong with a picture: a tag that doesn't pair, a mark under 6 pixels, or one past an edge
pictured() {
    python 'import xml.etree.ElementTree as tree
place = "{http://www.w3.org/2000/svg}"
for it in tree.parse(sys.argv[1]).iter(place + "rect"):
    title = it.find(place + "title")
    x, wide = float(it.get("x", 0)), float(it.get("width"))
    is_mark = title is not None and title.text.split(":")[0] in sys.argv[2:]
    if is_mark and (wide < 6 or x < 130 or x + wide > 948.01): print(title.text, x, wide)' "$@"
}
same picture_whole '' "$(pictured "$room/picture" lost stale broken-sync)"
same picture_arrow 1 "$(grep -c '<path class="arrow"' "$room/picture")"
# of the JSON: the write is lost within 2 events, and a flow goes from it to the sync and to the read
same json_slice '7 write 8+8 lost 1 1 6000000.0 0.002' "$(python 'import json
told = json.load(open(sys.argv[1]))["traceEvents"]
print(*(" ".join(str(it[word]) for word in "name cat pid tid ts dur".split()) for it in told if it["ph"] == "X" and it["cat"] == "lost" and it["pid"] == 1))' "$room/json")"
same json_flows 's 6000000.0 f 6000000.003 s 6000000.0 f 11000000.0' "$(python 'import json
print(*(f"{it[chr(112) + chr(104)]} {it[chr(116) + chr(115)]}" for it in json.load(open(sys.argv[1]))["traceEvents"] if it["ph"] in "sf"))' "$room/json")"
same json_names 'script and logs, script, log 1 journal, dm0 disk, dm0 disk, ram0, ram0' "$(python 'import json
print(*(it["args"]["name"] for it in json.load(open(sys.argv[1]))["traceEvents"] if it["ph"] == "M"), sep=", ")' "$room/json")"
# without findings the picture has the faults of the trace, and of a trace without one it has no mark
tool timeline "$samples/lost.trace" --svg picture -o page
same faults_pictured 'status 0: 1 1' "status $status: $(cat "$room/out" "$room/err")$(grep -c '<title>lost: ' "$room/picture") $(grep -c '^<!DOCTYPE' "$room/page")"
edited lost "15,\$d"
tool timeline trace --svg picture
same nothing_pictured 'status 0: 0' "status $status: $(cat "$room/out" "$room/err")$(grep -cE 'class="(lost|arrow)"|never' "$room/picture")"

# in a browser, if one is installed: marks of 6 pixels, rows that fill the window, an arrow, and the
# key n, which goes to the first fault
chromium=$(command -v chromium)
if [ -n "$chromium" ]; then
    tool timeline "$samples/lost.trace" --bundle "$bundle" --findings found
    cat >> "$room/out" << 'END'
<script>
window.dispatchEvent(new KeyboardEvent("keydown", { key: "n" }));
const wide = Math.min(...marks.map((mark) => mark.getBoundingClientRect().width));
setTimeout(() => { document.title = ["seen", wide >= 6, find("arrows").childElementCount, picked && picked.dataset.t.slice(0, 20),
  find("panel").getBoundingClientRect().top - svg.getBoundingClientRect().bottom < 4, grown > 1].join(" "); }, 500);
</script>
END
    cp "$room/out" "$room/page.html"
    same in_a_browser 'seen true 1 log 1, line 7: lost: true true' "$("$chromium" --headless --no-sandbox --disable-gpu \
        --user-data-dir="$room/browser" --window-size=1400,900 --virtual-time-budget=3000 --dump-dom "file://$room/page.html" \
        2> /dev/null | sed -n 's/.*<title>\(.*\)<\/title>.*/\1/p')"
else
    echo 'no chromium: the page was tried in no browser'
fi

# the other sentences: a failure, other bytes, and what stands at two places
columns > "$room/found" << 'END'
corrupt 0 1 a 4 write dm1 0+32 0 5000 3 1 dm0 2 flakey - - -
corrupt 0 1 a 5 read dm1 8+16 5000 0 16 4 dm0 2 flakey 1.4+16 1.4+16 -
misplaced 0 1 a 5 read dm1 8+16 5000 0 16 1 - - - 1.4+8 - -
END
tool timeline "$samples/pieces.trace" --findings found
flakey="line 2 of dm0's table (flakey) was down and changed"
same found_others "corrupt: line 4 of log 1 wrote sectors 0 to 31 of dm1 at 0 s and was answered ok, with 1 sector changed on the way \
to the disk; $flakey sector 3; at 0.005 s line 5 of log 1 read other bytes in sector 16; at 0.005 s line 5 of log 1 read the data in sector 16
corrupt: line 5 of log 1 read sectors 8 to 23 of dm1 at 0.005 s and was answered ok, with 4 sectors corrupt; \
sector 16 has other bytes than what line 4 of log 1 wrote at 0 s; $flakey it
misplaced: line 5 of log 1 read sectors 8 to 23 of dm1 at 0.005 s and was answered ok, with 1 sector misplaced; \
sector 16 has what line 4 of log 1 wrote at 0 s to another sector" "$(told "$room/out")"
columns <<< 'eio 0 1 a 7 write dm0 8+8 6000000 0 - - - - - - - -' > "$room/found"
edited lost 's/dropped/failed/; s/\(finish [56].*\)ok[a-z ]*/\1EIO/'
tool timeline trace --findings found
same found_failure "status 0: eio: line 7 of log 1 wrote sectors 8 to 15 of dm0 at 6 s and was answered EIO; dm0's table failed it" \
    "status $status: $(cat "$room/err")$(told "$room/out")"
columns < /dev/null > "$room/found"
tool timeline "$samples/lost.trace" --findings found
same nothing_found "status 0: " "status $status: $(cat "$room/err")$(sed -n '/<g data-kind="finding"/p' "$room/out")$(told "$room/out")"
same nothing_marked '[]' "$(sed -n 's/.*id="found">\(.*\)<\/script>/\1/p' "$room/out")"
# wrong rows
while IFS='|' read -r name row told; do
    columns > "$room/found" <<< "stale 1 1 journal 10 read dm0 0+16 11000000 0 8 8 dm0 1 flakey - 1.7+0 -
$row"
    tool timeline "$samples/lost.trace" --findings found
    same "$name" "status 1: timeline: found, line 3: $told" "status $status: $(cat "$room/out" "$room/err")"
done < <(sed -E 's/ *\| */|/g' << 'END'
found_no_row     | stale 1 1 journal 10 read dm0 | not a row of a finding
found_no_finding | late 1 1 journal 10 read dm0 0+16 11000000 0 8 8 dm0 1 flakey - 1.7+0 - | not a row of a finding
found_two_seeds  | stale 2 1 journal 10 read dm0 0+16 11000000 0 8 8 dm0 1 flakey - 1.7+0 - | a finding of seed 2 behind those of seed 1
found_other_line | stale 1 1 journal 9 read dm0 0+16 11000000 0 8 8 dm0 1 flakey - 1.7+0 - | the trace has no such answer to line 9 of log 1
found_other_time | stale 1 1 journal 10 read dm0 0+16 11000001 0 8 8 dm0 1 flakey - 1.7+0 - | the trace has no such answer to line 10 of log 1
found_other_took | stale 1 1 journal 10 read dm0 0+16 11000000 1 8 8 dm0 1 flakey - 1.7+0 - | the trace has no such answer to line 10 of log 1
found_no_failure | eio 1 1 journal 10 read dm0 0+16 11000000 0 - - - - - - - - | the trace has no such answer to line 10 of log 1
found_elsewhere  | stale 1 1 journal 10 read dm0 0+8 11000000 0 8 8 dm0 1 flakey - 1.7+0 - | the trace has no such answer to line 10 of log 1
END
)

# a part of the events: bars that begin before or end behind are cut
tool timeline "$samples/lost.trace" --events 16..20
same part_rows '16 20' "$(sed -n '/id="rows"/,/^<\/script>/p' "$room/out" | grep '^[0-9]' | cut -f 1 | sed -n '1p;$p' | paste -s -d ' ')"
same part_told 'of which 16 to 20 are shown' "$(grep -o 'of which [0-9]* to [0-9]* are shown' "$room/out")"
same part_bar 'data-e="0 40"' "$(grep 'data-t="log 1, line 7' "$room/out" | grep -o 'data-e="[^"]*"')"

# what a bundle may have in its texts is no markup of the page
sed 's/== log journal/== log <b>\&/; s/^\/dev\/mapper\/disk sync 0 0/&<\/script>/' "$bundle" > "$room/marked"
tool timeline "$samples/lost.trace" --bundle marked
same marked "status 0: " "status $status: $(whole "$room/out")"
same marked_name 'log 1 &lt;b&gt;&amp;' "$(sed -n 's/.*<b>\(log 1\)<\/b> \(.*\) <i>.*/\1 \2/p' "$room/out")"

# 30,001 events, of an open and of 15,000 writes that lie side by side in twos on a disk: the first
# 20,000 are shown, and no row has bars, but the logs and the disk have how much goes on
python 'from dmlab_tools.trace_rows import HEAD
print(HEAD)
print(1, 0, "line 1", 1, 2, *"---", "ram0", *"-", "open", "-", sep="\t")
for at in range(7500):
    for event, did, place in (("line", "write", 2), ("serve", "served", 4)):
        for log in (1, 2):
            bio = 2 * at + log
            name = f"{event} " + str(log if event == "line" else bio)
            told = (4 * at + log + place - 1, 0, name, log, at + 3, bio, "-", "write", "ram0", "0+8", did, "-")
            print(*told, sep="\t")' > "$room/long"
tool timeline long
same long "status 0: " "status $status: $(whole "$room/out")"
same long_told 'of which 1 to 20000 are shown' "$(grep -o 'of which [0-9]* to [0-9]* are shown' "$room/out")"
same long_bars 0 "$(grep -c 'data-[rt]="' "$room/out")"
same long_logs 4 "$(grep '<svg class="[me]".*<path class="ok"' "$room/out" | grep -vc flow)"
same long_flow '2 2 at once' "$(grep -c 'class="flow"' "$room/out") $(grep -o '[0-9]* at once' "$room/out")"
same long_size yes "$([ "$(wc -c < "$room/out")" -lt 3000000 ] && echo yes)"

# ---- two traces
tool compare "$samples/lost.trace" "$samples/lost.trace"
same same_traces 'status 0: the traces are the same: 26 events' "status $status: $(cat "$room/out" "$room/err")"
edited lost '17s/dropped/failed/; 18s/ok lost/EIO/'
tool compare "$samples/lost.trace" trace
same other_answer "status 1: event 16 differs
$samples/lost.trace: $(sed -n 17p "$samples/lost.trace")
trace: $(sed -n 17p "$room/trace")
the answer to log 1 differs
$samples/lost.trace: line 7 write ok, which never reached a disk: sectors 8 to 15, at place 17, moment 6000000
trace: line 7 write EIO, at place 17, moment 6000000" "status $status: $(cat "$room/out" "$room/err")"
edited lost "19,\$d"
tool compare trace "$samples/lost.trace"
same ends_early "status 1: event 18 differs
trace: no event
$samples/lost.trace: $(sed -n 19p "$samples/lost.trace")
the answer to log 1 differs
trace: no answer
$samples/lost.trace: line 8 sync ok, at place 20, moment 6000000" "status $status: $(cat "$room/out" "$room/err")"
edited lost '27s/8x1.4,8x-/16x1.4/'
tool compare "$samples/lost.trace" trace
same other_writers "status 1: event 26 differs
$samples/lost.trace: $(sed -n 27p "$samples/lost.trace")
trace: $(sed -n 27p "$room/trace")
the answer to log 1 differs
$samples/lost.trace: line 10 read ok, written by 8x1.4,8x-, at place 26, moment 11000000
trace: line 10 read ok, written by 16x1.4, at place 26, moment 11000000" "status $status: $(cat "$room/out" "$room/err")"
# the script's wait a place earlier: other events, and the same answers
{ sed -n 1,40p "$samples/pieces.trace"; } > "$room/trace"
tool compare "$samples/pieces.trace" trace
same same_answers "status 1: event 40 differs
$samples/pieces.trace: $(sed -n 41p "$samples/pieces.trace")
trace: no event
each log has the same answers" "status $status: $(cat "$room/out" "$room/err")"

# of two logs whose answers differ, the one whose answer comes first is told
head -n 14 "$room/long" > "$room/trace"
sed 's/\t2\t4\t/\t2\t9\t/; s/\t1\t5\t/\t1\t9\t/' "$room/trace" > "$room/two"
tool compare trace two
same first_log 'status 1: the answer to log 2 differs
trace: line 4 write ok, at place 9, moment 0
two: line 9 write ok, at place 9, moment 0' "status $status: $(tail -n 3 "$room/out")$(cat "$room/err")"

# ---- refusals: the trace has one line edited, and the line is told
while IFS='|' read -r name sample edit told; do
    edited "$sample" "$edit"
    tool timeline trace
    same "$name" "status 1: timeline: trace, $told" "status $status: $(cat "$room/out" "$room/err")"
done < <(sed -E '/^# /d; s/ *\| */|/g' << 'END'
no_head          | lost   | 1d                       | line 1: no trace: its first line has other columns than `dmlab trace` writes
empty            | lost   | d                        | line 1: no trace: its first line has other columns than `dmlab trace` writes
few_columns      | lost   | 6s/\twrite\t/\t/         | line 6: a line of a trace has 12 columns with tabs between them, and this one 11
blank_line       | lost   | 6s/.*//                  | line 6: a line of a trace has 12 columns with tabs between them, and this one 1
no_number        | lost   | 6s/\t4\t/\tx\t/          | line 6: x stands in the column line
no_event         | lost   | 6s/line 1/lines 1/       | line 6: lines 1 stands in the column event
no_device        | lost   | 6s/dm0/sda/              | line 6: sda stands in the column device
no_sectors       | lost   | 6s/0+8/0-8/              | line 6: 0-8 stands in the column sectors
no_happening     | lost   | 8s/served/ok/            | line 8: serve 2 can't have happened as ok
no_pieces        | lost   | 7s/2\t-$/2,\t-/          | line 7: map 1 can't have happened as 2,
no_bio           | lost   | 6s/\t1\t-\twrite/\t-\t-\twrite/ | line 6: line 1 wants a column bio
a_bio_too_many   | lost   | 4s/-\t-\t-\tdm0/1\t-\t-\tdm0/   | line 4: line 1 has no column bio
clock_of_a_log   | lost   | 15s/\t-/\t1/             | line 15: clock has no column log
other_log        | lost   | 6s/\t1\t4/\t2\t4/        | line 6: line 1 stands beside the number 2
other_bio        | lost   | 8s/serve 2/serve 1/      | line 8: serve 1 stands beside the number 2
other_kind       | lost   | 6s/write\tdm0/read\tdm0/ | line 6: write makes no bio of the kind read
place_left_out   | lost   | 6d                       | line 6: the place is 6, and not 5
clock_by_itself  | lost   | 17s/6000000/6000001/     | line 17: the clock is 6000001, and was 6000000 after the event before
clock_elsewhere  | lost   | 15s/to 6000000/to 7000000/ | line 16: the clock is 6000000, and was 7000000 after the event before
number_left_out  | lost   | 6s/\t1\t-\twrite/\t2\t-\twrite/ | line 6: the next bio is 1, and not 2
two_at_once      | lost   | 5s/.*/4\t0\tline 1\t1\t3\t1\t-\tread\tdm0\t0+1\tread\t-/ | line 6: log 1 waits for the answer to its line 3
never_made       | lost   | 7s/map 1\t1\t4\t1/map 7\t1\t4\t7/ | line 7: bio 7 was never made
answered_twice   | lost   | 9s/.*/8\t0\tserve 2\t1\t4\t2\t1\twrite\tram0\t0+8\tserved\t-/ | line 9: bio 2 is answered already
another_parent   | lost   | 8s/\t2\t1\twrite/\t2\t-\twrite/ | line 8: the lines before tell another parent, line, kind, device or sectors of bio 2
other_sectors    | lost   | 9s/0+8/0+9/              | line 9: the lines before tell another parent, line, kind, device or sectors of bio 1
served_above     | lost   | 7s/map 1\(.*\)\t2\t-$/serve 1\1\tserved\t-/ | line 7: bio 1 can't be served: it is a mapped device's, or held
mapped_below     | lost   | 8s/serve\(.*\)served/map\13/ | line 8: bio 2 can't be mapped: it is a disk's, mapped already, or held
finished_early   | lost   | 8s/.*/7\t0\tfinish 1\t1\t4\t1\t-\twrite\tdm0\t0+8\tok\t-/ | line 8: bio 1 can't be finished: it isn't mapped, or a piece of it isn't answered
untold_drop      | pieces | 9s/4 dropped/4/          | line 11: the pieces of bio 2 have 8 sectors, and its map tells another number
told_drop        | lost   | 7s/2\t-$/2 dropped\t-/   | line 9: the pieces of bio 1 have 8 sectors, and its map tells another number
not_held         | pieces | 8s/@5000//               | line 13: bio 3 isn't held
served_held      | pieces | 13s/.*/12\t5000\tserve 3\t1\t4\t3\t1\twrite\tram1\t0+16\tserved\t-/ | line 13: bio 3 can't be served: it is a mapped device's, or held
no_writers       | lost   | 27s/8x1.4,8x-/-/         | line 27: finish 7 wants a column writers
no_writers_of_a_disk | lost | 25s/map 7\(.*\)dm0\(.*\)\t8\t-$/serve 7\1ram0\2\tserved\t-/ | line 25: serve 7 wants a column writers
writers_of_a_write | lost | 9s/-$/8x1.4/             | line 9: finish 1 has no column writers
writers_of_a_sync | lost  | 13s/-$/1x-/              | line 13: finish 3 has no column writers
writers_of_a_line | lost  | 24s/-$/16x-/             | line 24: line 1 has no column writers
writers_of_a_map | lost   | 25s/-$/16x-/             | line 25: map 7 has no column writers
writers_below    | lost   | 26s/-$/16x-/             | line 26: serve 8 has no column writers
writers_below_of_a_device | pieces | 20s/-$/8x-/     | line 20: finish 6 has no column writers
writers_of_a_clock | lost | 15s/-$/1x-/              | line 15: clock has no column writers
writers_of_a_failure | lost | 27s/ok/EIO/            | line 27: finish 7 has no column writers
no_line_of_a_run | lost   | 27s/8x1.4/8x1/           | line 27: 8x1,8x- stands in the column writers
no_count_of_a_run | lost  | 27s/8x1.4/x1.4/          | line 27: x1.4,8x- stands in the column writers
run_of_none      | lost   | 27s/8x1.4/0x1.4/         | line 27: 0x1.4,8x- stands in the column writers
run_left_out     | lost   | 27s/,8x-/,/              | line 27: 8x1.4, stands in the column writers
space_of_runs    | lost   | 27s/,8x-/ 8x-/           | line 27: 8x1.4 8x- stands in the column writers
empty_writers    | lost   | 27s/8x1.4,8x-//          | line 27: nothing stands in the column writers
few_writers      | lost   | 27s/8x-/7x-/             | line 27: the writers of finish 7 have 15 sectors, and its bio 16
many_sectors     | lost   | 27s/8x-/9x-/             | line 27: the writers of finish 7 have 17 sectors, and its bio 16
cut_run          | lost   | 27s/8x-/4x-,4x-/         | line 27: two runs of finish 7 that lie side by side have one writer
cut_run_of_a_line | lost  | 27s/8x1.4,8x-/8x1.4,8x1.4/ | line 27: two runs of finish 7 that lie side by side have one writer
written_by_a_sync | lost  | 27s/1\.4/1.5/            | line 27: line 5 of log 1 wrote nothing before
written_by_a_log_of_none | lost | 27s/1\.4/2.4/      | line 27: line 4 of log 2 wrote nothing before
written_later    | pieces | 24s/1\.4/1.6/            | line 24: line 6 of log 1 wrote nothing before
lost_read        | lost   | 27s/ok/ok lost/          | line 27: finish 7 answers no log's write or trim, and can't have happened as ok lost
lost_sync        | lost   | 21s/ok/ok lost/          | line 21: finish 6 answers no log's write or trim, and can't have happened as ok lost
lost_below       | pieces | 11s/ok/ok lost/          | line 11: finish 2 answers no log's write or trim, and can't have happened as ok lost
lost_on_a_disk   | lost   | 8s/served/served lost/   | line 8: serve 2 can't have happened as served lost
lost_failure     | lost   | 18s/ok lost/EIO lost/    | line 18: finish 5 can't have happened as EIO lost
lost_alone       | lost   | 18s/ok lost/lost/        | line 18: finish 5 can't have happened as lost
lost_for_nothing | lost   | 9s/ok/ok lost/           | line 9: bio 1 isn't lost, and its answer tells otherwise
END
)

# ---- other refusals, and wrong words
# refused NAME STATUS TOLD WORDS..: the tool writes nothing but a last line on standard error, and ends with the status
refused() {
    tool "${@:4}"
    same "$1" "status $2: $3" "status $status: $(cat "$room/out")$(tail -n 1 "$room/err")"
}
cp "$samples/lost.trace" "$room/trace"
head -n 1 "$room/trace" > "$room/head"
sed 's/^replay/sleep 5\n&/' "$bundle" > "$room/other"
sed 's/disk write 4096/disk read 4096/' "$bundle" > "$room/read"
cp "$bundle" "$room/bundle"
sed '15d; s/^1\([5-9]\)\t/X\1\t/' "$samples/lost.trace" | sed 's/^X5/14/' > "$room/jump"
words='compare A B'
refused no_trace 1 'timeline: nothing: No such file or directory' timeline nothing
refused a_folder 1 'timeline: .: Is a directory' timeline .
refused no_events 1 'timeline: head, line 1: there is no event' timeline head
refused behind_the_end 1 'timeline: trace: there is no event 27: the last one is 26' timeline trace --events 27..30
refused no_bundle 1 'timeline: nothing: No such file or directory' timeline trace --bundle nothing
refused no_findings 1 'timeline: trace: no findings: no line has the names of their columns' timeline trace --findings trace
refused no_findings_file 1 'timeline: nothing: No such file or directory' timeline trace --findings nothing
refused other_bundle 1 'timeline: other: line 3 of the script has no replay, and event 2 has' timeline trace --bundle other
refused other_log_line 1 'timeline: read: line 7 of log 1 has no write, and event 15 has' timeline trace --bundle read
refused no_output 1 'timeline: nothing/page: no file can be written there' timeline trace -o nothing/page
refused no_words 2 'timeline: error: the following arguments are required: trace' timeline
refused two_traces 2 'timeline: error: unrecognized arguments: trace' timeline trace trace
refused events_backwards 2 "timeline: error: argument --events: invalid read_events value: '5..4'" timeline trace --events 5..4
refused too_many_events 2 "timeline: error: argument --events: invalid read_events value: '1..20001'" timeline trace --events 1..20001
refused event_of_none 2 "timeline: error: argument --events: invalid read_events value: '0..4'" timeline trace --events 0..4
refused one_trace 2 "usage: tools/$words" compare trace
refused three_traces 2 "usage: tools/$words" compare trace trace trace
refused unknown_word 2 "usage: tools/$words" compare --fast trace
refused no_head_of_one 2 "compare: bundle, line 1: no trace: its first line has other columns than \`dmlab trace\` writes" compare trace bundle
refused no_course_of_one 2 "compare: jump, line 15: the clock is 6000000, and was 0 after the event before" compare jump trace
refused no_second 2 'compare: nothing: No such file or directory' compare trace nothing
tool compare --help
same compare_help "status 0: $words" "status $status: $(head -n 1 "$room/out" | cut -d / -f 2)"
tool timeline --help
same timeline_help 'status 0: timeline TRACE [--bundle FILE] [--findings FILE] [--events A..B] [-o FILE]' "status $status: $(head -n 1 "$room/out" | cut -d / -f 2)"

# ---- a trace of the program: the answers are those of its report, and the write on line 7 is lost
for dmlab in crates/dmlab/out/dmlab crates/dmlab/out/dmlab.unproved; do
    if ! [ -x "$dmlab" ] || ! "$dmlab" trace --seed 1 < "$bundle" > "$room/told" 2> /dev/null; then
        continue
    fi
    tool timeline told --bundle "$bundle"
    same program_page 'status 0: ' "status $status: $(cat "$room/err")$(whole "$room/out")"
    same program_lost "$lost_line" "$(told "$room/out")"
    "$dmlab" sim --seed 1 --lost --stale --broken-sync --history < "$bundle" > "$room/found" 2> /dev/null &&
        tool timeline told --bundle "$bundle" --findings found
    same program_found 'status 0: 3' "status $status: $(cat "$room/err")$(whole "$room/out")$(told "$room/out" | wc -l)"
    same program_answers "$("$dmlab" sim --seed 1 < "$bundle" | sed -n 's/^\([0-9]* [a-z]*\) .*/\1/p')" \
        "$(python "$operations" "$room/told" | cut -d ' ' -f 2,3)"
    break
done

finish
