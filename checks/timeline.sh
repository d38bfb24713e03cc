#!/usr/bin/env bash
# `./timeline` draws each example: as a drawing with one element for each line of the report but the first, in bands of at most 48, whose words
# do not lie on one another, and as lines of at most 100 bytes. Those in docs/pictures are drawn again byte for byte. A long report is drawn in
# 5 seconds of a processor and 500 MB of addresses. It is drawn by the program as LLVM and, where that is there, as Rattle's own compiler builds it.
# checks/messages/commands.table has what is no report.
. "$(dirname "${BASH_SOURCE[0]}")/prelude.sh" || exit 70
builds="$(tools timeline)" || exit 1
mapfile -t builds <<< "$builds"
scenarios=(examples/*.scenario examples/orders/*.scenario)

# the elements of marks in the last drawing
marks() { grep -c "^<g transform='translate([0-9]*,[0-9]*)'><title>" "$room/out"; }

# draws an example by a program, in both forms, with the scenario beside it and without
draws() {
  local program="$1" scenario="$2" report="${2%.scenario}.report" lines
  lines=$(($(wc -l < "$report") - 1))
  "$program" < "$report" > "$room/out" || wrong "$report is not drawn alone"
  [ "$(marks)" = "$lines" ] || wrong "$report: a line is not drawn once where it is alone"
  "$program" "$scenario" "$report" > "$room/out" || wrong "$report is not drawn"
  [ "$(marks)" = "$lines" ] || wrong "$report: a line is not drawn once"
  python3 "$room/apart.py" < "$room/out" 2> "$room/err" || wrong "$report: $(cat "$room/err")"
  grep -q '<script' "$room/out" && wrong "$report: a script is drawn"
  awk -F"[(,]" '/><title>/ && $2 > 1152 { exit 1 }' "$room/out" || wrong "$report: a band is wider than 48 marks"
  "$program" --text "$scenario" "$report" > "$room/out" || wrong "$report has no lines"
  LC_ALL=C awk 'length > 100 { exit 1 }' "$room/out" || wrong "$report: a line is longer than 100 bytes"
}

# no words of bars lie on one another, where a letter of them is 6 pixels wide; light ones lie in a bar, and those of images that are not drawn in none
cat > "$room/apart.py" << 'END'
import re, sys
of, bars = {}, {}
for line in sys.stdin:
    if line.startswith("<g transform='translate(") and "<title>" not in line:
        of, bars = {}, {}
    bar = re.match(r"<rect class='\w+' x='(\d+)' y='(\d+)' width='(\d+)' height='13'/>", line)
    if bar:
        bars.setdefault(str(int(bar[2]) + 10), []).append((int(bar[1]), int(bar[1]) + int(bar[3])))
    found = re.match(r"<text class='(?:small|light|used|loss)' x='(\d+)' y='(\d+)'>([^<]*)</text>", line)
    if found:
        begin, end = int(found[1]), int(found[1]) + 6 * len(found[3])
        for other_begin, other_end, words in of.get(found[2], []):
            if other_begin < end and begin < other_end:
                sys.exit(f"\"{found[3]}\" lies on \"{words}\"")
        row = bars.get(found[2], [])
        if "class='light'" in line and not any(left <= begin and end <= right for left, right in row):
            sys.exit(f"\"{found[3]}\" is light beside its bar")
        if found[3].startswith("images that are not drawn") and any(left < end and begin < right for left, right in row):
            sys.exit(f"\"{found[3]}\" lies on a bar")
        of.setdefault(found[2], []).append((begin, end, found[3]))
END

# by the clock a time is as wide as it is long: here 20 and 3,000 ticks, as in a record of a backup, which the wrapper takes by its one name
by_clock() {
  printf 'scenario 1\nlane a\ntick 20\nbegin 9\ntick 3000\nend\n' > "$room/record.scenario"
  "$(program vss)" run < "$room/record.scenario" > "$room/record.report" || wrong "a run of two times"
  "$1" --clock "$room/record.scenario" "$room/record.report" > "$room/out" || wrong "a clock is not drawn"
  widths="$(sed -n "s/^<rect class='passing' .* width='\([0-9]*\)' .*/\1/p" "$room/out" | tr '\n' ' ')"
  [ "$widths" = "6 993 " ] || wrong "times of 20 and 3,000 ticks are $widths wide"
  ./timeline "$room/record" | cmp -s - "$room/out" || wrong "a record is drawn otherwise than by the clock"
}

# draws what is asked for, and escapes each text
shows() {
  local program="$1"
  "$program" --from 30 --to 32 examples/full_area.scenario examples/full_area.report > "$room/out" || wrong "three moves are not drawn"
  [ "$(marks)" = 6 ] || wrong "three moves and an effect are not drawn with the two closing lines"
  grep -q '>properties 2 C: context 25 cut 0 used 1<' "$room/out" || wrong "a label is cut"
  printf 'report 1\n1 lane <b>&"\x27\x01 4 set <b>\n= set <b> failed <b>\n= writer <b> lost <b>\nvolume <b> <b>\nimage 1 <b> <b>\nwriter <b> <b>\n' > "$room/in"
  "$program" < "$room/in" > "$room/out" || wrong "signs of markup are not drawn"
  grep -q '<b>' "$room/out" && wrong "a text is not escaped"
  python3 -c 'import sys, xml.dom.minidom as x; x.parse(sys.argv[1])' "$room/out" || wrong "what is drawn is no XML"
  "$program" --text < "$room/in" > "$room/out" || wrong "signs of markup have no lines"
  LC_ALL=C grep -q '[^ -~]' "$room/out" && wrong "a byte that could be a command of a terminal is written"
}

for program in "${builds[@]}"; do
  for scenario in "${scenarios[@]}"; do
    draws "$program" "$scenario"
  done
  for picture in docs/pictures/*.svg; do
    run="examples/$(basename "$picture" .svg)"
    "$program" "$run.scenario" "$run.report" | cmp -s - "$picture" || wrong "$picture is another drawing"
  done
  for picture in docs/pictures/*.txt; do
    run="examples/$(basename "$picture" .txt)"
    "$program" --text "$run.scenario" "$run.report" | cmp -s - "$picture" || wrong "$picture has other lines"
  done
  shows "$program"
done
# a report of 200,000 moves, one set after another; each image goes once the next stands
awk 'BEGIN {
  print "report 1"
  for (set = 1; set <= 20000; set++) {
    n = (set - 1) * 10
    print n + 1, "lane a 1 set", set
    print n + 2, "writer w freeze ok"
    print n + 3, "provider hold C"
    print n + 4, "provider cut"
    print n + 5, "provider release C"
    print n + 6, "writer w thaw ok"
    print n + 7, "provider postcommit"
    print "= set", set, "complete"
    for (more = 8; more <= 9; more++) print n + more, "lane b", more, "ok"
    print n + 10, "lane b 10 ok"
    print "= evicted", set, "C"
  }
  print "end moves 200000 clock 0"
}' > "$room/long.report"
for words in "" --text; do
  # no word is no word
  # shellcheck disable=SC2086
  (ulimit -t 5 -v 500000 && exec "${builds[0]}" $words) < "$room/long.report" > "$room/long" || wrong "a report of 200,000 moves is not drawn in 5 seconds and 500 MB"
done
by_clock "${builds[0]}"
ends "${#scenarios[@]} examples are drawn, by ${#builds[@]} builds"
