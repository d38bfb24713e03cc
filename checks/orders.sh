#!/usr/bin/env bash
# `./orders` plays each example of examples/orders in its order, byte for byte, over devices of which calls fail if its first line says so, makes the
# report of each example again from that report as its order, also over devices that lend no block, and replays it, where its fault marks alone say
# what failed. A number draws the same bytes at each run, and several numbers draw several orders; the outcomes of many are counted. It runs the
# program as LLVM and, where that is there, as Rattle's own compiler builds it. checks/messages/commands.table has what is no order and no report.
. "$(dirname "${BASH_SOURCE[0]}")/prelude.sh" || exit 70
builds="$(tools orders)" || exit 1
mapfile -t builds <<< "$builds"

# the words before the task for an example
with_of() { sed -n '1s/^# \(with .*\)/\1/p' "${1%.*}.order" 2> /dev/null; }

# plays a scenario in an order, and compares the report; the report of the scenario is then replayed
plays() {
  # the words are parted
  # shellcheck disable=SC2046
  "$program" $(with_of "$1") order "$1" "$2" > "$room/report" 2> "$room/err" || wrong "$1 by $2: status $?, $(cat "$room/err")"
  cmp -s "$room/report" "$3" || wrong "$1 by $2: another report than $3"
  "$program" again "$1" "$3" > "$room/out" 2>&1 || wrong "$3, replayed: status $?, $(cat "$room/out")"
  [ ! -s "$room/out" ] || wrong "$3, replayed: $(cat "$room/out")"
}

flush=examples/orders/failed_flush
for program in "${builds[@]}"; do
  for order in examples/orders/*.order; do
    plays "${order%.order}.scenario" "$order" "${order%.order}.report"
    plays "${order%.order}.scenario" "${order%.order}.report" "${order%.order}.report"
  done
  for scenario in examples/*.scenario checks/trials/one_cut.scenario; do
    plays "$scenario" "${scenario%.scenario}.report" "${scenario%.scenario}.report"
  done
  # a device of which some call is to fail lends no block, though that call never comes
  for scenario in examples/first.scenario examples/revert.scenario; do
    "$program" with C.vol read 1000000 with C.area read 1000000 again "$scenario" "${scenario%.scenario}.report" || wrong "$scenario over devices that lend no block"
  done
  for number in 0 1 2 3 4 5 6 7; do
    "$program" seed "$number" checks/trials/one_cut.scenario > "$room/$number.first" || wrong "seed $number has no report"
    "$program" seed "$number" checks/trials/one_cut.scenario | cmp -s - "$room/$number.first" || wrong "seed $number has two reports"
  done
  [ "$(sha256sum "$room"/*.first | cut -d ' ' -f 1 | sort -u | wc -l)" -gt 3 ] || wrong "eight numbers draw few orders"
  "$program" many 300 examples/orders/hold_limit.scenario > "$room/many" || wrong "many: status $?"
  cmp -s "$room/many" examples/orders/hold_limit.outcomes || wrong "many: other outcomes than examples/orders/hold_limit.outcomes"
  "$program" with C.vol flush 1 many 20 examples/orders/failed_flush.scenario | head -n 2 | cmp -s - <(printf 'outcome 20 times, first seed 0\nset 1 failed VSS_E_UNEXPECTED_PROVIDER_ERROR\n') ||
    wrong "many with a failed flush"

  "$program" with C.vol flush 1 again $flush.scenario $flush.report || wrong "$flush.report, replayed over the same failing call"
  printf 'scenario 1\narea D 2\nvolume D 2 in D\nlane a\nbegin 25\n' > "$room/both"
  "$program" with D.shared flush 9 seed 1 "$room/both" > "$room/said" 2>&1 || wrong "an area D and a volume D: D.shared is refused: $(cat "$room/said")"
  printf '%s\n' "scenario 1" "area D 1" "volume D 2 1" "volume E 2 in D" "lane a" "begin 25" start "add D" "add E" snapshot await end "write D 0 fill 7" "write E 0 fill 7" > "$room/apart"
  for row in "area fault ok" "shared ok fault"; do
    read -r kind of_d of_e <<< "$row"
    "$program" with "D.$kind" write 1 seed 1 "$room/apart" > "$room/report" 2> "$room/err"
    [ "$(sed -nE 's/^[0-9]+ lane a 1[34] //p' "$room/report" | tr '\n' ' ')" = "$of_d $of_e " ] || wrong "D.$kind fails other writes: $(cat "$room/report" "$room/err")"
  done
done
ends "$(ls examples/orders/*.order | wc -l) orders, $(ls examples/*.scenario examples/orders/*.scenario checks/trials/*.scenario | wc -l) reports made again and replayed, by ${#builds[@]} builds"
