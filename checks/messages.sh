#!/usr/bin/env bash
# What a person is told where a command refuses something: the place, the reason, and what helps to go on. checks/messages/commands.table has whole
# commands: `vss`, `images`, `backup` with its hooks, `orders` and `timeline`. What is told of single lines of a scenario is in checks/lines.table.
. "$(dirname "${BASH_SOURCE[0]}")/prelude.sh" || exit 70
vss="$(program vss)" || exit 1
trials=0

# what was said, and what has to stand in it
has() {
  local of="$1" said="$2" wanted
  shift 2
  trials=$((trials + 1))
  for wanted in "$@"; do
    case "$said" in
      *"$wanted"*) ;;
      *) wrong "of $of it is said \"$said\", and not \"$wanted\"" ;;
    esac
  done
}

# the commands as an archive has them, and files for them
mkdir -p "$room/at/programs" "$room/at/tools" "$room/folder"
cp vss orders timeline images backup VERSION "$room/at" && cp tools/*.sh "$room/at/tools" && cp -R hooks "$room/at" || exit 1
for name in vss vss_tools images backup; do
  ln -s "$(program "$name")" "$room/at/programs/$name" && printf 'of these sources\nunproved\n' > "$room/at/programs/$name.sources" || exit 1
done
PATH="$room/at:$PATH"
cp examples/{first,revert,second_lane,writer_veto}.* examples/orders/{hold_limit,held_write,frozen_writer,failed_flush,failed_revert}.* "$room"
printf 'scenario 1\narea D 2\nvolume D 2 in D\nlane a\nbegin 25\n' > "$room/both.scenario"
printf 'scenario 1\nvolume C 1 1\n%s\nlane r\n# here\nbegin 25\nlane s\nend\n' "$(grep '^writer db' examples/lost_thaw.scenario | sed 's/ db / w /')" > "$room/other.scenario"
printf 'scenario 1\nvolume C 4 4\nlane a\nwrite C 4 fill 1\n' > "$room/bad.scenario"
head -c 16777217 /dev/zero | tr '\0' '\n' > "$room/long"
mkdir "$room/disks" && vss run "$room/disks" < examples/first.scenario > "$room/out" 2> "$room/err" || wrong "no area is made"
area="$room/disks/C.area" size="$(stat -c %s "$room/disks/C.area")"
head -c $((size - 5000)) "$area" > "$room/cut.area"
{ cat "$area"; echo; } > "$room/longer.area"
: > "$room/empty"
echo one > "$room/a"
component='{"name":"main","selectable":true,"type":1},{"name":"log","path":"main","selectable":false,"type":1}'
cat > "$room/good.job" << END
job 1
volume a a
writer app {"class":"11111111-1111-4111-8111-111111111111","components":[$component],"level":2,"name":"X","source":1,"usage":3}
files app main a
hook app python3 at/hooks/commands.py --freeze true --thaw true
END
(
  cd "$room" && images create store 10 a=a && images cut store a && images create damaged 10 a=a &&
    printf x | dd of=damaged/images.state bs=1 seek=20 conv=notrunc status=none
) > "$room/out" || wrong "images: no folder is made"

# For rows of the table: lists an area of which some bytes are others; and runs words that leave just these names in a folder.
area() {
  local status
  # shellcheck disable=SC2059
  cp disks/C.area other.area && printf "$2" | dd of=other.area bs=1 seek="$1" conv=notrunc status=none
  vss inspect < other.area 2> told
  status=$?
  cat told >&2
  grep -q "in other.area:" told && grep -q "docs/FORMATS.md says what" told && return "$status"
}
leaves() {
  local names="$1" folder="$2" status=0
  shift 2
  "$@" || status=$?
  [ "$(ls "$folder" | xargs)" = "$names" ] && return "$status"
}

# Runs the command of a row of the table, and compares how it ends and what it says.
try_row() {
  local wanted="${1%% *}" command="${1#* }" parts="${1#* => }" status
  command="${command%% => *}"
  (cd "$room" && eval "$command") < /dev/null > "$room/out" 2> "$room/err"
  status=$?
  [ "$status" = "$wanted" ] || wrong "\`$command\` ended with $status, and not $wanted: $(cat "$room/err")"
  [ ! -s "$room/out" ] || wrong "\`$command\` writes $(head -n 1 "$room/out")"
  [[ "$command" != images* || "$(wc -l < "$room/err")" = 1 ]] || wrong "\`$command\` has more than a line: $(cat "$room/err")"
  mapfile -t parts <<< "${parts// && /$'\n'}"
  has "\`$command\`" "$(cat "$room/err")" "${parts[@]}"
}
# Tries the rows of the table that are like this.
try_rows() {
  local line row rows before=""
  while IFS= read -r line; do
    case "$line" in
      "" | "#"*) before="" ;;
      "== "*) before="${line#== } " ;;
      *)
        mapfile -t rows <<< "${line// \/ /$'\n'}"
        for row in "${rows[@]}"; do
          # shellcheck disable=SC2053
          [[ "$before$row" != $1 ]] || try_row "$before$row"
        done
        ;;
    esac
  done < checks/messages/commands.table
}
try_rows "*"
if has_by_rattle vss_tools; then
  ln -sfn "$(program vss_tools).by-rattle" "$room/at/programs/vss_tools"
  try_rows "? @(orders|timeline)*"
  ln -sfn "$(program vss_tools)" "$room/at/programs/vss_tools"
fi
(try_row "2 vss runs => \`runs\` is no command; did you mean \`gen\`?" 2> /dev/null; [ "$failed" = 1 ]) || wrong "a row with another text is accepted"

# how ./vss ends, and what it says; the words follow
ran() {
  local wanted="$1" status
  shift
  vss "$@" > "$room/out" 2> "$room/err"
  status=$?
  [ "$status" = "$wanted" ] || wrong "\`./vss $*\` ended with $status, and not $wanted: $(cat "$room/err")"
}
said() { has "./vss" "$(cat "$room/err")" "$@"; }
if [ -w /dev/full ]; then
  vss run < "$top/examples/first.scenario" > /dev/full 2> "$room/err"
  [ "$?" = 5 ] || wrong "a full disk: $(cat "$room/err")"
  said "vss: write fault" "is the disk full"
fi
if ! { [ -f "$vss.sources" ] && is_slow "$vss"; }; then
  ran 8 inspect < /dev/zero
  said "vss: input too long" "an area 1,074,806,784"
  (ulimit -v 400000 && ran 7 inspect < /dev/zero; exit "$failed") || failed=1
  said "vss: out of memory" "an area is read whole, up to 1 GiB of it"
  printf 'scenario 1\nvolume C 65536 1\nlane a\nread C 0\n' > "$room/large.scenario"
  (ulimit -v 400000 && ran 7 run < "$room/large.scenario"; exit "$failed") || failed=1
  said "vss: out of memory" "a run takes up to 2 GiB for its volumes and areas"
fi
# no rights, and a full disk, as far as they can be had here
mkdir -m 555 "$room/sealed"
as_nobody=()
[ "$(id -u)" != 0 ] || as_nobody=(setpriv --reuid=65534 --regid=65534 --clear-groups)
chmod 711 "$room"
cp "$vss" "$room/program" && cp "$(program vss_tools)" "$room/tools" && chmod 755 "$room/program" "$room/tools"
"${as_nobody[@]}" "$room/program" run "$room/sealed" < "$top/examples/first.scenario" 2> "$room/err"
said "vss: device fault" "     $room/sealed/C.vol could not be created: Permission denied (os error 13)"
mkdir "$room/end"
if mount -t tmpfs -o size=48k tmpfs "$room/end" 2> /dev/null; then
  try_row "6 leaves '' end vss run end < first.scenario =>      end/C.area could not be written: No space left on device (os error 28) && no file of this run is left"
  umount "$room/end"
fi
if [ -w /dev/full ]; then
  mkdir "$room/whole"
  vss run "$room/whole" < "$top/examples/first.scenario" > /dev/full 2> "$room/err"
  [ "$?" = 5 ] && [ "$(ls "$room/whole" | wc -l)" = 2 ] || wrong "where the report finds no room, the files are gone"
fi

# `./orders` with more than a table can say
echo > "$room/closed" && chmod 0 "$room/closed"
"${as_nobody[@]}" "$room/tools" orders again "$room/first.scenario" "$room/closed" > "$room/out" 2> "$room/err"
said "orders: $room/closed: could not be read: Permission denied"
orders many -j 2 20 examples/orders/hold_limit.scenario > "$room/out" 2> "$room/err"
cmp -s "$room/out" <(orders many 20 examples/orders/hold_limit.scenario) || wrong "many in two jobs has other outcomes"

# help and the version of each command
for tool in vss orders timeline images backup tests prove; do
  path="$(PATH="$room/at:$top" command -v "$tool")"
  for word in help --help -h --version; do
    "$path" "$word" < /dev/null > "$room/out" 2> "$room/err" || wrong "./$tool $word ends with another status than 0"
    case "$word" in --version) wanted="$tool $(cat VERSION), of the sources " ;; *) wanted="./$tool" ;; esac
    has "./$tool $word" "$(cat "$room/out")" "$wanted"
    [ ! -s "$room/err" ] || wrong "./$tool $word says on the standard error: $(cat "$room/err")"
  done
done
for words in "vss run" "orders seed" "timeline --text" "images cut"; do
  # shellcheck disable=SC2086
  has "$words --help" "$($words --help < /dev/null 2> /dev/null)" "./${words%% *} "
done
./tests frist > "$room/out" 2> "$room/err"
said "named frist; there are" " messages" "vss_tools"

# on a terminal: where the scenario comes from, how far a long run is, and Ctrl-C
trials=$((trials + 4))
python3 checks/messages/on_terminal.py "$top/vss" "$room" || failed=1

ends "$trials trials, each with its place, its reason and what helps"
