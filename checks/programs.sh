#!/usr/bin/env bash
# Which program is run, in a small repository of its own with programs that are made up: a program is called proved of these sources alone,
# whatever the times of files are. A build without a proof is made once. What is missing is named in one line.
. "$(dirname "${BASH_SOURCE[0]}")/prelude.sh" || exit 70
small="$room/a small one"
mkdir -p "$small/tools" "$small/crates/low/src" "$small/crates/vss/src" "$small/crates/vss/out"
cp "$top/vss" "$top/timeline" "$top/VERSION" "$small/"
cp "$top"/tools/*.sh "$small/tools/"
printf 'low: # below\nother: low\nvss may_wait=1: low\n' > "$small/crates.txt"
echo one > "$small/crates/low/src/lib.rt"
echo two > "$small/crates/vss/src/main.rt"
program="$small/crates/vss/out/vss"
printf '#!/bin/sh\ncat || exit 4\n' > "$room/cat"
chmod +x "$room/cat"

# In place of a build: takes a second, and counts itself.
make_builder() {
  printf '#!/bin/sh\necho built >> "%s/built"\nsleep 1\n%s\n' "$small" "$1" > "$small/tools/fast-build"
  chmod +x "$small/tools/fast-build"
}
make_builder "cp '$room/cat' \"\$2\""

# The commands here but for those that are named, in one folder, with an `rt` that does nothing.
commands_without() {
  local tool found
  rm -rf "${room:?}/bin" && mkdir "$room/bin" && ln -s /bin/true "$room/bin/rt"
  for tool in bash sh cat cp mv rm mkdir sleep wc sed readlink dirname basename flock python3 awk find sort xargs sha256sum; do
    case " $* " in *" $tool "*) continue ;; esac
    found="$(command -v "$tool")" && ln -s "$found" "$room/bin/"
  done
  for tool in "$@"; do rm -f "$room/bin/$tool"; done
}

# Calls a function of tools/program.sh in the small repository.
call() { PATH="${path:-$PATH}" bash -c 'top="$1"; . "$top/tools/program.sh"; shift; "$@"' small "$small" "$@" 2> "$room/err"; }

# What is_proved or has_by_rattle has to answer, and of what.
is() { call "${4:-is_proved}" vss || wrong "$1: not $2"; }
is_not() { ! call "${3:-is_proved}" vss || wrong "$1: $2"; }

cp "$room/cat" "$program"
is_not "a program without a note" proved
sum="$(call sum_of_sources vss)"
call note_proved vss "$sum" || wrong "no note was written"
is "a program with its note" proved
is_not "a second build that is not there" proved has_by_rattle
cp "$room/cat" "$program.by-rattle"
is_not "a second build without a note" proved has_by_rattle
call note_proved vss "$sum" by-rattle || wrong "no note was written of both"
is "a second build with its note" proved "" has_by_rattle
echo "# more" >> "$program.by-rattle"
is_not "a second build that was changed" proved has_by_rattle

# a source with other contents and an older time, another crate's line, a comment
echo three > "$small/crates/low/src/lib.rt"
touch -d '2001-01-01' "$small/crates/low/src/lib.rt" "$small/crates/low/src"
is_not "a source below that was edited with an older time" proved
! call note_proved vss "$sum" || wrong "a note was written of sources that changed meanwhile"
echo one > "$small/crates/low/src/lib.rt"
is "a source that is as it was" proved
touch "$small/crates/low/src/new.rt"
is_not "a source that is new" proved
rm "$small/crates/low/src/new.rt"
sed -i 's/# below/# at the bottom/; s/^other: low/other:/' "$small/crates.txt"
is "a comment and another crate's line" proved
sed -i 's/may_wait=1/may_wait=2/' "$small/crates.txt"
is_not "its own line of crates.txt" proved
sed -i 's/may_wait=2/may_wait=1/' "$small/crates.txt"
is "a line that is as it was" proved
echo "# more" >> "$program"
is_not "a program that was changed" proved
cp "$room/cat" "$program"
is "a program that is as it was" proved

# How ./vss, or another script, ends without some tools: its status, and what its one line says.
tells() {
  local wanted="$1" text="$2" status
  shift 2
  commands_without "$@"
  PATH="$room/bin" "$room/bin/bash" "$small/${script:-vss}" run < /dev/null > "$room/out" 2> "$room/err"
  status=$?
  [ "$status" = "$wanted" ] && [ "$(wc -l < "$room/err")" = 1 ] && grep -qF -- "$text" "$room/err" ||
    wrong "without $*: status $status, \"$(cat "$room/err")\""
}
for tool in awk find sort xargs sha256sum; do
  commands_without "$tool"
  path="$room/bin" is_not "without $tool" proved
  tells 127 "no command $tool here" "$tool"
done
for tool in readlink dirname; do tells 127 "no command $tool here" "$tool"; done
for tool in readlink dirname sha256sum; do script=timeline tells 127 "timeline: there is no command $tool here" "$tool"; done
rm "$program"
for tool in rt python3 flock; do tells 127 "no command $tool here" "$tool"; done

# a folder that nothing can be written in
echo > "$small/out"
tells 70 "nothing can be written in"
rm "$small/out"

# two at once, while a third builds: both say that they wait; then one builds, and both run; closed streams
[ ! -e "$small/built" ] || wrong "it was built already"
mkdir -p "$small/out/fast" && exec 8> "$small/out/fast/vss.lock" && flock 8
for lane in 1 2; do
  (echo "lane $lane" | "$small/vss" run > "$room/out.$lane" 2> "$room/err.$lane"; echo "$?" >> "$room/out.$lane") 8>&- &
done
for lane in 1 2; do
  timeout 60 sh -c 'until grep -qs "vss is being built by another call; this one waits" "$1"; do sleep 0.1; done' wait "$room/err.$lane" ||
    wrong "that another build is waited for is not said"
done
exec 8>&-
wait
for lane in 1 2; do
  [ "$(cat "$room/out.$lane")" = "lane $lane"$'\n0' ] && grep -q "an unproved build" "$room/err.$lane" || wrong "two at once: $(cat "$room/out.$lane" "$room/err.$lane")"
done
[ "$(wc -l < "$small/built")" = 1 ] || wrong "two at once built $(wc -l < "$small/built") times"
cat "$room/err.1" "$room/err.2" | grep -qE "building vss without a proof \(about [0-9]+ seconds, once\)" || wrong "that a build begins is not said"
timeout 600 "$small/vss" run <&- > "$room/out" 2> "$room/err"
[ "$?" = 4 ] || wrong "a closed input: $(cat "$room/err")"
timeout 600 "$small/vss" run < "$small/crates.txt" >&- 2> "$room/err"
[ "$?" = 4 ] && ! grep -q "Bad file descriptor" <(grep -v "^cat:" "$room/err") || wrong "a closed output: $(cat "$room/err")"

# a build that was changed is made again; one that fails leaves nothing; a slow one says so
echo "# more" >> "$small/out/fast/vss"
call program_to_run vss > /dev/null && [ "$(wc -l < "$small/built")" = 2 ] || wrong "a build that was changed was not made again"
echo four > "$small/crates/vss/src/main.rt"
make_builder "echo 'it is refused' >&2; exit 1"
"$small/vss" run < /dev/null > "$room/out" 2> "$room/err"
[ "$?" = 70 ] && grep -q "it is refused" "$room/err" || wrong "a build that fails: $(cat "$room/err")"
make_builder "[ \"\$1\" = --slow ] || exit 3; cp '$room/cat' \"\$3\""
"$small/vss" run < /dev/null > "$room/out" 2> "$room/err"
[ "$?" = 0 ] && grep -q "a slow one" "$room/err" || wrong "a slow build: $(cat "$room/err")"
printf '#!/bin/bash\nkill -ABRT $$\n' > "$room/aborts"
chmod +x "$room/aborts"
echo six > "$small/crates/vss/src/main.rt"
make_builder "[ \"\$1\" = --slow ] || exit 3; cp '$room/aborts' \"\$3\""
(ulimit -v 4000000 && exec "$small/vss" run < /dev/null > "$room/out" 2> "$room/err")
[ "$?" = 134 ] && grep -q "a slow build reserves more addresses than \`ulimit -v\` allows here" "$room/err" || wrong "a slow build without its addresses: $(cat "$room/err")"
make_builder "echo five > '$small/crates/vss/src/main.rt'; cp '$room/cat' \"\$2\""
"$small/vss" run < /dev/null > "$room/out" 2> "$room/err"
[ "$?" = 70 ] && grep -q "changed while it was built" "$room/err" || wrong "sources that change meanwhile: $(cat "$room/err")"

# a released program is run before all others, of whatever sources; one without a proof says so
mkdir "$small/programs"
printf '#!/bin/sh\necho released\n' > "$small/programs/vss" && chmod +x "$small/programs/vss"
for how in released "released without a proof"; do
  printf '%064d %064d\n%s' 0 0 "${how#released}" | sed 's/^ without a proof/unproved/' > "$small/programs/vss.sources"
  [ "$("$small/vss" --version)" = "vss $(< VERSION), of the sources 0000000000000000, $how" ] || wrong "$how: $("$small/vss" --version 2>&1)"
  [ "$("$small/vss" run < /dev/null 2> "$room/err")" = released ] || wrong "a released program is not run"
  [ "$how" = released ] && [ ! -s "$room/err" ] || grep -q "an unproved build" "$room/err" || wrong "$how: $(cat "$room/err")"
done
rm -r "$small/programs"

# how far a build is, on a terminal
mkdir "$room/terminal"
printf '#!/bin/sh\nsleep 3\nexit 1\n' > "$room/terminal/rt"
chmod +x "$room/terminal/rt"
PATH="$room/terminal:$PATH" python3 -c 'import pty, sys; pty.spawn(sys.argv[1:])' "$top/tools/fast-build" --slow vss "$room/terminal/vss" \
  < /dev/null > "$room/out" 2>&1
grep -qE "vss: [0-9]+ seconds so far" "$room/out" || wrong "on a terminal it is said of a build: $(cat "$room/out")"

# another line of the kit is named before it proves anything
printf '#!/bin/sh\necho "rattle-kit-0 logic 0"\n' > "$room/terminal/rt"
PATH="$room/terminal:$PATH" "$top/prove" no_such_crate < /dev/null > "$room/out" 2> "$room/err"
[ "$?" = 64 ] && grep -q "this is rattle-kit-0; these sources were proved with rattle-kit-13b and rattle-kit-13f alone" "$room/err" ||
  wrong "./prove by another line of the kit: $(cat "$room/err")"
ends "a program is called proved of its own sources alone, is built once, and what is missing is named"
