#!/usr/bin/env bash
# Each example's report is what the program writes of it, as LLVM and, where that is there, as Rattle's own compiler builds it. Where nothing says which
# of two lanes comes first, an example has a second report, NAME.or.report, and the program may write either. And README.md's lines of a backup run as they
# stand there, in a folder whose database a process writes all the time.
. "$(dirname "${BASH_SOURCE[0]}")/prelude.sh" || exit 70
builds="$(programs vss)" || exit 1
mapfile -t builds <<< "$builds"
for scenario in examples/*.scenario; do
  name="${scenario%.scenario}"
  for vss in "${builds[@]}"; do
    if ! "$vss" run < "$scenario" > "$room/report"; then
      wrong "$scenario: $(basename "$vss") ended with another status than 0"
    elif ! cmp -s "$room/report" "$name.report" && ! cmp -s "$room/report" "$name.or.report" 2> /dev/null; then
      wrong "$scenario: another report than $name.report, from $(basename "$vss")"
    fi
  done
done

images="$(program images)" && backup="$(program backup)" || exit 1
ln -s "$images" "$room/images"
ln -s "$top/hooks" "$room/hooks"
printf '#!/bin/sh\nexec python3 "%s" "%s" "$@"\n' "$top/hooks/carry.py" "$backup" > "$room/backup" && chmod +x "$room/backup"
python3 -c 'import sqlite3' 2> /dev/null && [ -n "$(type -P sqlite3)" ] ||
  { echo "examples: there is no sqlite3 here, so README.md's backup of a database was left out" >&2; ends "the scenarios alone"; }
# a writer that commits every few milliseconds until it is ended, and prints how often it did
python3 -c '
import sqlite3, sys, time
kept = sqlite3.connect(sys.argv[1], isolation_level=None, timeout=60)
for call in ("pragma journal_mode = wal", "create table t (n)"):
    kept.execute(call).fetchall()
count = 0
while True:
    time.sleep(0.003)
    kept.execute("insert into t values (1)")
    count += 1
    print(count, flush=True)
' "$room/app.db" > "$room/commits" &
writer=$!
while [ ! -s "$room/commits" ]; do sleep 0.1; done
(cd "$room" && PATH="$PATH:$room" && . <(sed -n '/^images create store/,/^```/p' "$top/README.md" | grep -v '^```')) > "$room/said" 2>&1
before="$(tail -n 1 "$room/commits")"
sleep 0.5
[ "$(tail -n 1 "$room/commits")" -gt "$before" ] || wrong "README.md: the writer of app.db stopped after $before commits"
kill "$writer"
[ "$(tail -n 2 "$room/said")" = "ok"$'\n'1 ] || wrong "README.md, the backup of a database: $(cat "$room/said")"
ends "$(ls examples/*.scenario | wc -l), as written, from ${#builds[@]} builds, and the backup of a database that is being written"
