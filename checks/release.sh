#!/usr/bin/env bash
# The archive of the programs: two builds of it are equal, and what it has does the same for another user without the kit as it does here. It is
# of the proved programs where these are there, and else of fast builds.
. "$(dirname "${BASH_SOURCE[0]}")/prelude.sh" || exit 70
way=() kind="the proved programs"
if ! tools/release "$room/one" > "$room/said" 2> "$room/err" && grep -q "is not proved of these sources here" "$room/err"; then
  way=(--unproved) kind="fast builds, and nothing is said of the proved programs"
fi
tools/release ${way[@]+"${way[@]}"} "$room/one" > "$room/said" || exit 1
(umask 077 && TZ=Asia/Tokyo LC_ALL=C tools/release ${way[@]+"${way[@]}"} "$room/two" > "$room/said") || exit 1
archive="$(echo "$room"/one/*.tar.gz)"
cmp "$archive" "$room/two/${archive##*/}" || wrong "two builds of the archive differ"
chmod 711 "$room"
tools/release --check "$archive" > "$room/said" || wrong "the archive does not work"

# an archive with a page that was changed, and one whose programs are of another version
spoils() {
  local text="$1" stem
  shift
  rm -rf "$room/spoilt" && mkdir "$room/spoilt" && tar -xzf "$archive" -C "$room/spoilt"
  stem="$(ls "$room/spoilt")"
  "$@" "$room/spoilt/$stem" && tar -czf "$room/spoilt.tar.gz" -C "$room/spoilt" "$stem"
  ! tools/release --check "$room/spoilt.tar.gz" > "$room/said" 2> "$room/err" && grep -qF -- "$text" "$room/err" ||
    wrong "of a spoilt archive it is said: $(cat "$room/said" "$room/err")"
}
changes_a_page() { echo more >> "$1/README.md"; }
says_another_version() { echo 0 > "$1/VERSION" && (cd "$1" && sed -i "s/^.*  VERSION\$/$(sha256sum VERSION)/" SHA256SUMS); }
loses_a_program() { rm "$1/programs/vss" && sed -i '/ programs\/vss$/d' "$1/SHA256SUMS"; }
spoils "sha256sum" changes_a_page
spoils "--version says" says_another_version
spoils "./vss run" loses_a_program
ends "an archive of $kind: $(stat -c %s "$archive") bytes, equal twice, and used by another user without the kit"
