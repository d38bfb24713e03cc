# What the checks have in common. Each reads this file first, and then works in the top folder of the repository, with `top` (that folder),
# `check` (its own name), `room` (a folder of its own, which is removed at the end) and `failed`. Its scripts in Python find checks/common.py.
# This file is no check.
# shellcheck shell=bash
set -u
top="$(cd "$(dirname "${BASH_SOURCE[0]}")/.." && pwd)" || exit 70
check="$(basename "$0" .sh)"
failed=0
. "$top/tools/program.sh"
cd "$top" || exit 70
export PYTHONPATH="$top/checks" PYTHONDONTWRITEBYTECODE=1
room="$(mktemp -d)" || exit 70
trap 'rm -rf "$room"' EXIT

# Says what is wrong.
wrong() {
  echo "$check: $*" >&2
  failed=1
}

# Ends the check, with this line where nothing was wrong.
ends() {
  [ "$failed" = 0 ] || exit 1
  echo "$check: $*"
  exit 0
}

# Prints the path of a program of this crate: `vss="$(program vss)" || exit 1`.
program() { program_to_run "$1"; }

# Prints that path, and the one of its second build, by Rattle's own compiler, where the crate is proved.
programs() {
  local path
  path="$(program "$1")" || return 1
  echo "$path"
  if has_by_rattle "$1"; then echo "$path.by-rattle"; fi
}

# Prints the paths of scripts that run a tool of `vss_tools` by these programs: `builds="$(tools orders)" || exit 1`.
tools() {
  local tool="$1" builds build
  builds="$(programs vss_tools)" || return
  for build in $builds; do
    printf '#!/bin/sh\nexec "%s" %s "$@"\n' "$build" "$tool" > "$room/$tool-${build##*/}"
    chmod +x "$room/$tool-${build##*/}"
    echo "$room/$tool-${build##*/}"
  done
}
