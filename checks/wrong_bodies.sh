#!/usr/bin/env bash
# Each wrong body of must-fail/ and of a wrong.table can be applied: it names files of its crate, and each text that it changes stands there
# once. That the prover refuses it, `rt ci` tries for must-fail/ and tools/wrong-bodies for both. It needs no program.
. "$(dirname "${BASH_SOURCE[0]}")/prelude.sh"

said="$(tools/wrong-bodies --look)" || failed=1
[ "${said%% *}" -le 40 ] || wrong "${said%% *} edits in must-fail/; the gate has room for 40"
ends "$said, each can be applied"
