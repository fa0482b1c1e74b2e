#!/usr/bin/env bash
# instructions.sh: instructions that one call takes, counted by callgrind, in each case of `tools/compare.sh speed`: the packer's C
# entry, the Rust's reading and encoding, and its encoding alone. What it is counting it tells on standard error. Run
# `tools/compare.sh speed 1` first; needs valgrind.
set -euo pipefail
cd "$(dirname "${BASH_SOURCE[0]}")/.."
. tools/prove.sh
needs valgrind
program=compare/target/speed/speed
[ -x "$program" ] || { say "$program is not there: run 'tools/compare.sh speed 1' first"; exit 2; }
counted() { # CASE SIDE TIMES
  valgrind --tool=callgrind --callgrind-out-file=/dev/null "$program" run "$@" 2>&1 | sed -n 's/.*Collected : //p'
}
printf '%-10s %12s %12s %12s\n' case ours both encoding
for case in screen recorded large tiny tiny2 tiny3 strings labels form2 deep book3 named3 turn3 spelt2; do
  line=$(printf '%-10s' "$case")
  for side in ours both encoding; do
    say "counts $case, $side"
    line+=$(printf ' %12d' $((($(counted "$case" "$side" 3) - $(counted "$case" "$side" 1)) / 2)))
  done
  echo "$line"
done
