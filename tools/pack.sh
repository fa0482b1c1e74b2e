#!/usr/bin/env bash
# pack.sh FILE.hex: proves and builds the block program, and packs the sheet that FILE spells in hex (samples/README.md tells how):
# prints the answer's number and value, and the block. The block program lends the empty book; for a sheet with a book there is the
# Rust crate's example pack (docs/LINKING.md). How far the proofs are it tells on standard error. Needs rt and xxd.
set -euo pipefail
hex=$(realpath "${1:?usage: tools/pack.sh FILE.hex}")
cd "$(dirname "${BASH_SOURCE[0]}")/.."
. tools/prove.sh
needs rt xxd
sheet=$(mktemp)
trap 'rm -f "$sheet"' EXIT
samples/hex.sh "$hex" >"$sheet"
prove block

# `rt run` builds the program, if that is still to be done, and runs it.
status=0
(cd crates/block && rt run <"$sheet" 2>../../target/run.log) || status=$?
[ "$status" -eq 0 ] || { tail -n 20 target/run.log >&2; say "'rt run' ended with status $status in crates/block; the lines above are the end of target/run.log"; }
exit "$status"
