#!/usr/bin/env bash
# compare.sh [SHEETS]: proves and builds the archive, builds the Rust encoder beside it, and compares their answers to a million
# generated sheets, or to so many, and the archive's stepping through each sheet and block with a plain stepper's; ties the steps
# and branches of each block to its sheet.
# compare.sh speed [ROUNDS]: times packer and encoder against each other. What it is doing it tells on standard error. Needs rt,
# cargo and Debian's crates (oracle/README.md).
set -euo pipefail
cd "$(dirname "${BASH_SOURCE[0]}")/.."
. tools/prove.sh
needs rt cargo
tools/native-lib.sh
export MERINOVAULT_LIB_DIR=$PWD/target/staticlib
cd compare
if [ "${1-}" = speed ]; then
  shift
  say "builds both sides, then times them: a line for each case that is done"
  exec cargo run --offline --profile speed --bin speed -- "$@"
fi
say "builds both sides, then compares ${1:-1000000} sheets: a line for each family of them that is done"
exec cargo run --offline --release --bin compare -- "$@"
