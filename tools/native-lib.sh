#!/usr/bin/env bash
# native-lib.sh [OUT]: proves the crate merinovault_c and what it stands on, builds its static library by `rt lib`, and copies that
# to target/staticlib/libmerinovault.a, where rust/build.rs looks, and to OUT, if one is named. What it is doing it tells on
# standard error. Needs rt.
set -euo pipefail
[ $# -eq 0 ] || { mkdir -p "$(dirname "$1")" && out=$(realpath "$1"); }
cd "$(dirname "${BASH_SOURCE[0]}")/.."
. tools/prove.sh
prove merinovault_c
say "builds the archive"
in_crate merinovault_c target/lib.log rt lib
for to in target/staticlib/libmerinovault.a ${out:+"$out"}; do
  mkdir -p "$(dirname "$to")"
  cp crates/merinovault_c/out/libmerinovault_c.a "$to"
  say "$to is written"
done
