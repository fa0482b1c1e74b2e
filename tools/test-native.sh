#!/usr/bin/env bash
# test-native.sh: proves and builds the archive, and calls it from C and Rust: the header as C11 and C++17, the Rust crate's tests,
# its examples on samples, the C example, and the C driver on the oracle's answers of crates/replay, plain and under the address and
# undefined-behaviour sanitizers. Needs rt, a C and a C++ compiler (CC, CXX), cargo and xxd. Its last line is
# 'test-native.sh: all is well'.
set -euo pipefail
cd "$(dirname "${BASH_SOURCE[0]}")/.."
cc=${CC:-cc} cxx=${CXX:-c++}
. tools/prove.sh
needs rt cargo xxd "$cc" "$cxx"
strict=(-Wall -Wextra -Wpedantic -Wconversion -Wshadow -Werror -Iinclude)
archive=target/staticlib/libmerinovault.a made=target/test-native
say() { echo "test-native.sh: $*"; }

# The example writes what c/example.stdout has, and the driver what crates/replay must write.
try() { # WHAT EXAMPLE DRIVER
  "$2" | cmp - c/example.stdout
  "$3" <crates/replay/stdin | cmp - crates/replay/stdout
  say "$1: the example, and the driver on the list of crates/replay, write what they must"
}

tools/native-lib.sh
mkdir -p "$made"

echo '#include "merinovault.h"' >"$made/header.c"
"$cc" -std=c11 "${strict[@]}" -c "$made/header.c" -o "$made/header.o"
"$cxx" -x c++ -std=c++17 "${strict[@]}" -c "$made/header.c" -o "$made/header.o"
say "the header compiles as C11 and as C++17"

say "the Rust crate's tests:"
export MERINOVAULT_LIB_DIR=$PWD/target/staticlib
cargo test --offline --manifest-path rust/Cargo.toml
say "the Rust crate's tests pass"

# A Rust example, given these words and the bytes of standard input, prints this text and ends with this status.
tells() { # TEXT STATUS EXAMPLE [WORD ..]
  local status=0
  cargo run --quiet --offline --manifest-path rust/Cargo.toml --example "$3" -- "${@:4}" - >"$made/told" || status=$?
  cmp "$made/told" "$1"
  [ "$status" -eq "$2" ] || { say "the Rust example ends with status $status, not $2: ${*:3}"; exit 1; }
}
for name in reject_falls_into_accept reject_is_rejected accept_leaves_its_function end_in_the_middle form_with_many_labels; do
  samples/hex.sh "samples/$name.hex" >"$made/$name.sheet"
  sed '1s/^0 \(.*\)/Done: a block of \1 bytes/' "samples/$name.out" >"$made/$name"
  tells "$made/$name" 0 pack <"$made/$name.sheet"
done
tells "$made/reject_is_rejected" 0 pack --strict <"$made/reject_is_rejected.sheet"
tells samples/reject_falls_into_accept.strict.out 1 pack --strict <"$made/reject_falls_into_accept.sheet"
tells "$made/reject_falls_into_accept" 0 pack --contained <"$made/reject_falls_into_accept.sheet"
tells "$made/accept_leaves_its_function" 0 pack --strict <"$made/accept_leaves_its_function.sheet"
tells samples/accept_leaves_its_function.contained.out 1 pack --contained <"$made/accept_leaves_its_function.sheet"
tells samples/accept_leaves_its_function.contained.out 1 pack --strict --contained <"$made/accept_leaves_its_function.sheet"
tells "$made/form_with_many_labels" 0 pack --strict --contained <"$made/form_with_many_labels.sheet"
for name in refused_cut_string refused_too_deep refused_boolean_in_catch prompts_from_the_book; do
  samples/hex.sh "samples/$name.hex" >"$made/$name.sheet"
  tells "samples/$name.plain.out" 1 pack <"$made/$name.sheet"
done
tells /dev/null 2 pack --other </dev/null 2>/dev/null
say "the Rust example pack tells of nine samples what it must, of four in strict mode and of three in contained mode too"

# A sample with its book, with a book of which the last byte is missing, and with one that is not there.
sheet=$made/prompts_from_the_book.sheet book=$made/prompts_from_the_book.book
samples/hex.sh samples/prompts_from_the_book.book.hex >"$book"
head -c -1 "$book" >"$made/cut.book"
text='the book is not well formed: its last 8 bytes must be the distance back to its first entry, the number of entries and the '
text+='mark 42 31, and the entries, each a length and that many bytes, none of them zero, must fill that distance exactly'
tells samples/prompts_from_the_book.book.out 0 pack --book "$book" <"$sheet"
tells samples/prompts_from_the_book.book.out 0 pack --strict --contained --book "$book" <"$sheet"
tells <(echo "18 BadBook, value 0: $text") 1 pack --book "$made/cut.book" <"$sheet"
tells "$made/reject_is_rejected" 0 pack --book "$made/cut.book" <"$made/reject_is_rejected.sheet"
tells /dev/null 2 pack --book "$made/no.book" <"$sheet" 2>/dev/null
tells /dev/null 2 pack --book <"$sheet" 2>/dev/null
say "the Rust example pack takes a sample's strings from its book, and refuses a book that is not well formed"

# The block of a sample, whole and without its last byte.
sed 1d samples/end_in_the_middle.out | xxd -r -p >"$made/block"
head -c -1 "$made/block" >"$made/cut"
text='byte 22 of the block: the step that begins here passes the end, or the block ends here without an End as its last step'
tells <(echo 'Done: 6 steps') 0 step <"$made/block"
tells <(echo "13 Unclean, value 22: $text") 1 step <"$made/cut"
tells /dev/null 2 step --other </dev/null 2>/dev/null
say "the Rust example step goes past an End in the middle of a block, and tells when the last End is missing"

# The hex of a sample has a line for each action of all bodies. The block of one that is packed has as many steps, and one more.
taken=0
for hex in samples/*.hex; do
  out=${hex%.hex}.out
  grep -qs '^0 ' "$out" || continue
  actions=$(grep -cE '^[0-9A-F]{2} +# +action [0-9]+:' "$hex")
  sed 1d "$out" | xxd -r -p >"$made/block"
  tells <(echo "Done: $((actions + 1)) steps") 0 step <"$made/block"
  taken=$((taken + 1))
done
[ "$taken" -gt 9 ] || { say "only $taken samples are packed"; exit 1; }
say "the Rust example step counts one step more than there are actions, in the blocks of $taken samples"

say "the C example and the driver, plain and under the sanitizers:"
for name in example driver; do
  "$cc" -std=c11 "${strict[@]}" -O2 "c/$name.c" "$archive" -o "$made/$name"
  "$cc" -std=c11 "${strict[@]}" -O1 -g -fsanitize=address,undefined -fno-sanitize-recover=all "c/$name.c" "$archive" -o "$made/$name-sanitized"
done
try plain "$made/example" "$made/driver"
try sanitized "$made/example-sanitized" "$made/driver-sanitized"
say "all is well"
