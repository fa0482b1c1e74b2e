#!/usr/bin/env bash
# Holds each sample against a command that reads a sheet and prints its answer: samples/check.sh COMMAND [WORD ..]
# For each NAME.hex: D is the number of bytes between the lines "# == main body" and "# == trailer", and the command prints
# NAME.out, byte for byte. The command gets no book, so it is one that lends the empty book. Of each NAME.book.hex, the book of a
# sample, it compares the distance with the bytes between the lines "# == entries" and "# == trailer".
set -u
here=$(dirname "${BASH_SOURCE[0]}")
[ $# -gt 0 ] || { printf 'usage: %s COMMAND [WORD ..]\n' "$0" >&2; exit 2; }
work=$(mktemp -d) || exit 2
trap 'rm -rf "$work"' EXIT

# The hex digits of a part of a .hex file, without blanks.
part() { sed -n "/^# == $2\$/,/^# == $3\$/p" "$1" | sed 's/#.*//' | tr -d '[:space:]'; }

# Writes the bytes of a .hex file. Says if its trailer does not lead back over this part, or if it is not hex.
bytes() { # FILE PART TO
  local body trailer d length
  body=$(part "$1" "$2" 'trailer')
  trailer=$(part "$1" 'trailer' 'the end')
  d=$((16#${trailer:6:2}${trailer:4:2}${trailer:2:2}${trailer:0:2})) length=$((${#body} / 2))
  [ "$d" -eq "$length" ] || printf '%s: the trailer says %d, and behind "== %s" stand %d bytes\n' "$1" "$d" "$2" "$length"
  "$here/hex.sh" "$1" > "$3" || printf '%s is not hex\n' "$1"
}

# Says what is wrong with the sample of this .hex file, or nothing.
faults() {
  local book=${1%.hex}.book.hex
  bytes "$1" 'main body' "$work/sheet"
  [ ! -e "$book" ] || bytes "$book" 'entries' /dev/null
  "${@:2}" < "$work/sheet" > "$work/out" || printf 'the command ended with status %d\n' $?
  diff "${1%.hex}.out" "$work/out"
}

passed=0 failed=0
for sample in "$here"/*.hex; do
  case $sample in *.book.hex) continue ;; esac
  name=$(basename "$sample" .hex)
  wrong=$(faults "$sample" "$@" 2>&1)
  if [ -z "$wrong" ]; then
    printf 'ok    %s\n' "$name"
    passed=$((passed + 1))
  else
    printf 'WRONG %s\n%s\n' "$name" "$wrong"
    failed=$((failed + 1))
  fi
done
printf '%d passed, %d failed\n' "$passed" "$failed"
[ "$failed" -eq 0 ] && [ "$passed" -gt 0 ]
