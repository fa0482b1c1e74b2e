#!/usr/bin/env bash
# Turns a sheet or a book in hex into its bytes: samples/hex.sh NAME.hex > NAME.sheet. In a line, all from # on is a comment.
set -eu
bare=$(sed 's/#.*//' "$1")
if printf '%s\n' "$bare" | grep -Env '^([[:space:]]*[0-9A-Fa-f]{2})*[[:space:]]*$' >&2; then
  printf '%s: the lines above are not pairs of hex digits\n' "$1" >&2
  exit 1
fi
printf '%s\n' "$bare" | xxd -r -p
