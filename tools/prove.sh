# prove.sh, sourced by the scripts beside it, which work in the checkout's top folder: how they prove and say what they do.
# All of it goes to standard error, so that standard output has a script's answer alone.
# shellcheck shell=bash

say() { echo "${0##*/}: $*" >&2; }

# Stops if a command is not on the path.
needs() { # COMMAND ..
  local command
  for command in "$@"; do
    command -v "$command" >/dev/null || { say "$command is not on the path; it is needed here"; exit 2; }
  done
}

# NAME and the crates that it stands on, one to a line, by crates.txt.
made_of() { # NAME
  awk -v name="$1" '
    function visit(crate,    list, count, k) {
      if (!(crate in below) || crate in seen) return
      seen[crate]
      print crate
      count = split(below[crate], list, " ")
      for (k = 1; k <= count; k++) visit(list[k])
    }
    { sub(/#.*/, "") }
    at = index($0, ":") { crate = substr($0, 1, at - 1); sub(/^[ \t]+/, "", crate); sub(/[ \t].*/, "", crate); below[crate] = substr($0, at + 1) }
    END { visit(name) }' crates.txt
}

# Reads what `rt check` says. Shows each crate as soon as it is proved.
shown() {
  local line crate=
  while IFS= read -r line; do
    case $line in
      'crate '*': modules '*) crate=${line#crate } crate=${crate%%:*} ;;
      'logic=proved '*) echo "  proved: $crate" >&2 ;;
    esac
  done
}

# Runs rt in the crate's folder, with all that it says in a log. If it fails, shows the end of what it said and stops.
in_crate() { # NAME LOG COMMAND [WORD ..]
  local log=$2 status
  mkdir -p target
  set +o pipefail
  (cd "crates/$1" && "${@:3}") 2>&1 | tee "$log" | shown
  status=${PIPESTATUS[0]}
  set -o pipefail
  [ "$status" -ne 0 ] || return 0
  grep -Ev ': proved$|: modules loaded=' "$log" | tail -n 20 >&2 || true
  say "'${*:3}' failed in crates/$1; $log has all that it said"
  exit "$status"
}

# Proves NAME and what it stands on.
prove() { # NAME
  local count
  needs rt
  count=$(made_of "$1" | wc -l)
  [ "$count" -gt 0 ] || { say "crates.txt lists no crate $1"; exit 2; }
  say "proves $1 and what it stands on, $count crates: the first time that takes minutes, later only what changed is proved"
  in_crate "$1" target/prove.log rt check
  say "all $count are proved"
}
