#!/usr/bin/env bash
# A table of the crates: lines of code without tests, of definitions and of proofs, and the number of must-fail edits.
#
#   bench/gate.sh                  the table
#   bench/gate.sh rt ci            the same, and the processor minutes that this command takes for each crate: for
#                                  its proof, for its tests' and for its edits. The command runs at the top
#
# `rt` states no times, so the processes of the prover are looked at each second while the command runs.
set -u
top=$(cd "$(dirname "$(readlink -f "${BASH_SOURCE[0]}")")/.." && pwd)
cd "$top" || exit
seen=$(mktemp)
trap 'rm -f "$seen"' EXIT

# look SESSION: a line for each process of the prover: which it is, its crate, what it does, and its ticks so far.
look() {
  local folder stat fields words crate kind
  for folder in /proc/[0-9]*; do
    { read -r stat < "$folder/stat"; } 2> /dev/null || continue
    [[ $stat == *" (rattle) "* ]] || continue
    # From the third field on: state, parent, group, session, ..
    read -ra fields <<< "${stat##*) }"
    [ "${fields[3]}" = "$1" ] || continue
    mapfile -td '' words 2> /dev/null < "$folder/cmdline"
    crate=$(printf '%s\n' "${words[@]}" | grep -A1 -x -e --crate-name | tail -n 1)
    kind=proof
    case " ${words[*]} $(readlink "$folder/cwd") " in
      *rt-edit-*) kind=edits ;;
      *' --test '*) kind=tests ;;
      *' --incremental /'*) kind=edits ;;
    esac
    echo "${folder#/proc/}.${fields[19]} $crate $kind $((fields[11] + fields[12]))"
  done
}

# measure COMMAND..: runs it in a session of its own, and looks until it ends.
measure() {
  setsid "$@" < /dev/null >&2 &
  local session=$!
  while kill -0 "$session" 2> /dev/null; do
    look "$session" >> "$seen"
    sleep 1
  done
  wait "$session"
}

# lines_in CRATE FOLDER: how many lines its files have, without tests.
lines_in() {
  find "crates/$1/$2" -name 'tests*' -prune -o -type f ! -name '*tests.rt' -exec cat {} + 2> /dev/null | wc -l
}

status=0
if [ $# -gt 0 ]; then
  measure "$@"
  status=$?
fi
printf '%-18s %6s %6s %6s %6s' crate src specs proofs edits
[ $# = 0 ] || printf ' | %8s %8s %8s' proof tests edits
printf '\n'
sed -n 's/^\([a-z][a-z0-9_]*\).*:.*/\1/p' crates.txt | while read -r crate; do
  printf '%-18s %6d %6d %6d %6d' "$crate" "$(lines_in "$crate" src)" "$(lines_in "$crate" specs)" "$(lines_in "$crate" proofs)" \
    "$(find "crates/$crate/must-fail" -name '*.edit' 2> /dev/null | wc -l)"
  [ $# = 0 ] || awk -v crate="$crate" -v second="$(getconf CLK_TCK)" '
    $2 == crate { last[$1] = $4; kind[$1] = $3 }
    END { for (it in last) sum[kind[it]] += last[it] / second / 60
      printf " | %8.1f %8.1f %8.1f", sum["proof"], sum["tests"], sum["edits"] }' "$seen"
  printf '\n'
done | awk '{ print; for (n = 2; n <= NF; n++) sum[n] += $n; last = NF }
  END { printf "%-18s %6d %6d %6d %6d", "all", sum[2], sum[3], sum[4], sum[5]
    if (last > 5) printf(" | %8.1f %8.1f %8.1f", sum[7], sum[8], sum[9]); print "" }'
exit "$status"
