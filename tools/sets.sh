#!/usr/bin/env bash
# The sets of a text case by case, each as a file, so that many processes or machines can seek them; and the document that is made of them.
#
#   tools/sets.sh list TEXT FOLDER          writes the cases of TEXT to FOLDER/cases, one a line (`NAME CASE`), and prints how many there are
#   tools/sets.sh one TEXT FOLDER N..       the set of the case on each of these lines: FOLDER/N.set, or, where it is false or unknown, FOLDER/N.open
#   tools/sets.sh join TEXT FOLDER          prints the document, where all sets are there
#   tools/sets.sh left TEXT FOLDER          prints the lines of the cases that have no set yet
#
# SMV_LOOK is the program (`smv_look` without it), SETS_WORDS the budgets (`--nodes 16777216`). What is there and newer than TEXT is not done again;
# to seek what is open anew, with other budgets, remove FOLDER/*.open. `one` ends with status 0 where each case has its set, 1 where one is false, 2 where one is unknown.
set -u
look=${SMV_LOOK:-smv_look}
word=$1 text=$2 folder=$3
shift 3

# The set of the case on a line. A file is made under another name first: what is cut off leaves no half of it.
one() {
  made=$folder/$1
  [ "$made.set" -nt "$text" ] && return 0
  [ "$made.open" -nt "$text" ] && return "$(open_status "$made.open")"
  read -r name case <<END
$(sed -n "$1p" "$folder/cases")
END
  # shellcheck disable=SC2086
  "$look" sets "$name" "$case" ${SETS_WORDS:-} < "$text" > "$made.part.$$"
  status=$?
  case $status in
    0) mv "$made.part.$$" "$made.set" && rm -f "$made.open" ;;
    1 | 2) mv "$made.part.$$" "$made.open" ;;
    *) rm -f "$made.part.$$" ;;
  esac
  return $status
}

# 1 where a file tells that a case is false, and 2 where it tells that it is unknown.
open_status() {
  if grep -q '^[^ ]*: false at ' "$1"; then echo 1; else echo 2; fi
}

case $word in
  list)
    mkdir -p "$folder"
    "$look" list < "$text" > "$folder/units" || exit
    awk '/^[^ ]/ { name = $1; sub(/:$/, "", name) } /^ cases / { for (k = 1; k <= $2; k++) print name, k }' "$folder/units" > "$folder/cases"
    wc -l < "$folder/cases"
    ;;
  one)
    worst=0
    for line in "$@"; do
      one "$line"
      status=$?
      [ $status -gt 2 ] && exit $status
      [ $status -eq 0 ] || [ $worst -eq 1 ] || worst=$status
    done
    exit $worst
    ;;
  join)
    "$look" front < "$text" || exit
    seq "$(wc -l < "$folder/cases")" | while read -r line; do
      cat "$folder/$line.set" || exit
    done
    ;;
  left)
    seq "$(wc -l < "$folder/cases")" | while read -r line; do
      [ "$folder/$line.set" -nt "$text" ] || echo "$line"
    done
    ;;
  *)
    sed -n '4,7s/^# *//p' "$0"
    exit 4
    ;;
esac
