#!/bin/sh
# scripts/try.sh WORD..: runs the program on these words before anything is proved, compiled with
# run-time checks. It runs in a scratch folder with copies of the files that words name, so a file
# that it makes is lost. Its status is the program's.
log=$PWD/out/try.log
mkdir -p out || exit 1
scripts/needs.sh rt python3 || exit 1
count=$#
for word; do
    test ! -f "$word" || set -- "$@" --data "$word=$PWD/$word"
done
files=$(($# - count))
# options of rt come first, then the words
words="" options="" at=0
quote() { printf "'%s' " "$(printf %s "$1" | sed "s/'/'\\\\''/g")"; }
for word; do
    at=$((at + 1))
    if test $at -le $count; then words="$words$(quote "$word")"; else options="$options$(quote "$word")"; fi
done
cd crates/uimg || exit 1
eval "${RT:-rt} try $options -- $words" 2> "$log" < /dev/null
status=$?
grep -q '^run=ended' "$log" || { cat "$log" >&2; exit "$status"; }
grep '^uimg: ' "$log" >&2
exit "$status"
