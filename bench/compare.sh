#!/usr/bin/env bash
# Compares the program with another engine that writes the same answers, on each problem of a folder: the text and the status must be
# the same. Writes a table with the processor times of both in seconds, and at the end how many differ; the status is 1 where any does.
#
#   bench/compare.sh ENGINE FOLDER [BUDGET] [SECONDS]
#
# ENGINE is a command with its words, as 'fast --kbo 1'; it gets the words `complete --budget BUDGET` behind them; the program gets `--workers 1` as well.
# Each run of either is stopped after SECONDS (60 where it isn't given); such a problem is listed as stopped and not compared.
set -u
top="$(cd "$(dirname "${BASH_SOURCE[0]}")/.." && pwd)"
program="$top/crates/mkbtt/out/mkbtt"
read -r -a engine <<<"${1:?the other engine}"
folder="${2:?a folder of problems}"
budget="${3:-3000}"
seconds="${4:-60}"
work="$(mktemp -d)"
trap 'rm -rf "$work"' EXIT
TIMEFORMAT='%U'

differ=0 same=0 stopped=0
printf '%-28s %10s %10s %8s  %s\n' problem program engine ratio answer
for problem in "$folder"/*.trs; do
    name="$(basename "$problem" .trs)"
    ours="$( { time timeout "$seconds" "$program" complete --workers 1 --budget "$budget" <"$problem" >"$work/ours" 2>/dev/null; echo $? >"$work/ours.status"; } 2>&1)"
    theirs="$( { time timeout "$seconds" "${engine[@]}" complete --budget "$budget" <"$problem" >"$work/theirs" 2>/dev/null; echo $? >"$work/theirs.status"; } 2>&1)"
    if [ "$(cat "$work/ours.status")" = 124 ] || [ "$(cat "$work/theirs.status")" = 124 ]; then
        answer=stopped
        stopped=$((stopped + 1))
    elif cmp -s "$work/ours" "$work/theirs" && cmp -s "$work/ours.status" "$work/theirs.status"; then
        answer=same
        same=$((same + 1))
    else
        answer=DIFFERS
        differ=$((differ + 1))
    fi
    awk -v n="$name" -v a="$ours" -v b="$theirs" -v w="$answer" \
        'BEGIN { printf "%-28s %10.3f %10.3f %8s  %s\n", n, a, b, (b > 0.002) ? sprintf("%.1f", a / b) : "-", w }'
done
echo "$same same, $differ differ, $stopped stopped"
[ "$differ" -eq 0 ]
