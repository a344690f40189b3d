#!/bin/sh
# Builds crates/kb_bench and plain.rs, times both on each case for the same number of repetitions, and prints the ratio.
# A word makes all numbers of repetitions so many times as great: bench/run.sh 3. A second one is the only case to be run.
# In the end the path order searches 1,000 random sets of rules, each timed by itself.
set -eu
top=$(cd "$(dirname "$0")/.." && pwd)
times=${1:-1}
only=${2:-}
work=$(mktemp -d)
trap 'rm -rf "$work"' EXIT

(cd "$top/crates/kb_bench" && rt run -- lpo_group 1 >"$work/log" 2>&1) || { cat "$work/log"; exit 1; }
proved=$top/crates/kb_bench/out/kb_bench
plain=$work/plain
rustc -O --edition 2021 -o "$plain" "$top/bench/plain.rs"

# The least of five times in nanoseconds.
least() {
    best=
    for _ in 1 2 3 4 5; do
        start=$(date +%s%N)
        "$@" >/dev/null
        spent=$(($(date +%s%N) - start))
        if [ -z "$best" ] || [ "$spent" -lt "$best" ]; then best=$spent; fi
    done
    echo "$best"
}

printf '%-20s %12s %14s %14s %8s\n' case repetitions 'kb_bench, us' 'plain Rust, us' ratio
while read -r case count; do
    case $case in "$only"*) ;; *) continue ;; esac
    count=$((count * times))
    if [ "$("$proved" "$case" 3)" != "$("$plain" "$case" 3)" ]; then
        echo "$case: the answers differ"
        exit 1
    fi
    a=$(($(least "$proved" "$case" "$count") - $(least "$proved" "$case" 0)))
    b=$(($(least "$plain" "$case" "$count") - $(least "$plain" "$case" 0)))
    awk -v case="$case" -v n="$count" -v a="$a" -v b="$b" \
        'BEGIN { printf "%-20s %12d %14.2f %14.2f %8.2f\n", case, n, a / n / 1000, b / n / 1000, a / b }'
done <<'CASES'
lpo_group 100000
lpo_unary 5000
lpo_wide 300
lpo_wide_none 3000
lpo_selectors 20000
lpo_selectors_wide 20000
linear_group 1000
linear_unary 100
linear_unary_none 20
linear_unary_eight 100
linear_unary_eight_none 10
kbo_group 1000
kbo_eight 100
kbo_eight_none 100
kbo_words 100
kbo_words_none 100
unify_tree 10000
unify_comb 10000
unify_doubling 10000
rewrite_product 1000
rewrite_tree 100
rewrite_words_index 1000
rewrite_words_scan 1000
read_rules 10
read_variables 10
CASES

case sets in "$only"*) ;; *) exit ;; esac
"$proved" sets 1000 >"$work/proved.sets"
"$plain" sets 1000 >"$work/plain.sets"
paste -d ' ' "$work/proved.sets" "$work/plain.sets" >"$work/sets"
awk '$1 != $3 { print "sets: the answers differ"; exit 1 }' "$work/sets"

# The median, the 99th of 100, the second and the greatest of the numbers on the lines.
spread() {
    sort -n | awk '{ a[NR] = $1 } END { printf "%10.3f %10.3f %10.3f %10.3f\n", a[int(NR / 2)], a[int(NR * 0.99)], a[NR - 1], a[NR] }'
}

printf '%-20s %10s %10s %10s %10s\n' 'random sets' median '99 of 100' second worst
printf '%-20s ' 'kb_bench, ms' && awk '{ print $2 / 1000000 }' "$work/sets" | spread
printf '%-20s ' 'plain Rust, ms' && awk '{ print $4 / 1000000 }' "$work/sets" | spread
printf '%-20s ' ratio && awk '{ print $2 / $4 }' "$work/sets" | spread
