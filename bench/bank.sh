#!/bin/sh
# Builds crates/bank_bench and bank.rs, times both on each call for the same number of repetitions, and prints the ratio.
# A word makes all numbers of repetitions so many times as great: bench/bank.sh 3.
set -eu
top=$(cd "$(dirname "$0")/.." && pwd)
times=${1:-1}
work=$(mktemp -d)
trap 'rm -rf "$work"' EXIT

(cd "$top/crates/bank_bench" && rt run -- lookup 1 >"$work/log" 2>&1) || { cat "$work/log"; exit 1; }
proved=$top/crates/bank_bench/out/bank_bench
plain=$work/plain
rustc -O --edition 2021 -o "$plain" "$top/bench/bank.rs"

# The least processor time of five runs in microseconds.
least() {
    python3 -c 'import resource, subprocess, sys
def spent():
    before = resource.getrusage(resource.RUSAGE_CHILDREN).ru_utime
    subprocess.run(sys.argv[1:], stdout=subprocess.DEVNULL, check=True)
    return resource.getrusage(resource.RUSAGE_CHILDREN).ru_utime - before
print(round(min(spent() for _ in range(5)) * 1000000))' "$@"
}

printf '%-10s %12s %16s %16s %8s\n' call repetitions 'bank_bench, us' 'plain Rust, us' ratio
while read -r call count; do
    count=$((count * times))
    if [ "$("$proved" "$call" 3)" != "$("$plain" "$call" 3)" ]; then
        echo "$call: the answers differ"
        exit 1
    fi
    a=$(($(least "$proved" "$call" "$count") - $(least "$proved" "$call" 0)))
    b=$(($(least "$plain" "$call" "$count") - $(least "$plain" "$call" 0)))
    awk -v call="$call" -v n="$count" -v a="$a" -v b="$b" \
        'BEGIN { printf "%-10s %12d %16.2f %16.2f %8.2f\n", call, n, a / n, b / n, a / b }'
done <<'CALLS'
intern 300
again 300
lookup 300
view 100
CALLS
