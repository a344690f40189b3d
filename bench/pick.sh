#!/bin/sh
# Builds crates/pick_bench and prints what a call takes: the next job of an agenda, a job taken out and put back, and the rules whose left
# sides fit a term, by the index and rule by rule; processor time, the least of five runs.
set -eu
top=$(cd "$(dirname "$0")/.." && pwd)
(cd "$top/crates/pick_bench" && rt run -- next 1 1 >/dev/null)
exec python3 - "$top/crates/pick_bench/out/pick_bench" <<'PYTHON'
import resource, subprocess, sys

program = sys.argv[1]

def spent(*words):
    def once():
        before = resource.getrusage(resource.RUSAGE_CHILDREN).ru_utime
        subprocess.run([program, *map(str, words)], stdout=subprocess.DEVNULL, check=True)
        return resource.getrusage(resource.RUSAGE_CHILDREN).ru_utime - before
    return min(once() for _ in range(5))

for call, sizes, count, times in [("next", (100, 10000, 100000), 200000, 1), ("turn", (100, 10000, 100000), 100000, 1),
                                  ("candidates", (10, 100, 1000), 200, 1000), ("scan", (10, 100, 1000), 200, 1000)]:
    for size in sizes:
        print("%-10s %7d %8.3f us" % (call, size, (spent(call, size, count) - spent(call, size, 0)) / count / times * 1e6))
PYTHON
