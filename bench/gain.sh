#!/usr/bin/env bash
# Times complete and rounds by one worker and by several on problems: what is gained by workers.
#
#   bench/gain.sh BUDGET WORKERS [FILE..]
#
# The files are those of examples/ where none are given. Each run is made three times, or so often as the variable RUNS says, by one
# worker and by WORKERS in turn, since times of a shared machine drift. A line for each problem and mode has the least seconds by the
# clock and, in brackets, of the processors, by one worker and by WORKERS; behind them how many times as long WORKERS take as one, by the
# clock and of the processors: of the least times and of the medians.
set -eu
top="$(cd "$(dirname "${BASH_SOURCE[0]}")/.." && pwd)"
gain_program="${MKBTT:-$top/crates/mkbtt/out/mkbtt}"
gain_budget="${1:?how many commits}"
gain_workers="${2:?how many workers}"
gain_runs="${RUNS:-3}"
shift 2
[ $# -gt 0 ] || set -- "$top"/examples/*.trs
export gain_program gain_budget gain_workers gain_runs
echo "processors: $(nproc)"
for file in "$@"; do
    python3 - "$file" <<'PY'
import os, resource, statistics, subprocess, sys, time

def once(mode, count):
    words = [os.environ["gain_program"], mode, "--workers", count, "--budget", os.environ["gain_budget"]]
    before, start = resource.getrusage(resource.RUSAGE_CHILDREN), time.monotonic()
    with open(sys.argv[1]) as problem:
        status = subprocess.run(words, stdin=problem, stdout=subprocess.DEVNULL, stderr=subprocess.DEVNULL).returncode
    clock, after = time.monotonic() - start, resource.getrusage(resource.RUSAGE_CHILDREN)
    if status > 2:
        sys.exit(f"{sys.argv[1]}: {mode} ended with {status}")
    return clock, after.ru_utime + after.ru_stime - before.ru_utime - before.ru_stime

def ratios(of, one, more):
    return " ".join(f"{of(it[at] for it in more) / of(it[at] for it in one):.2f}" for at in (0, 1))

for mode in ("complete", "rounds"):
    one, more = [], []
    for _ in range(int(os.environ["gain_runs"])):
        one.append(once(mode, "1"))
        more.append(once(mode, os.environ["gain_workers"]))
    shown = " ".join(f"{min(it[0] for it in times):.3f} ({min(it[1] for it in times):.3f})" for times in (one, more))
    name = os.path.basename(sys.argv[1]).removesuffix(".trs")
    print(name, mode, shown, "least", ratios(min, one, more), "median", ratios(statistics.median, one, more), flush=True)
PY
done
