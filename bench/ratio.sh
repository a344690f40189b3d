#!/usr/bin/env bash
# Times the program beside another engine on the cases of the table in docs/benchmarks.md ('Completing').
#
#   bench/ratio.sh ENGINE [TIMES [PROGRAM]]
#
# ENGINE is a command with its words, as 'fast --kbo 1'. Each case is run TIMES times, 9 where none is given, by both in turn and by
# one worker. It writes the least processor time of each in seconds, their ratio, the ratio of the medians, and whether both wrote
# the same bytes.
set -eu
top=$(cd "$(dirname "${BASH_SOURCE[0]}")/.." && pwd)
exec python3 - "$top" "$1" "${2:-9}" "${3:-$top/crates/mkbtt/out/mkbtt}" <<'PY'
import os, shlex, subprocess, sys, tempfile

top, engine, times, program = sys.argv[1], shlex.split(sys.argv[2]), int(sys.argv[3]), sys.argv[4]

def constants(count, more=""):
    rules = "".join(f"a{i} == b{i}\n" for i in range(1, count + 1))
    return f"(VAR x y)\n(RULES\n{rules}{more})\n".encode()

with open(f"{top}/examples/group.trs", "rb") as it:
    group = it.read()
swap = "f(x,y) == f(y,x)\n"
CASES = [(f"groups {n}", ["complete", "--budget", str(n)], group) for n in (1000, 3000, 20000)]
CASES += [(f"summary {n}", ["summary", "--number", str(n), "--budget", "5000"], b"") for n in (8, 16, 32)]
CASES += [
    ("twelve", ["complete", "--budget", "100000"], constants(12)),
    ("seven, swap", ["complete", "--budget", "100000"], constants(7, swap)),
    ("ten, swap", ["complete", "--budget", "100000"], constants(10, swap)),
]

def run(words, given):
    with tempfile.TemporaryFile() as read, tempfile.TemporaryFile() as wrote:
        read.write(given)
        read.seek(0)
        ran = subprocess.Popen(words, stdin=read, stdout=wrote, stderr=subprocess.DEVNULL)
        _, _, used = os.wait4(ran.pid, 0)
        wrote.seek(0)
        return used.ru_utime + used.ru_stime, wrote.read()

print(f"{'case':12s} {'program':>9s} {'engine':>9s} {'ratio':>6s} {'median':>6s}")
for name, words, given in CASES:
    ours, theirs = [], []
    for _ in range(times):
        ours.append(run([program, *words, "--workers", "1"], given))
        theirs.append(run([engine[0], *words, *engine[1:]], given))
    same = len({text for _, text in ours + theirs}) == 1
    a, b = (sorted(used for used, _ in it) for it in (ours, theirs))
    ratios = [a[at] / max(b[at], 0.001) for at in (0, times // 2)]
    print(f"{name:12s} {a[0]:9.4f} {b[0]:9.4f} {ratios[0]:6.2f} {ratios[1]:6.2f} {'same' if same else 'OTHER BYTES'}", flush=True)
PY
