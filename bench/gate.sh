#!/usr/bin/env bash
# Tells where the time of the gate goes: watches the provers that a running `rt ci` starts, and adds up their processor time.
#
#   bench/gate.sh
#
# Start it beside `rt ci`. It looks once a second until no `rt ci` has run for five seconds, or it is told to end (`kill`). Then it
# writes a line for each crate, the dearest first: processor seconds of its proof, its tests' proofs and its edits (with the check
# that they begin with), how many such checks there were, and the sum; behind them the sum of all and the time by the clock. What ran
# for less than a second may be missing.
set -eu
exec python3 - <<'PY'
import os, signal, sys, time

TICK = os.sysconf("SC_CLK_TCK")
spent = {}
start = last = time.monotonic()

signal.signal(signal.SIGTERM, lambda *_: sys.exit())

def gate_runs(pids):
    for pid in pids:
        try:
            words = open(f"/proc/{pid}/cmdline").read().split("\0")
        except OSError:
            continue
        if any(it.endswith("/rt") for it in words[:2]) and "ci" in words:
            return True
    return False

def look(pid):
    words = open(f"/proc/{pid}/cmdline").read().split("\0")
    if not words[0].endswith("/rattle") or "--crate-name" not in words:
        return
    fields = open(f"/proc/{pid}/stat").read().rpartition(")")[2].split()
    # a prover that someone else started beside the gate doesn't count, nor one that a prover forked: its time is told with that one's
    if not gate_runs([fields[1]]):
        return
    crate = words[words.index("--crate-name") + 1]
    folder = os.readlink(f"/proc/{pid}/cwd")
    kind = "edits" if "/rt-edit" in folder else "tests" if "--test" in words else "proof"
    # user and system, its own and of the children that it has waited for
    used = sum(int(it) for it in fields[11:15]) / TICK
    spent[pid, fields[19]] = (crate, kind, used)

def whole(row):
    return row["proof"] + row["tests"] + row["edits"]

def tell():
    table = {}
    for crate, kind, used in spent.values():
        row = table.setdefault(crate, {"proof": 0.0, "tests": 0.0, "edits": 0.0, "tried": 0})
        row[kind] += used
        row["tried"] += kind == "edits"
    print("crate proof tests edits tried sum")
    for crate, row in sorted(table.items(), key=lambda it: -whole(it[1])):
        print(crate, *(f"{row[it]:.0f}" for it in ("proof", "tests", "edits")), row["tried"], f"{whole(row):.0f}")
    print(f"all: {sum(map(whole, table.values())):.0f} processor seconds, {last - start:.0f} by the clock")

try:
    while time.monotonic() - last < 5:
        pids = [it for it in os.listdir("/proc") if it.isdigit()]
        if gate_runs(pids):
            last = time.monotonic()
        for pid in pids:
            try:
                look(pid)
            except OSError:
                pass
        time.sleep(1)
finally:
    tell()
PY
