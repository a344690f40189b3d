#!/usr/bin/env bash
# Compares the program with another engine that writes the same answers and journals, on random problems, by both selections.
#
#   bench/random.sh ENGINE SIZE SECONDS [SEED] [COUNT]
#
# ENGINE is a command with its words, as 'fast --kbo 1'; SIZE are the words by which it selects as `--select size` does. Each problem
# is completed, and its journal written, by both and by both selections, with a budget of 20 to 200; texts and statuses must be the
# same, but for the journal's line `SELECTION size`, which the other engine need not write. It goes on for SECONDS, or until COUNT problems (10,000) were compared. A problem on which they differ is written to standard
# output with the words; so is one that either needs more than 20 seconds for. The last line says how many problems and runs were
# compared and how many differed; the status is 1 where any did.
set -eu
top="$(cd "$(dirname "${BASH_SOURCE[0]}")/.." && pwd)"
random_program="$top/crates/mkbtt/out/mkbtt"
export random_program
exec python3 - "$@" <<'PY'
import os, random, subprocess, sys, time

engine, size, seconds = sys.argv[1].split(), sys.argv[2].split(), float(sys.argv[3])
seed = int(sys.argv[4]) if len(sys.argv) > 4 else 1
count = int(sys.argv[5]) if len(sys.argv) > 5 else 10_000
program = [os.environ["random_program"]]
TOO_LONG = None

def term(random, symbols, variables, depth):
    """Returns a random term: a variable, a constant, or a symbol over terms that are less deep."""
    leaves = variables + [name for name, arity in symbols if arity == 0]
    heads = [it for it in symbols if it[1]]
    if not depth or not heads or random.random() < 0.2:
        return random.choice(leaves)
    name, arity = random.choice(heads)
    return f"{name}({','.join(term(random, symbols, variables, depth - 1) for _ in range(arity))})"

def problem(random):
    """Returns a random problem: words, ground terms, or terms of one to four symbols of at most three arguments."""
    kind = random.choice(["words", "ground", "terms", "terms", "terms"])
    variables = [] if kind == "ground" else ["x"] if kind == "words" else ["x", "y", "z"][: random.randint(1, 3)]
    most = 1 if kind == "words" else 3
    symbols = [(name, random.randint(1 if kind == "words" else 0, most)) for name in "fghk"[: random.randint(1, 4)]]
    symbols += [] if kind == "words" else [("a", 0), ("b", 0)][: random.randint(1, 2)]
    depth = random.randint(2, 5) if kind == "words" else random.randint(1, 3)
    sides = [(term(random, symbols, variables, depth), term(random, symbols, variables, depth)) for _ in range(random.randint(1, 5))]
    declared = f"(VAR {' '.join(variables)})" if variables else ""
    return f"{declared}(RULES {' '.join(f'{left} == {right}' for left, right in sides)})\n"

def run(words, text):
    try:
        ran = subprocess.run(words, input=text.encode(), stdout=subprocess.PIPE, stderr=subprocess.DEVNULL, timeout=20)
    except subprocess.TimeoutExpired:
        return TOO_LONG
    return ran.returncode, ran.stdout.replace(b"SELECTION size\n", b"", 1)

end = time.monotonic() + seconds
problems = runs = differ = slow = 0
while problems < count and time.monotonic() < end:
    # (each problem by its number alone, so that it can be had again)
    of_this = random.Random(f"{seed} {problems}")
    text, budget = problem(of_this), str(of_this.choice([20, 60, 200]))
    problems += 1
    for mode in ("complete", "journal"):
        for select, theirs in (("stated", []), ("size", size)):
            words = [mode, "--budget", budget]
            ours = run([*program, *words, "--workers", "1", "--select", select], text)
            other = run([engine[0], *words, *engine[1:], *theirs], text)
            runs += 1
            if ours is TOO_LONG or other is TOO_LONG:
                slow += 1
                print("more than 20 seconds:", *words, select, text, end="")
            elif ours != other:
                differ += 1
                print("differs:", *words, select, text, end="")
print(f"{problems} problems, {runs} runs by each, {differ} differ, {slow} took too long")
sys.exit(differ > 0)
PY
