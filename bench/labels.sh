#!/bin/sh
# Times calls on labels of 1,024 living processes, in both forms: labels.sh PROGRAM, with the built crates/label_bench.
# Each line is the form, the call, how often it ran, and the processor time of that run less that of none.
set -eu
program=$1

seconds() {
    python3 -c 'import resource, subprocess, sys
subprocess.run(sys.argv[1:], stdout=subprocess.DEVNULL, check=True)
print(resource.getrusage(resource.RUSAGE_CHILDREN).ru_utime)' "$@"
}

for case in "list log 10" "list has 1000" "list join 10000" "list minus 10000" \
    "fork log 10" "fork has 1000" "fork join 1000000" "fork minus 1000000"; do
    set -- $case
    none=$(seconds "$program" "$1" "$2" 0)
    all=$(seconds "$program" "$1" "$2" "$3")
    printf '%s %s %s %s\n' "$1" "$2" "$3" "$(python3 -c "print(round($all - $none, 4))")"
done
