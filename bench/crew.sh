#!/usr/bin/env bash
# Has the program complete a dozen problems many times over by 16 workers, and has it check each answer.
#
#   bench/crew.sh [TIMES] [WORKERS] [BUDGET] [SECONDS]
#
# TIMES is 100, WORKERS 16, BUDGET 100 and SECONDS 60 where they aren't given. A run that takes longer than SECONDS, one with a
# status above 2, and an answer that the check doesn't accept count as wrong; the status is 1 where any run is wrong.
set -u
top="$(cd "$(dirname "${BASH_SOURCE[0]}")/.." && pwd)"
program="$top/crates/mkbtt/out/mkbtt"
times="${1:-100}"
workers="${2:-16}"
budget="${3:-100}"
seconds="${4:-60}"
work="$(mktemp -d)"
trap 'rm -rf "$work"' EXIT

problems=(
    '(RULES )'
    '(RULES a == b)'
    '(RULES f(a) == b f(a) == c)'
    '(VAR x)(RULES f(x) == x)'
    '(VAR x)(RULES f(f(x)) == a)'
    '(VAR x)(RULES f(f(x)) == g(x))'
    '(VAR x)(RULES f(x) == x g(x) == f(x))'
    '(VAR x y)(RULES f(x,y) == f(y,x))'
    '(VAR x)(RULES f(g(x)) == h(x) g(h(x)) == f(x))'
    '(VAR x y z)(RULES m(m(x,y),z) == m(x,m(y,z)) m(e,x) == x)'
    '(VAR x y z)(RULES m(e,x) == x m(i(x),x) == e m(m(x,y),z) == m(x,m(y,z)))'
    '(VAR x)(RULES f(f(f(x))) == x f(f(f(f(f(x))))) == x)'
)

wrong=0 answers=0 failed=0 spent=0
for ((round = 1; round <= times; round++)); do
    for problem in "${problems[@]}"; do
        timeout "$seconds" "$program" complete --workers "$workers" --budget "$budget" <<<"$problem" >"$work/text" 2>"$work/line"
        case $? in
        0)
            if "$program" check <"$work/text" >"$work/checked" 2>/dev/null && grep -qx ACCEPTED "$work/checked"; then
                answers=$((answers + 1))
            else
                echo "round $round: the check doesn't accept what was written on $problem"
                wrong=$((wrong + 1))
            fi
            ;;
        1) failed=$((failed + 1)) ;;
        2) spent=$((spent + 1)) ;;
        *)
            echo "round $round: $(cat "$work/line") on $problem"
            wrong=$((wrong + 1))
            ;;
        esac
    done
done
echo "$answers answers accepted, $failed failed, $spent spent, $wrong wrong"
[ "$wrong" -eq 0 ]
