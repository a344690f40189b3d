#!/usr/bin/env bash
# Completes each example by one worker and compares what is written with the text beside it: expected/NAME.txt by the stated
# selection, expected/by_size/NAME.txt by size. Each answer is also sent to the checker, and where there are goals, NAME.goals,
# its decisions are compared with expected/decided/NAME.txt. Every example is completed by rounds, with at most 3,000 commits, by 1, 2,
# 4 and 16 workers and both selections, and what they write is compared. Where Graphviz's `dot` is there, it draws each answer's trace.
# Examples that take long have no such text and are left out. With the word `write` it writes the texts of completions.
set -u
here="$(dirname "$(readlink -f "${BASH_SOURCE[0]}")")"
mkbtt="${MKBTT:-$here/../mkbtt}"
write="${1:-}"
failed=0

wrong() {
    echo "$1" >&2
    failed=1
}

# Whether the example is completed by the selection as the text says.
example() {
    local selection="$1" expected="$2" name written status
    name="$(basename "$expected" .txt)"
    if [ "$write" = write ]; then
        "$mkbtt" complete --workers 1 --select "$selection" <"$here/$name.trs" >"$expected"
        return
    fi
    written="$("$mkbtt" complete --workers 1 --select "$selection" <"$here/$name.trs"; echo "$?")"
    status="${written##*$'\n'}"
    if [ "$written" != "$(cat "$expected" && echo "$status")" ]; then
        wrong "$name: another text is written"
    elif [ "$status" = 0 ] && [ "$("$mkbtt" check <"$expected")" != ACCEPTED ]; then
        wrong "$name: the answer is not accepted"
    fi
}

# What so many workers write on the example by rounds, with the status.
by_rounds() {
    "$mkbtt" rounds --workers "$3" --budget 3000 --select "$2" <"$1"
    echo "$?"
}

# Whether by rounds every number of workers writes the same.
rounds() {
    local problem="$1" selection="$2" alone workers
    alone="$(by_rounds "$problem" "$selection" 1)"
    for workers in 2 4 16; do
        [ "$(by_rounds "$problem" "$selection" "$workers")" = "$alone" ] || wrong "$(basename "$problem" .trs): $workers workers write another text by rounds"
    done
}

for expected in "$here"/expected/*.txt; do
    example stated "$expected"
done
for expected in "$here"/expected/by_size/*.txt; do
    example size "$expected"
done
for problem in "$here"/*.trs; do
    rounds "$problem" stated
    rounds "$problem" size
done
for goals in "$here"/*.goals; do
    name="$(basename "$goals" .goals)"
    decided="$(cat "$here/expected/by_size/$name.txt" "$goals" | "$mkbtt" decide)"
    [ "$decided" = "$(cat "$here/expected/decided/$name.txt")" ] || wrong "$name: other decisions"
done
if command -v dot >/dev/null; then
    for expected in "$here"/expected/*.txt; do
        grep -q '^RULES' "$expected" || continue
        "$mkbtt" convert --to dot <"$expected" | dot -Tsvg >/dev/null || wrong "$(basename "$expected" .txt): no graph"
    done
fi
exit "$failed"
