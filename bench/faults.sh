#!/usr/bin/env bash
# Runs the built program where things go wrong, and tells each answer that isn't one of those that the README's table of statuses allows:
# an abort, a hang, half a line, a text that isn't the right one.
#
#   bench/faults.sh [PROGRAM]
#
# - standard output closed, a full device, a reader that goes away; standard input closed, or a directory;
# - each allocation refused in turn over whole runs (where there is a C compiler, by a small library that is loaded before malloc);
# - a limit on the address space, from far too little to enough;
# - hostile texts of a problem, of an answer and of a journal, whose time must grow with their bytes alone;
# - a run that is killed: no file is left behind.
# It ends by itself, within ten minutes. The status is 1 where something was told.
set -u
top="$(cd "$(dirname "$(readlink -f "${BASH_SOURCE[0]}")")/.." && pwd)"
program="$(readlink -f "${1:-$top/crates/mkbtt/out/mkbtt}")"
work="$(mktemp -d)"
trap 'rm -rf "$work"' EXIT
cd "$work" || exit 70
failed=0 tried=0
readonly LONGEST=60

wrong() {
    echo "faults: $*" >&2
    failed=1
}

# Whether the status is one of these; a signal or the limit of time never is.
status_is() {
    local what="$1" status="$2"
    shift 2
    tried=$((tried + 1))
    case " $* " in
        *" $status "*) ;;
        *) wrong "$what ends with status $status, not with one of: $*" ;;
    esac
}

# Standard error is empty or whole lines that begin with the program's name.
lines_are_whole() {
    [ ! -s "$2" ] || { [ "$(tail -c 1 "$2")" = "" ] && ! grep -qv '^mkbtt: ' "$2"; } || wrong "$1 leaves half a line on standard error"
}

problem='(VAR x)(RULES f(f(x)) == a)'
forked='(RULES f(a) == b f(a) == c)'
deep="(VAR x)(RULES $(printf 'f(%.0s' $(seq 40))x$(printf ')%.0s' $(seq 40)) == a)"
complete() { timeout "$LONGEST" "$program" complete --workers 1 "$@"; }

# ---- streams

echo "$problem" | complete >&- 2>err
status_is "a closed standard output" $? 5
lines_are_whole "a closed standard output" err
if [ -e /dev/full ]; then
    echo "$problem" | complete >/dev/full 2>err
    status_is "a full device" $? 5
    lines_are_whole "a full device" err
fi
mkfifo pipe
(echo "$problem" | complete >pipe 2>err; echo $? >status) &
head -c 10 pipe >/dev/null
wait
status_is "a reader that goes away" "$(cat status)" 0 5
complete <&- >out 2>err
status_is "a closed standard input" $? 4
[ ! -s out ] || wrong "a closed standard input gives a text"
complete </ >out 2>err
status_is "a directory as standard input" $? 4
lines_are_whole "a directory as standard input" err
[ ! -s out ] || wrong "a directory as standard input gives a text"

# ---- memory

# One run with too little of something: status 6 and nothing, or the status and the text that it has with enough.
is_short_or_right() {
    local what="$1" status="$2" right="$3" text="$4"
    status_is "$what" "$status" 6 "$right"
    if [ "$status" = 6 ]; then
        [ ! -s out ] || wrong "$what has no memory and writes a text"
    else
        cmp -s out "$text" || wrong "$what writes another text"
    fi
    lines_are_whole "$what" err
}

cat >refuse.c <<'C'
#define _GNU_SOURCE
#include <dlfcn.h>
#include <errno.h>
#include <stdlib.h>
/* Refuses the allocation whose number, from 1, the environment names. */
static long long at = -1, seen;
static int refused(void) {
    if (at < 0) { char *n = getenv("REFUSE"); at = n ? atoll(n) : 0; }
    if (++seen != at) return 0;
    errno = ENOMEM;
    return 1;
}
void *malloc(size_t n) { static void *(*next)(size_t); if (!next) next = dlsym(RTLD_NEXT, "malloc"); return refused() ? 0 : next(n); }
void *realloc(void *p, size_t n) { static void *(*next)(void *, size_t); if (!next) next = dlsym(RTLD_NEXT, "realloc"); return refused() ? 0 : next(p, n); }
void *aligned_alloc(size_t a, size_t n) { static void *(*next)(size_t, size_t); if (!next) next = dlsym(RTLD_NEXT, "aligned_alloc"); return refused() ? 0 : next(a, n); }
int posix_memalign(void **p, size_t a, size_t n) { static int (*next)(void **, size_t, size_t); if (!next) next = dlsym(RTLD_NEXT, "posix_memalign"); return refused() ? ENOMEM : next(p, a, n); }
C

# Every allocation of the run refused in turn, until one passes that is never made. The limit keeps the script's time.
refuse_each() {
    local what="$1" input="$2" right n last=0
    shift 2
    timeout "$LONGEST" "$program" "$@" <"$input" >text 2>/dev/null
    right=$?
    for n in $(seq 1 4000); do
        REFUSE="$n" LD_PRELOAD="$work/refuse.so" timeout "$LONGEST" "$program" "$@" <"$input" >out 2>err
        local status=$?
        is_short_or_right "$what with allocation $n refused" "$status" "$right" text
        # a hundred runs in a row that need no more allocations end it
        if [ "$status" = "$right" ]; then last=$((last + 1)); else last=0; fi
        [ "$last" -lt 100 ] || break
    done
    echo "faults: $what: $n allocations refused one by one"
}

echo "$problem" >problem
echo "$forked" >forked
echo "$deep" >deep
printf '(VAR x)(RULES f(x) == x)' >one
complete <problem >answer
timeout "$LONGEST" "$program" journal --workers 1 <problem >journal 2>err
status_is "a journal" $? 0
{ cat answer; printf 'GOALS 2\nf(f(f(x1))) = a\nf(x1) = a\nEND\n'; } >goals
{ cat answer; printf 'TERMS 2\nf(f(f(x1)))\nf(x1)\nEND\n'; } >terms
if command -v cc >/dev/null && cc -shared -fPIC -o refuse.so refuse.c -ldl 2>/dev/null; then
    refuse_each "one equation" one complete --workers 1
    refuse_each "an equation that overlaps itself" problem complete --workers 1
    refuse_each "a run with forks" forked complete --workers 1
    refuse_each "a run that passes a limit" deep complete --workers 1
    refuse_each "a completion by size" forked complete --workers 1 --select size
    refuse_each "a journal" problem journal --workers 1
    refuse_each "a replay" journal replay
    refuse_each "a check" answer check
    refuse_each "an answer's rules" answer convert --to trs
    refuse_each "an answer's trace" answer convert --to dot
    refuse_each "a reduction" answer reduce
    refuse_each "decisions" goals decide
    refuse_each "terms" terms simplify
    refuse_each "a run by two workers" one complete --workers 2
else
    echo "faults: no C compiler, so no allocation was refused one by one"
fi

timeout "$LONGEST" "$program" complete --workers 1 <forked >text 2>/dev/null
for kib in 1000 2000 4000 6000 8000 12000 16000 24000 32000 64000 128000 512000; do
    (ulimit -v "$kib" && exec timeout "$LONGEST" "$program" complete --workers 1 <forked >out 2>err)
    status=$?
    # with too little even the loader gives up, which is no answer of the program
    [ "$status" = 127 ] || [ "$status" -gt 127 ] && [ "$kib" -le 8000 ] || is_short_or_right "an address space of $kib KiB" "$status" 0 text
done

# ---- hostile texts

# The mode refuses the text with its place; four times the bytes may take six times the time, and a fifth of a second more.
refuses_in_linear_time() {
    local what="$1" mode="$2" small="$3" large="$4" times=() file
    for file in "$small" "$large"; do
        local begun ended status
        begun="$(date +%s%N)"
        timeout "$LONGEST" "$program" "$mode" <"$file" >out 2>err
        status=$?
        ended="$(date +%s%N)"
        times+=($(((ended - begun) / 1000000)))
        status_is "$what" "$status" 3
        [ ! -s out ] || wrong "$what is refused and gives a text"
        grep -q '^mkbtt: refused ' err || wrong "$what is refused without a place"
    done
    [ "${times[1]}" -le $((6 * times[0] + 200)) ] || wrong "$what takes ${times[0]} ms, and ${times[1]} ms with four times the bytes"
    echo "faults: $what: $(wc -c <"$large") bytes in ${times[1]} ms"
}

repeated() { yes "$1" | tr -d '\n' | head -c "$2"; }

for text in '(' 'f(' 'f(f(f(' ',' 'a' '"' 'a == ' '(RULES ' 'x y '; do
    repeated "$text" 262000 >small
    repeated "$text" 1048000 >large
    refuses_in_linear_time "a problem of '$text' again and again" complete small large
done
head -c 262000 /dev/zero >small
head -c 1048000 /dev/zero >large
refuses_in_linear_time "a problem of zero bytes" complete small large
tr '\0' '\377' <small >small2 && tr '\0' '\377' <large >large2
refuses_in_linear_time "a problem that isn't UTF-8" complete small2 large2

for text in '9' 'a' 'RULES 9'; do
    repeated "$text" 16000000 >small
    repeated "$text" 64000000 >large
    refuses_in_linear_time "an answer of one line of '$text'" check small large
done
for text in '9' 'a' 'take 1 '; do
    repeated "$text" 16000000 >small
    repeated "$text" 64000000 >large
    refuses_in_linear_time "a journal of one line of '$text'" replay small large
done
yes '' | head -c 16000000 >small
yes '' | head -c 64000000 >large
refuses_in_linear_time "an answer of empty lines" check small large
refuses_in_linear_time "a journal of empty lines" replay small large
yes 'f(x1) -> x1 : 1' | head -c 16000000 | cat <(printf 'MKBTT 1\nSYMBOLS f/1\nEQUATIONS 0\nRULES 4096\n') - >small
yes 'f(x1) -> x1 : 1' | head -c 64000000 | cat <(printf 'MKBTT 1\nSYMBOLS f/1\nEQUATIONS 0\nRULES 4096\n') - >large
refuses_in_linear_time "an answer of rules without an end" check small large

{ cat answer; printf 'GOALS 9\n'; repeated 'f(' 16000000; } >small
{ cat answer; printf 'GOALS 9\n'; repeated 'f(' 64000000; } >large
refuses_in_linear_time "a goal of one line of 'f('" decide small large

# ---- a kill

mkdir quiet
(cd quiet && complete --budget 100000 <"$top/examples/group.trs" >/dev/null 2>&1) &
sleep 1
pkill -KILL -f "$program complete --workers 1 --budget 100000" 2>/dev/null
wait
[ -z "$(ls -A quiet)" ] || wrong "a run that is killed leaves files"

echo "faults: $tried runs"
exit "$failed"
