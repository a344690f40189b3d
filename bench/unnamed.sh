#!/usr/bin/env bash
# Lists lemmas and definitions of the crates that nothing else in crates/ names, each behind its file.
#
#   bench/unnamed.sh [CRATE]
#
# With the name of a crate it lists what that one declares. It counts words in all .antt, .rt and .edit files, without comments and
# imports, and lists what a line `name : ..` declares and at most two words are, as in its type and one clause, and each record and
# data type that one word is. It is a hint and no proof: more clauses, a recursion or another thing of the same name hide a dead one,
# and an example that shows a definition, as in files ..Rows.antt, is named nowhere and not dead. Files that the prover finds by their
# place, as Answers.antt, are left out. Delete what is dead, then check again: that is the proof.
set -eu
cd "$(dirname "${BASH_SOURCE[0]}")/../crates"
only="${1:-*}"

files() {
    find . -name out -prune -o -type f "$@" -print0
}

counts() {
    files \( -name '*.antt' -o -name '*.rt' -o -name '*.edit' \) | xargs -0 cat | grep -vE '^[[:space:]]*(ghost )?use ' |
        sed -E 's/(^|[[:space:]])(--|\/\/).*//' | tr -s '[:space:](){}[],;.:' '\n' | sort | uniq -c
}

# Each name with the most words that it may be, and its file.
declared() {
    files -path "./$only/*" \( -path '*/proofs/*' -o -path '*/specs/*' \) -name '*.antt' \
        ! -name Proof.antt ! -name Answers.antt ! -name Invariants.antt ! -name Measure.antt | xargs -0 awk '
        match($0, /^(  )?(abbrev )?(pub )?(record |data )[^][ (){},;.:]+/) { name = substr($0, 1, RLENGTH); sub(/.* /, "", name); print 1, name, FILENAME; next }
        match($0, /^(  )?(abbrev )?(pub )?[^][ (){},;.:]+ : /) { name = substr($0, 1, RLENGTH - 3); sub(/.* /, "", name); print 2, name, FILENAME }'
}

awk 'NR == FNR { count[$2] = $1; next } count[$2] <= $1 && $2 !~ /◌/ { print substr($3, 3), $2 }' <(counts) <(declared) | sort -u
