#!/usr/bin/env bash
# Shows that docs/usage.txt names every mode and option that the crate mkbtt_words reads, with ranges, names and defaults, that the
# script at the top prints it, and that the man page and the completions of the shells agree with it. With the word `run` it also runs
# the page's examples, which must end with status 0.
set -eu
top="$(cd "$(dirname "${BASH_SOURCE[0]}")/.." && pwd)"
page="$top/docs/usage.txt"
words="$top/crates/mkbtt_words/src"
manual="$top/docs/mkbtt.1"
shells=("$top/share/completions/mkbtt.bash" "$top/share/completions/_mkbtt" "$top/share/completions/mkbtt.fish")
failed=0

lacks() {
    echo "docs/usage.txt lacks $1" >&2
    failed=1
}

# Whether the man page and each completion has what the page of help has.
agree_on() {
    local what="$1" item="$2" text="$3" file
    grep -A 1 -E "^\.It (Cm|Fl) -?$item( |\$)" "$manual" | tail -n 1 | grep -Fq -- "$text" || lacks "agreement of the man page on $what $item"
    for file in "${shells[@]}"; do
        grep -Eq -- "(^|[^a-z])$item([^a-z]|\$)" "$file" || lacks "agreement of ${file##*/} on $what $item"
    done
}

# Whether the pages have the option that takes one of some names: those of the enum in its file, in their order.
agree_on_names() {
    local option="$1" enum="$2" standard names listed name file
    names="$(grep -o "(\"[a-z]*\", $enum::" "$words/${enum,}.rt" | cut -d '"' -f 2 | tr '\n' ' ')"
    standard="$(sed -n "s/.*name_option(alloc, \"$option\", \"\([a-z]*\)\").*/\1/p" "$words/command.rt")"
    [ -n "$names" ] && [ -n "$standard" ] || lacks "a source of the option $option to be compared with"
    listed="$(sed 's/ \([a-z]*\) $/ or \1/; s/\([a-z]\) \([a-z]* or\)/\1, \2/' <<<"$names")"
    grep -Eq "^  --$option .*, $listed +default $standard\$" "$page" || lacks "the option $option, $listed, default $standard"
    agree_on "the option" "$option" ", $listed; $standard where it isn't given"
    for name in $names; do
        for file in "${shells[@]}"; do
            grep -Eq -- "(^|[^a-z])$name([^a-z]|\$)" "$file" || lacks "$name of the option $option in ${file##*/}"
        done
    done
}

modes="$(sed -n 's/^    ("\([a-z]*\)", Mode::.*/\1/p' "$words/mode.rt")"
options="$(sed -n 's/.*number_option(alloc, "\([a-z]*\)", [a-z]*, "\([0-9]*\)").*/\1 \2/p' "$words/command.rt")"
[ -n "$modes" ] && [ -n "$options" ] || lacks "a source to be compared with"
for mode in $modes; do
    grep -Eq "^  $mode +[a-z]" "$page" || lacks "the mode $mode"
    agree_on "the mode" "$mode" "$(sed -n "s/^  $mode  *\([a-z].*\)/\1/p" "$page")"
done
while read -r option standard; do
    # the range stands in the line before
    range="$(grep -B 1 -F "number_option(alloc, \"$option\"," "$words/command.rt" | sed -n 's/.*range(\([0-9_]*\)\.\.=\([0-9_]*\)).*/\1 to \2/p' | tr -d _)"
    grep -Eq "^  --$option .*, $range +default $standard\$" "$page" || lacks "the option $option, $range, default $standard"
    agree_on "the option" "$option" ", $range; $standard where it isn't given"
done <<<"$options"
agree_on_names to Format
agree_on_names select Selection

# The words without a value, which say what is shown.
shown="$(grep -o 'word == "--[a-z]*"' "$top/crates/mkbtt_shown/src/manner.rt" | grep -o -- '--[a-z]*' | tr -d -)"
[ -n "$shown" ] || lacks "a source of the words that say what is shown"
for word in $shown; do
    grep -Eq "^  --$word +[a-z]" "$page" || lacks "the option $word"
    agree_on "the option" "$word" "$(sed -n "s/^  --$word  *\(shows [a-z]* [a-z]*\).*/\1/p" "$page")"
done

while read -r status cause; do
    grep -A 1 -x ".It $status" "$manual" | grep -Fqx "$cause" || lacks "agreement of the man page on status $status"
done < <(sed -n '/^Exit statuses/,/^$/s/^  \([0-9]\)  /\1 /p' "$page")

for word in --help -h; do
    [ "$("$top/mkbtt" "$word")" = "$(cat "$page")" ] || lacks "being printed at $word"
done
[ "$("$top/mkbtt" complete --help)" = "$(cat "$page")" ] || lacks "being printed at complete --help"

if [ "${1:-}" = run ]; then
    cd "$top"
    while read -r example; do
        bash -c "set -o pipefail; $example" >/dev/null || lacks "an example that runs: $example"
    done < <(sed -n '/^Examples/,$p' "$page" | sed -n 's/^  //p')
fi
exit "$failed"
