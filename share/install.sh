#!/usr/bin/env bash
# Puts the built program, its help, its man page and its completions under a prefix, or takes them away again.
#
#   share/install.sh install|uninstall PREFIX VERSION
#
# `mkbtt install` calls it once the program is built. What it puts where is told line by line.
set -eu
top="$(cd "$(dirname "$(readlink -f "${BASH_SOURCE[0]}")")/.." && pwd)"
what="$1"
prefix="$2"
version="${3:-}"

# Each file: where it comes from, where it goes below the prefix, and its mode.
files() {
    echo "$top/crates/mkbtt/out/mkbtt lib/mkbtt/mkbtt 755"
    echo "$top/docs/usage.txt lib/mkbtt/usage.txt 644"
    echo "$top/docs/mkbtt.1 share/man/man1/mkbtt.1 644"
    echo "$top/share/completions/mkbtt.bash share/bash-completion/completions/mkbtt 644"
    echo "$top/share/completions/_mkbtt share/zsh/site-functions/_mkbtt 644"
    echo "$top/share/completions/mkbtt.fish share/fish/vendor_completions.d/mkbtt.fish 644"
}

# The command: it answers requests for help and for the version, which the program refuses, and passes all else on.
command_text() {
    cat <<'COMMAND'
#!/bin/sh
lib="$(dirname "$(readlink -f "$0")")/../lib/mkbtt"
[ $# -gt 0 ] || [ ! -t 0 ] || exec cat "$lib/usage.txt"
for word in "$@"; do
    case "$word" in
        --) break ;;
        --help | -h) exec cat "$lib/usage.txt" ;;
        --version | -V) exec cat "$lib/version" ;;
    esac
done
exec "$lib/mkbtt" "$@"
COMMAND
}

install_all() {
    while read -r from to mode; do
        mkdir -p "$(dirname "$prefix/$to")"
        install -m "$mode" "$from" "$prefix/$to"
        echo "$prefix/$to"
    done < <(files)
    printf '%s\n' "$version" >"$prefix/lib/mkbtt/version"
    mkdir -p "$prefix/bin"
    rm -f "$prefix/bin/mkbtt"
    command_text >"$prefix/bin/mkbtt"
    chmod 755 "$prefix/bin/mkbtt"
    echo "$prefix/bin/mkbtt"
    case ":$PATH:" in
        *":$prefix/bin:"*) ;;
        *) echo "mkbtt: $prefix/bin isn't on the path" >&2 ;;
    esac
}

uninstall_all() {
    while read -r _ to _; do
        rm -f "$prefix/$to"
    done < <(files)
    rm -f "$prefix/lib/mkbtt/version" "$prefix/bin/mkbtt"
    if [ -d "$prefix/lib/mkbtt" ]; then
        rmdir "$prefix/lib/mkbtt"
    fi
}

case "$what" in
    install) install_all ;;
    uninstall) uninstall_all ;;
    *)
        echo "install.sh: install or uninstall" >&2
        exit 64
        ;;
esac
