#!/usr/bin/env bash
# Puts the program at PREFIX/bin/tdm and its page at PREFIX/share/man/man1/tdm.1.
# usage: ./install.sh [PREFIX]    PREFIX is $HOME/.local if it is left out
# The program is the one that `rt ci` or an earlier ./install.sh left in this checkout, where no source is newer;
# else it is proved and built first.
set -euo pipefail
if [ $# -gt 1 ] || [[ "${1:-}" == -* ]]; then
    echo "usage: ./install.sh [PREFIX]" >&2
    exit 2
fi
prefix=$(realpath -m "${1:-$HOME/.local}")
cd "$(dirname "$0")"
program=crates/tdm_cli/out/tdm_cli

# whether the program is there, and no source, in a folder of a crate or at the top, is newer
is_current() {
    [ -x $program ] && [ ! crates.txt -nt $program ] \
        && [ -z "$(find crates/*/* -name out -prune -o -newer $program -print | head -n 1)" ]
}

if is_current; then
    echo "taking the program that stands in this checkout, which was built from a proof of these sources"
else
    if ! command -v rt >/dev/null; then
        echo "install.sh: no command rt: put the bin folder of the Rattle kit on the PATH (README.md, \"Install\")" >&2
        exit 1
    fi
    echo "proving and building the program with $(rt version): from nothing this takes a quarter of an hour and more,"
    echo "and later only what has changed is proved"
    rm -f $program
    # a run with no words builds the program, which then ends with the status 2, for words that are no command
    (cd crates/tdm_cli && rt run >/dev/null) || [ $? -eq 2 ]
    if [ ! -x $program ]; then
        echo "install.sh: nothing was built; rt run in crates/tdm_cli says why" >&2
        exit 1
    fi
fi
install -D $program "$prefix/bin/tdm"
install -D -m 644 tdm.1 "$prefix/share/man/man1/tdm.1"
echo "installed $prefix/bin/tdm and its page, man tdm"
case ":$PATH:" in
    *":$prefix/bin:"*) ;;
    *) echo "$prefix/bin is not on the PATH yet: export PATH=\"$prefix/bin:\$PATH\"" ;;
esac
