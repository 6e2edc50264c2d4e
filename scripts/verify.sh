#!/usr/bin/env bash
# Judges a solution and a certificate of a board, and says value, bound and value/bound in one line.
# usage: verify.sh BOARD SOLUTION CERT    TDM is the program: tdm, found on the PATH, where it is not set
# The status is 0 only where `eval` finds the solution legal and `check` finds the certificate valid; 1 where one of
# them does not, and 2 where the words are wrong or there is no program.
set -u
if [ $# -ne 3 ]; then
    echo "usage: verify.sh BOARD SOLUTION CERT" >&2
    exit 2
fi
tdm=${TDM:-tdm}
if ! command -v "$tdm" >/dev/null; then
    echo "verify.sh: no program $tdm; put tdm on the PATH, or its path into TDM" >&2
    exit 2
fi

# judge VERB TEXT WORD: runs `tdm VERB BOARD TEXT`, and leaves the number behind WORD in `number`
judge() {
    local said code
    said=$("$tdm" "$1" "$board" "$2")
    code=$?
    number=${said#"$3 "}
    if [ $code -ne 0 ] || [ "$said" != "$3 $number" ]; then
        echo "tdm $1: status $code: ${said:-nothing was said}"
        return 1
    fi
}

board=$1
judge eval "$2" value || exit 1
value=$number
judge check "$3" bound || exit 1
bound=$number
if [ "$bound" -eq 0 ]; then
    echo "value $value bound $bound value/bound -"
else
    echo "value $value bound $bound value/bound $(awk -v v="$value" -v l="$bound" 'BEGIN { printf "%.4f", v / l }')"
fi
