#!/bin/sh
# Runs a program on the panels of a file and compares what it prints, byte for byte. The last line counts them.
# usage: tests/panels.sh PROGRAM PANELS
program=$1
panels=$2
work=$(mktemp -d) || exit 2
trap 'rm -rf "$work"' EXIT
passed=0

fail() {
    echo "panels: FAILED: $name: $1"
    exit 1
}

# Writes a record file from its description.
record() {
    file=$work/panel/$1.rec
    shift
    case "$1" in
    absent) return ;;
    empty) : >"$file"; return ;;
    zeros) head -c "$2" /dev/zero >"$file"; shift 2 ;;
    *) : >"$file" ;;
    esac
    # shellcheck disable=SC2059
    printf "$(echo "$*" | tr -d ' ' | fold -w 2 | awk '{
        h = index("0123456789abcdef", substr($1, 1, 1)) - 1; l = index("0123456789abcdef", substr($1, 2, 1)) - 1
        printf "\\%03o", 16 * h + l }')" >>"$file"
}

run() {
    (cd "$work/panel" && "$program") >"$work/got" || fail "status $?"
    cmp -s "$work/want" "$work/got" || { diff "$work/want" "$work/got"; fail "other lines"; }
    passed=$((passed + 1))
}

name=
while read -r word rest; do
    case "$word" in
    panel)
        [ -z "$name" ] || run
        name=$rest
        rm -rf "$work/panel"; mkdir "$work/panel"; : >"$work/want" ;;
    archive | field | bench) record "$word" $rest ;;
    '>') printf '%s\n' "$rest" >>"$work/want" ;;
    esac
done <"$panels"
[ -n "$name" ] || { echo 'panels: none found'; exit 1; }
run

# A file that is there and cannot be read is no empty file: status 1, and nothing on the output.
name='a folder for a file'
rm -rf "$work/panel"; mkdir -p "$work/panel/archive.rec"
(cd "$work/panel" && "$program") >"$work/got" 2>"$work/message" && fail 'status 0'
[ -s "$work/got" ] && fail 'something was printed'
[ -s "$work/message" ] || fail 'no message'
passed=$((passed + 1))
echo "$passed passed, 0 failed"
