#!/bin/sh
# Misuse that does not build: each edit of tests/misuse is applied to the crate `history` in a copy of the repository, and the compiler must refuse
# it for the use of a value that was moved. The last line counts the edits.
cd "$(dirname "$0")/.." || exit 2
refused=0
work=$(mktemp -d) || exit 2
trap 'rm -rf "$work"' EXIT
tar -cf - --exclude=out crates.txt crates | tar -xf - -C "$work" || exit 2
source=$work/crates/history/src/lib.rt

check() {
    (cd "$work/crates/history" && rt check) >"$work/log" 2>&1
}

check || { cat "$work/log"; echo 'misuse: the crate is refused as it stands'; exit 1; }
for edit in tests/misuse/*.edit; do
    [ -f "$edit" ] || break
    OLD=$(sed -n 's/^old: //p' "$edit") NEW=$(sed -n 's/^new: //p' "$edit") awk '{
        at = index($0, ENVIRON["OLD"])
        if (at) { n++; $0 = substr($0, 1, at - 1) ENVIRON["NEW"] substr($0, at + length(ENVIRON["OLD"])) }
        print
    } END { exit n != 1 }' crates/history/src/lib.rt >"$source" || { echo "misuse: FAILED: $edit does not fit the code"; exit 1; }
    check && { echo "misuse: FAILED: not refused: $edit"; exit 1; }
    grep -q 'error\[borrow-e0382\]' "$work/log" || { head -5 "$work/log"; echo "misuse: FAILED: refused for another reason: $edit"; exit 1; }
    refused=$((refused + 1))
done
[ "$refused" -gt 0 ] || { echo 'misuse: none found'; exit 1; }
echo "$refused passed, 0 failed"
