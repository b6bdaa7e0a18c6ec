#!/bin/sh
# Tries the wrong bodies that stand beside the gate, in crates/NAME/planted/: of the crates that are named, or of all.
#
# Copies the work tree as it stands into a temporary folder, lays these edits into each crate's must-fail/ in place of
# those that the gate tries, and has `rt must-fail` try them. Prints for each crate how many were refused, and what rt
# says of every other one. Ends with 1 where one got through, can't be read or couldn't be tried. Run it before a change
# of such a crate is committed: it takes a proof of the crate where `rt check` left none, and half a minute for each edit.
set -eu

root=$(CDPATH= cd -- "$(dirname -- "$0")/.." && pwd)
folder=$(mktemp -d)
trap 'rm -rf -- "$folder"' EXIT

(cd -- "$root" && git ls-files -co --exclude-standard -z | tar --null --ignore-failed-read -cf - -T - 2>/dev/null) |
    tar -C "$folder" -xf -
cd -- "$folder"
git init -q .
[ $# -gt 0 ] || set -- $(ls -d crates/*/planted | cut -d/ -f2)
for name in "$@"; do
    [ -d "crates/$name/planted" ] || { echo "$name has no planted/" >&2 && exit 1; }
    rm -rf -- "crates/$name/must-fail"
    mv -- "crates/$name/planted" "crates/$name/must-fail"
done

rt must-fail "$@" >said 2>&1 || true
status=0
for name in "$@"; do
    count=$(ls "crates/$name/must-fail" | grep -c '\.edit$')
    refused=$(grep -c "^rt: must-fail $name/.*: refused, as it must be" said || true)
    echo "$name: $refused of $count refused"
    [ "$refused" -eq "$count" ] || status=1
done
grep '^rt: must-fail ' said | grep -v ': refused, as it must be' || true
[ "$status" -eq 0 ] || grep -v '^rt: must-fail ' said | tail -n 20
exit "$status"
