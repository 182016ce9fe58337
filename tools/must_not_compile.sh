#!/usr/bin/env bash
# Applies an edit to a copy of the repository, and passes where the check of the crate then stops at the error that the edit names.
set -euo pipefail
cd "$(dirname "$0")/.."
edit=$1
crate=${edit%/must-not-compile/*}
field() { sed -n "s/^$1: //p" "$edit"; }
fail() { echo "must-not-compile: $edit: $1" >&2; exit 1; }
copy=$(mktemp -d)
trap 'rm -rf "$copy"' EXIT
cp -r crates.txt crates "$copy"
old=$(field old)
text=$(<"$crate/$(field file)")
[[ $text == *"$old"* ]] || fail 'the old text is not there'
printf '%s\n' "${text/"$old"/"$(field new)"}" > "$copy/$crate/$(field file)"
said=$(cd "$copy/$crate" && rt check 2>&1) && fail 'it compiles'
grep -qF "$(field error)" <<< "$said" || fail 'it is not refused as the edit says'
echo "must-not-compile: $edit: refused by the compiler, as it must be"
