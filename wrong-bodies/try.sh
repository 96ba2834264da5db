#!/usr/bin/env bash
# Tries the wrong bodies that stand here, in the same way as the gate tries those in crates/NAME/must-fail: the prover must refuse
# each. The gate has the most telling five to ten of a crate; these are further ones, kept out of it for its time. Beside a tree
# that was built the run takes a quarter of an hour for all.
#
#     bash wrong-bodies/try.sh [CRATE ..]
set -e
cd "$(dirname "$0")/.."
[ $# -gt 0 ] || set -- $(cd wrong-bodies && ls -d mb_*)
room=$(mktemp -d)
trap 'rm -rf "$room"' EXIT
cp -r crates crates.txt HANDLES "$room"
for crate in "$@"; do
  mkdir -p "$room/crates/$crate/must-fail"
  rm -f "$room/crates/$crate/must-fail/"*.edit
  cp "wrong-bodies/$crate/"*.edit "$room/crates/$crate/must-fail/"
done
cd "$room"
rt must-fail "$@"
