#!/usr/bin/env bash
# Plants each bug under compare/planted/CRATE/*.edit, one at a time, in a copy of the repository, and reports
# which the prover refuses. Usage: compare/planted.sh [CRATE...]; all crates with planted bugs by default.
set -euo pipefail
top=$(cd "$(dirname "$0")/.." && pwd)
work=$(mktemp -d)
trap 'rm -rf "$work"' EXIT
cp "$top/crates.txt" "$work/"
cp -r "$top/crates" "$work/crates"
[ $# -gt 0 ] || set -- $(ls "$top/compare/planted")
rm -rf "$work"/crates/*/must-fail
for crate in "$@"; do
    cp -r "$top/compare/planted/$crate" "$work/crates/$crate/must-fail"
done
cd "$work"
rt must-fail "$@"
