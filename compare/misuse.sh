#!/usr/bin/env bash
# Tries the three misuses of a master that its types rule out: a search while a meter is picked, a second pick while a
# meter is picked, a fetch while idle. The compiler must refuse each before the prover sees it; a use that is in order must
# pass. Usage: compare/misuse.sh, after rt check in crates/master (whose results it takes over).
set -euo pipefail
top=$(cd "$(dirname "$0")/.." && pwd)
work=$(mktemp -d)
trap 'rm -rf "$work"' EXIT
cp "$top/crates.txt" "$work/"
cp -r "$top/crates" "$work/crates"
echo 'misuse: link telegram list line search master' >> "$work/crates.txt"
mkdir -p "$work/crates/misuse/src"
cd "$work"

# try NAME EXPECTED BODY: checks a function with this body over an idle master.
try() {
    cat > crates/misuse/src/lib.rt <<RT
#![tactic(auto)]

use line::line::Line;
use link::buffer::new_buffer;
use list::fixed_list::FixedList;
use master::master::Idle;
use search::entry::Entry;
use search::entry::Number;
use telegram::address::Address;

pub fn used<L: Line + Drop>(idle: Idle<L>, address: Address) {
    let mut idle = idle;
    let mut places = [Entry::Shared(Number { digits: [0; 8] })];
    let mut list = FixedList::new(&mut places);
    let mut buffer = new_buffer();
    $3
}
RT
    if (cd crates/misuse && rt check) > log 2>&1; then found=accepted; else found=refused; fi
    reason=$(grep -m1 -o 'error\[[A-Za-z0-9-]*\][^:]*: .*' log | cut -c1-160 || true)
    echo "$1: $found${reason:+ ($reason)}"
    [ "$found" = "$2" ]
}

try 'search, pick, fetch, release' accepted \
    'let _ = idle.search(&mut list); let mut picked = idle.pick(address); let _ = picked.fetch(&mut buffer); let _idle = picked.release();'
try 'search while picked' refused 'let mut picked = idle.pick(address); let _ = picked.search(&mut list);'
try 'search by the master that was picked' refused 'let _picked = idle.pick(address); let _ = idle.search(&mut list);'
try 'second pick' refused 'let picked = idle.pick(address); let _twice = picked.pick(address);'
try 'second pick by the master that was picked' refused 'let _picked = idle.pick(address); let _twice = idle.pick(address);'
try 'fetch while idle' refused 'let _ = idle.fetch(&mut buffer);'
