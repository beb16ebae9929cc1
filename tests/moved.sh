#!/usr/bin/env bash
# Shows that a closed draft and a finished machine cannot be used again: each such use is a compile error.
# The crates are joined into one, each as a module, so that the compiler sees them without the proofs of those below.
set -euo pipefail
cd "$(dirname "$0")/.."
crates="faults tables rules model machine"
work=$(mktemp -d)
trap 'rm -rf "$work"' EXIT

# Writes the crates as one to a folder of crates, with a function that has this body.
join() { # FOLDER BODY
    mkdir -p "$1/src"
    echo "$(basename "$1"): arrayvec" >"$1/../../crates.txt"
    for crate in $crates; do
        cp -r "crates/$crate/src" "$1/src/unit_$crate"
        mv "$1/src/unit_$crate/lib.rt" "$1/src/unit_$crate.rt"
        find "$1/src/unit_$crate" "$1/src/unit_$crate.rt" -name '*.rt' \
            -exec sed -i "s/^\( *use \)crate::/\1crate::unit_$crate::/" {} +
        echo "pub mod unit_$crate;" >>"$1/src/lib.rt"
    done
    for crate in $crates; do
        find "$1/src" -name '*.rt' -exec sed -i "s/^\( *use \)$crate::/\1crate::unit_$crate::/" {} +
    done
    cat >>"$1/src/lib.rt" <<EOF
use crate::unit_machine::machine::Machine;
use crate::unit_rules::sheet::Sheet;
use crate::unit_rules::wait::Strong;
use crate::unit_rules::words::NumberWords;
use crate::unit_tables::draft::Draft;
use crate::unit_tables::line::Entry;

fn tried(mut draft: Draft, sheet: &mut Sheet<u32>) {
    $2
}
EOF
}

# Prints the kinds of error, each once, that the compiler finds in the crates with such a function. The proofs, which are not
# there, have errors of no kind; where it finds nothing else, those show that it came so far.
errors() { # NAME BODY
    join "$work/$1/crates/$1" "$2"
    (cd "$work/$1/crates/$1" && rt check) >"$work/$1.log" 2>&1 || true
    kinds=$(grep -o 'error\[[a-z0-9-]*\]' "$work/$1.log" | sort -u | tr '\n' ' ') || true
    if [ -z "$kinds" ] && ! grep -q 'is not a library that a `ghost use` can import from' "$work/$1.log"; then
        kinds="no answer"
    fi
    printf '%s' "$kinds"
}

expect() { # NAME ERRORS BODY
    found=$(errors "$1" "$3")
    if [ "$found" != "$2" ]; then
        cat "$work/$1.log"
        echo "moved: $1: expected '$2', found '$found'"
        exit 1
    fi
    echo "moved: $1: ${found:-compiles}"
}

add='let _ = draft.add(1, Entry::Barrier);'
close='let mut machine = Machine::close(draft);'
issue='let _ = machine.issue(&Strong, &NumberWords, sheet, 1);'
finish='let _ = machine.finish();'

expect add_close_issue_finish '' "$add $close $issue $finish"
expect add_to_a_closed_draft 'error[borrow-e0382] ' "$close $add $issue $finish"
expect close_twice 'error[borrow-e0382] ' "$close $finish $close $finish"
expect issue_on_a_finished_machine 'error[borrow-e0382] ' "$close $finish $issue"
expect finish_twice 'error[borrow-e0382] ' "$close $finish $finish"
