#!/bin/sh
# Counts, in src/ at a commit (HEAD where none is named), the lines that may hold one of the older forms of docs/DESIGN-PASS.md.
# With -v it prints the lines. The tests of trials count with point 3 only.
set -f
say=-c
[ "$1" = -v ] && { say=-n; shift; }
at=${1:-HEAD}
all="crates/*/src/*.rt"
code="$all :!crates/trials/src/files.rt :!crates/trials/src/tables.rt :!crates/trials/src/walks.rt :!crates/trials/src/weights.rt"

count() {
    point=$1
    pattern=$2
    shift 2
    if [ "$say" = -n ]; then
        echo "-- $point"
        git grep -nE "$pattern" "$at" -- "$@" | sed "s/^[^:]*://"
    else
        echo "$point: $(git grep -hE "$pattern" "$at" -- "$@" | wc -l)"
    fi
}

count "1a enums of the crates' own" '^(pub )?enum ' $code
count "1b a flag, a number for a kind or a refusal, a value that stands for none" ', u8\)|: bool,|kind: u8|fn (kind|number)\(|-> bool$|_ => \(0|else \{ 0 \}|^ +0$|unwrap_or\(0\)|number\(\)\)' $code
count "1c Ok, Err, Some or None passed on by hand" '(Ok|Err|Some|None)(\([a-z_]*\))? => |let (Some|Ok|Err)\(.*else \{$' $code
count "2 the same test of the rows lent" 'rows\.len\(\) < .*shape\.rows\(\)' $code
count "2 numbers read from bytes" '\* (256|65536) \+|from_be_bytes' $code
count "2 entries read one behind the other" '= entry\(rest\)' $code
count "2 sets gathered number by number" 'with_if\(' $code
count "3 loops" '^ *(for .* in .*|while .*|loop) \{$' $all
count "4 conversions" ' as (u8|u16|u32|u64|usize)\b' $code
count "4 conversions by a match" '^ *(Refusal|Right)::[A-Za-z]+ => (b|[0-9])|^ *b.[a-z]. => ' $code
count "4 printing" "format!|push_str|push\(|write!|b'0' \+" $code
count "4 order and bounds" '(self\.value|number) <=? (other\.value|MOST)|input\.len\(\) < MOST_BYTES' $code
count "5 requires" '^ *requires ' $code
count "5 parameters that travel together" '^(pub |pub\(.*\) )?fn .*(shape: Shape, rows|file: &\[u8\], [a-z]+: |words: &\[u64; 64\], )' $code
count "6 arrays of a fixed length" '\[u(8|64); [0-9]+\]|= \[0; [0-9]+\]' $code
count "7 a choice of step by a value" 'passes: bool|\bfn\(|dyn |impl Fn' $code
