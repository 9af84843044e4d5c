#!/bin/sh
# Prints, for each point of docs/DESIGN-PASS.md, the lines of src/ that its pattern finds at a commit, and how many.
# usage: tools/count_places.sh COMMIT [point]
set -eu
commit=$1
only=${2:-}

find_lines() {
    if [ -z "$only" ] || [ "$only" = "$1" ]; then
        lines=$(git grep -nE "$2" "$commit" -- 'crates/*/src/*.rt' | sed "s/^$commit:crates.//" || true)
        printf '== point %s: %s lines for %s\n' "$1" "$(printf '%s' "$lines" | grep -c '' || true)" "$2"
        if [ -n "$only" ]; then printf '%s\n' "$lines"; fi
    fi
}

find_lines 1a ': bool,|\(bool|, bool\)'
find_lines 1b '=> Ok\(\(\)\)|Err\(\w+\) => (return )?Err\(|let Ok\(.* else|is_err\(\)|Ok\(\w+\) => Ok\(\w+\)|if let Some\(fault\)'
find_lines 1c '65536|UNCALLED|number: 0 |number == 0|number > 0|\b[ck] == 0|k > 0|=> 0|map_or\(0|\[0; (4|6|32)\]|calls\[\w+\] = 0'
find_lines 2a 's == 0 \|\| s > self|fn (crate_at|call_at|clearance|height|lift|take_off|row_bears|bears|place_bears)\('
find_lines 2b 'fn read_(bound|budget)|Err\(\(word, reason\)\)|struct (Move|Outcome)Words|\b(672|1344|1345)\b'
find_lines 3 'for \w+ in [a-z0-9._()]+\.\.|while .*<=? |^ *(.\w+: )?loop|enumerate\(\)|= \w+\.saturating_add\(1\)|\+= 1;'
find_lines 4 ' as (u|i)(8|16|32|64|size)|\|\| \(other|Kind::\w+\(n\), Kind|Ok\(BoundChoice|BuildFault::\w+\) =>|derive\(Clone, Copy\)'
find_lines 5 'requires |ensures capacity|c: CrateNumber, k: CallNumber|\(CrateNumber, CallNumber\)|line: usize, text'
find_lines 6 '\[[A-Za-z0-9<>]+; [0-9]+\]|length: usize'
find_lines 7 'match (request\.bound|label|made)\b|dyn |fn\(|Fn(Once|Mut)?\('
