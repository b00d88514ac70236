#!/usr/bin/env bash
# Each must-fail edit was refused at the fact that its file names, and not for a name or for the shape of the code; and in a copy with a fault of each kind
# the same test finds it. rt ci tries the same edits, and keeps one line of what it says of each; so they are tried here once more (try_edits.py).
# needs: python3
set -euo pipefail
cd "$(dirname "$0")/.."
RT_JOBS=${RT_JOBS:-4} python3 tests/try_edits.py .
python3 tests/edits_test.py .

room=$(mktemp -d)
trap 'rm -rf "$room"' EXIT

# seeded FILE SED EXPECTED: with that change to the edits or to their log the test fails and says so
seen=0
seeded() {
    rm -rf "$room"/*
    for file in "$edits" "$log" $code; do
        mkdir -p "$room/$(dirname "$file")"
        cp "$file" "$room/$file"
    done
    python3 tests/edits_test.py "$room" >"$room/out" || { echo "edits: $edits alone does not pass" >&2; return 1; }
    sed -i "$2" "$room/$1"
    if python3 tests/edits_test.py "$room" >"$room/out"; then echo "edits: $2 was not found" >&2; return 1; fi
    grep -qF "$3" "$room/out" || { echo "edits: $2 was not found as '$3'" >&2; return 1; }
    seen=$((seen + 1))
}

# several together
edits=crates/word/must-fail/code-1.edit log=target/must-fail/word/code-1.log code="crates/word/src/lib.rt crates/word/src/pcset.rt"
seeded "$edits" 's/^at: `returns` of `least`/at: `returns-2` of `least`/' 'word/least_is_largest: it is not refused at `returns-2` of `least`'
seeded "$edits" '/^at: `returns` of `least`/d' 'word/least_is_largest: it is not refused at a fact that its file names'
seeded "$edits" 's/^old:         self.word.trailing_zeros/old:         self.word.count_ones/' 'it is not in a function of its own, but in size'
seeded "$edits" 's/^at: `returns` of `least`/at: `returns` of `up`/' 'word/least_is_largest: it is in least, and names `returns` of `up`'
seeded "$log" '/without_least\/Answers/d' 'word/least_left_in: it is not refused at `returns` of `without_least`'
seeded "$log" '1a ./proofs/pcset/PcSet/least/Answers.antt:1:1: error: `returns`: record `Lts.After` has no field `args`' 'word/least_is_largest: ./proofs/pcset'
seeded "$log" '1a ./proofs/pcset/PcSet/least/Answers.antt:1:1: error: `low`: record `Lts.After` has no field `args`' 'word/least_is_largest: ./proofs/pcset'
seeded "$log" 'd' 'it was not tried: run tests/edits.sh'

# one alone
edits=crates/card/must-fail/depth_of_nothing.edit log=target/must-fail/card/depth_of_nothing.log code=crates/card/specs/Asked.antt
seeded "$edits" 's/^at: .*/at: `returns` of `judge`/' 'card/depth_of_nothing: it is not refused at `returns` of `judge`, but at'
seeded "$edits" '/^at: /d' 'it is not refused at a fact that its file names'
seeded "$log" '1a ./proofs/p/Answers.antt:1:1: error: `returns`: record `Lts.After` has no field `args`' 'has no field `args`'
seeded "$log" 'd' 'it was not tried: run tests/edits.sh'
echo "edits: $seen seeded faults found"
